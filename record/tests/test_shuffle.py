"""Builds in opposite orders, by real Ninja: what differs, the pair that it comes from, and what is no difference. After
each of them all stands as it did before."""

from __future__ import annotations

import os
import pathlib
import shutil
import socket
import subprocess
import tempfile
import unittest
import unittest.mock

from builds import missing_tools
from recorder.manifest import Manifest
from recorder.provoke.copies import Refused, in_process
from recorder.shuffle import rooms
from recorder.shuffle.commands import NoBuild, commands_of, read_dyndep
from recorder.shuffle.patching import blocked, chained, with_orders, with_waits
from recorder.shuffle.rooms import layers_of_room, outermost
from recorder.shuffle.words import BadWords, HelpWanted, read_words
from shuffled import NOBODY, RULES, SHUFFLE, Shuffled, statement


def why_no_room() -> str | None:
    """Why this system makes no rooms, or None."""
    with tempfile.TemporaryDirectory() as folder:
        try:
            layers_of_room([os.fsencode(os.path.realpath(folder))], dict(os.environ))
        except Refused as why:
            return f"this system makes no copies: {why}"
    return None


LACKING = missing_tools("ninja") or why_no_room()
DIFFERS = 4
SYSTEM = "/usr/bin:/bin"
HIDDEN = statement("v.h", "echo 1 > v.h") + statement("m.o", "cat v.h > m.o")
SOFT = statement("a", "echo x > f; touch a") + statement("b", "cat f > b 2>/dev/null || echo none > b")
SOUND = statement("v.h", "echo 1 > v.h") + statement("m.o", "cat v.h > m.o", "|| v.h") + statement("n", "echo n > n")


@unittest.skipIf(LACKING, LACKING)
class RoomsBesideOthers(unittest.TestCase):
    """Others' folders of temporaries come and go while a room is made."""

    def made_while_removed(self, *names: str, removed: str, is_mount: bool = False) -> None:
        """Makes a room with copies of these folders, one of which is removed after it was opened. Raises Refused."""
        with tempfile.TemporaryDirectory() as top:
            folders = [pathlib.Path(os.path.realpath(top), it) for it in names]
            for it in folders:
                it.mkdir()
            place = folders[0].parent / removed
            if is_mount:
                subprocess.run(["mount", "-t", "tmpfs", "rebug", place], check=True)
            remove = f"umount {place} && rmdir {place}" if is_mount else f"rmdir {place}"
            by = subprocess.Popen(["sh", "-c", f"read line; {remove} && echo removed"],
                                  stdin=subprocess.PIPE, stdout=subprocess.PIPE)
            opened = rooms._opened

            def opened_before(layers):
                found = opened(layers)
                os.write(by.stdin.fileno(), b"now\n")
                self.assertEqual(os.read(by.stdout.fileno(), 64), b"removed\n")
                return found

            layers = [rooms.Layer(os.fsencode(it), rooms.Kind.COPY) for it in folders]
            try:
                with unittest.mock.patch.object(rooms, "_opened", opened_before):
                    in_process(lambda: os.close(rooms.enter(layers, 1 << 24)))
            finally:
                by.communicate()

    def test_a_folder_below_another_is_left_out(self):
        self.made_while_removed("top", "top/inner", removed="top/inner")

    @unittest.skipIf(os.geteuid(), "needs root: it mounts a folder")
    def test_a_mount_below_another_is_left_out(self):
        self.made_while_removed("top", "top/inner", removed="top/inner", is_mount=True)

    def test_a_folder_of_the_build_is_not(self):
        with self.assertRaisesRegex(Refused, "twice: No such file or directory"):
            self.made_while_removed("build", "source", removed="source")


class Words(unittest.TestCase):
    def refused(self, *words: str) -> str:
        with self.assertRaises(BadWords) as caught:
            read_words(words)
        return str(caught.exception)

    def test_what_each_word_asks_for(self):
        it = read_words(["b", "out", "--runs", "3", "--repeat", "2", "--seed", "7", "--overlap", "-j", "2", "--json",
                         "--", "-f", "other.ninja", "all"])
        self.assertEqual((it.build, it.out, it.runs, it.repeat, it.seed, it.overlap, it.jobs, it.json),
                         ("b", "out", 3, 2, 7, True, 2, True))
        self.assertEqual((it.for_ninja.manifest, it.for_ninja.targets), (b"other.ninja", [b"all"]))
        it = read_words(["b"])
        self.assertEqual((it.out, it.runs, it.repeat, it.overlap, it.jobs, it.json),
                         (None, None, None, False, None, False))
        with self.assertRaises(HelpWanted) as caught:
            read_words(["--help"])
        self.assertIn("exit status:", str(caught.exception))

    def test_words_that_are_not_taken_are_named(self):
        for words, said in (([], "wants a build folder"), (["b", "o", "x"], "x is not a word"),
                            (["b", "--runs", "1"], "--runs 1: so many orders, from 2 on"),
                            (["b", "--runs", "many"], "--runs many"), (["b", "--repeat", "1"], "--repeat 1"),
                            (["b", "--seed", "-1"], "--seed"), (["b", "-j", "0"], "-j 0"),
                            (["b", "--overla"], "--overla is not a word"),
                            (["b", "--blocks", "1"], "--blocks 1: so many commands, from 2 on"),
                            (["b", "--observe"], "--observe leaves recordings in OUT_DIR"),
                            (["b", "o", "--observe", "--in-copy"], "--observe records builds at their own path"),
                            (["b", "--", "-t", "clean"], "-t runs a tool"),
                            (["b", "--", "-j4"], "-j stands in front of --"),
                            (["b", "--", "-n"], "-n runs no command")):
            with self.subTest(words=words):
                self.assertIn(said, self.refused(*words))

    def test_the_launcher_hands_its_words_on(self):
        launcher = pathlib.Path(SHUFFLE).parent.parent / "rebug"
        done = [subprocess.run([*words, "--help"], capture_output=True, text=True)
                for words in ([launcher, "shuffle"], [SHUFFLE])]
        self.assertEqual(*((it.returncode, it.stdout, it.stderr) for it in done))
        self.assertEqual((done[0].returncode, done[0].stdout[:26]), (0, "usage: rebug shuffle BUILD"))


def read(text: str, **others: str) -> Manifest:
    files = {"build.ninja": text, **others}
    return Manifest(b"build.ninja", lambda name: files[os.fsdecode(name)].encode())


class Patches(unittest.TestCase):
    """Where an order and a wait go in a statement."""

    def test_an_order_stands_behind_each_form_of_a_statement(self):
        for before, after in (("build b: r", "build b: r || a$ b"),
                              ("build b: r x | y || z", "build b: r x | y || z a$ b"),
                              ("build b: r x |@ v", "build b: r x || a$ b |@ v"),
                              ("build b: r x|@ v", "build b: r x || a$ b |@ v"),
                              ("build b: r $\n  x $\n", "build b: r $\n  x || a$ b $\n"),
                              ("build b: r x  ", "build b: r x || a$ b  "),
                              ("build b: r x$ y\r", "build b: r x$ y || a$ b\r"),
                              ("build b: r x || a$ b", "build b: r x || a$ b")):
            with self.subTest(before=before):
                manifest = read(f"rule r\n  command = c\n{before}\nbuild v: phony\n")
                made = with_orders(manifest, {0: b"a b"})
                text = made.get(b"build.ninja", manifest.files[0][1]).decode()
                self.assertEqual(text, f"rule r\n  command = c\n{after}\nbuild v: phony\n")

    def test_a_chain_goes_through_files_that_are_named(self):
        manifest = read("rule r\n  command = c\nbuild a: r\nsubninja sub\nbuild c: r\nbuild p: phony a c d\n",
                        sub="build d: r\n")
        commands = commands_of(manifest, b"build.ninja", [])
        order = [commands.node_with(it) for it in (b"c", b"d", b"a")]
        made = chained(commands, order)
        self.assertEqual(made, {b"build.ninja": b"rule r\n  command = c\nbuild a: r || d\nsubninja sub\nbuild c: r\n"
                                                b"build p: phony a c d\n", b"sub": b"build d: r || c\n"})

    def test_a_file_that_is_read_twice_has_no_chain(self):
        manifest = read("rule r\n  command = c\nx = 1\nsubninja sub\nx = 2\nsubninja sub\n", sub="build d$x: r\n")
        commands = commands_of(manifest, b"build.ninja", [])
        self.assertEqual(chained(commands, commands.graph.commands[:1]), {})
        with self.assertRaises(NoBuild) as caught:
            with_orders(manifest, {0: b"y", 1: b"z"})
        self.assertIn("sub is read twice", str(caught.exception))

    def test_a_wait_changes_neither_commands_nor_what_is_looked_up(self):
        text = ("f = file\nrule r\n  command = echo $f $in > $out\nrule s\n  f = rule\n  command = echo $f > $out\n"
                "build a: r $\n  x\nbuild b: r\n  f = own\nbuild c: s\n")
        made = with_waits(read(text), 3, 0.5)[b"build.ninja"].decode()
        before, after = (read(it).edges for it in (text, made))
        for one, other in zip(before, after):
            waits, _, command = other.binding(b"command").partition(b"; ")
            self.assertEqual(command, one.binding(b"command"))
            self.assertRegex(waits, rb"^sleep 0(\.\d{3})?$")
        self.assertEqual(after[2].binding(b"command"), b"sleep 0; echo file > c")  # its rule's name is the file's, too
        self.assertEqual(with_waits(read(text), 3, 0.5), with_waits(read(text), 3, 0.5))

    def test_blocks_have_barriers_between_them(self):
        manifest = read("rule r\n  command = c\nbuild a: r\nbuild b$ c: r\nbuild d: r || a\nbuild e: r\n"
                        "build rebug_barrier_1: phony a")
        commands = commands_of(manifest, b"build.ninja", [])
        order = [commands.node_with(it) for it in (b"e", b"a", b"b c", b"d")]
        self.assertEqual(blocked(commands, order, 2)[b"build.ninja"].decode(), (
            "rule r\n  command = c\nbuild a: r\nbuild b$ c: r || rebug_barrier__1\n"
            "build d: r || a rebug_barrier__1\nbuild e: r\nbuild rebug_barrier_1: phony a\n"
            "build rebug_barrier__1: phony e a\n"))
        made = blocked(commands, order, 1)[b"build.ninja"].decode()
        self.assertIn("build rebug_barrier__3: phony rebug_barrier__2 b$ c\n", made)
        self.assertEqual(blocked(commands, order, 4), {})

    def test_dyndep_files_add_inputs_and_outputs(self):
        manifest = read("rule r\n  command = c\nbuild a: r || dd\n  dyndep = dd\nbuild e$ f: r\nbuild dd: r\n")
        found = read_dyndep(manifest, {b"dd": b"ninja_dyndep_version = 1\nbuild a | m1 $\n m2: dyndep | e$ f\n"
                                              b"  restat = 1\nbuild no: dyndep | x\n"})
        self.assertEqual(found, {0: ([b"e f"], [b"m1", b"m2"])})
        commands = commands_of(manifest, b"build.ninja", [b"a"], found)
        self.assertEqual({commands.first_output(it) for it in commands.graph.waited_for(commands.node_with(b"a"))},
                         {b"e f", b"dd"})

    def test_what_makes_the_manifest_is_no_step(self):
        manifest = read("rule r\n  command = c\nbuild tool: r\nbuild build.ninja: r | tool\nbuild x: r | tool\n")
        commands = commands_of(manifest, b"build.ninja", [])
        self.assertEqual([commands.first_output(it) for it in commands.graph.commands], [b"x"])

    def test_outermost_folders(self):
        self.assertEqual(outermost([b"/a/b", b"/a", b"/ab", b"/a"]), [b"/a", b"/ab"])


@unittest.skipIf(LACKING, LACKING)
class Case(unittest.TestCase):
    """A build that is shuffled; in the end nothing of it is changed."""

    def made(self, text: str, files: dict[str, str] | None = None, rules: str = RULES) -> Shuffled:
        it = Shuffled(text, files, rules)
        self.addCleanup(it.remove)
        return it

    def answer(self, it: Shuffled, *words: object, **how: object):
        before = it.everything()
        found = it.shuffle(*words, **how)
        self.assertEqual(it.everything(), before)
        return found

    def differs(self, it: Shuffled, pair: tuple[str, str], *words: object, **how: object):
        """The difference, which comes from this pair, and is mended by its order."""
        found = self.answer(it, *words, **how)
        self.assertEqual(found.status, DIFFERS, (found.said, found.objects))
        self.assertEqual((found.pair, found.difference["mended"]), (pair, True), found.objects)
        return found

    def same(self, it: Shuffled, *words: object, **how: object):
        found = self.answer(it, *words, **how)
        self.assertEqual((found.status, found.of("difference"), found.said), (0, [], ""), found.objects)
        return found


class Differences(Case):
    def test_a_command_fails_in_another_order(self):
        it = self.made(HIDDEN)
        found = self.differs(it, ("v.h", "m.o"))
        self.assertEqual((found.difference["statuses"], found.difference["failed"]), ([0, 1], "m.o"))
        self.assertEqual(found.difference["mend"], "build.ninja:5: build m.o: ... || v.h")
        # printf 'race\0v.h\0v.h\0m.o' | sha256sum
        self.assertEqual(found.difference["id"], "a8c36cf9ce18c1ab")

    def test_a_command_leaves_other_bytes_in_another_order(self):
        found = self.differs(self.made(SOFT + statement("c", "cat b > c", "b")), ("a", "b"))
        self.assertEqual((found.difference["paths"], [it["output"] for it in found.difference["causes"]]),
                         (["b", "c"], ["b"]))

    def test_the_mend_is_a_line_that_mends(self):
        it = self.made(HIDDEN)
        text = (it.build / "build.ninja").read_text().replace("build m.o: r", "build m.o: r || v.h")
        (it.build / "build.ninja").write_text(text)
        self.assertEqual(self.same(it).end["left"], 0)

    def test_a_file_is_there_after_one_order_alone(self):
        it = self.made(statement("a", "touch a; test -e b || echo a > first") + statement("b", "touch b"))
        self.assertEqual(self.differs(it, ("a", "b")).difference["paths"], ["first"])

    def test_modes_and_links_are_compared(self):
        it = self.made(statement("a", "test -e b && chmod 755 s; touch a") + statement("b", "touch b"),
                       {"build/s": "s\n"})
        self.assertEqual(self.differs(it, ("a", "b")).difference["paths"], ["s"])
        it = self.made(statement("a", "ln -sfn a l; touch a") + statement("b", "ln -sfn b l; touch b"))
        self.assertEqual(self.differs(it, ("a", "b")).difference["paths"], ["l"])

    def test_a_source_is_changed_beside_the_build_folder(self):
        it = self.made(statement("a", "echo a >> ../src/s; touch a", "| ../src/s")
                       + statement("b", "echo b >> ../src/s; touch b", "| ../src/s"), {"src/s": "s\n"})
        found = self.differs(it, ("a", "b"))
        self.assertEqual(found.difference["paths"], [str(it.room / "src/s")])

    def test_three_commands_meet_so_that_the_opposite_order_agrees(self):
        """In a b c and in c b a the link leads to v2 as c looks, and in a c b it leads to v1: a third order by chance
        shows it, by one seed in three."""
        it = self.made(statement("a", "ln -sfn v1 cur; echo a > a") + statement("b", "ln -sfn v2 cur; echo b > b")
                       + statement("c", "readlink cur > c") + statement("d", "ln -sfn v3 cur; cat a b c > d", "a b c"))
        (it.build / "cur").symlink_to("v2")
        self.assertEqual(self.same(it, "--runs", "2").end["left"], 0)
        found = [self.answer(it, "--seed", seed) for seed in range(8)]
        self.assertIn(DIFFERS, {them.status for them in found})
        pairs = {them.pair for them in found if them.status}
        self.assertTrue(pairs <= {("a", "b"), ("b", "c")}, pairs)  # each swap of these changes what c sees

    def test_an_order_that_never_ends_is_a_difference(self):
        it = self.made(statement("a", "echo x > f; touch a")
                       + statement("b", "while ! test -e f; do sleep 0.1; done; touch b"))
        found = self.answer(it, "--limit", "4")
        self.assertEqual((found.status, found.difference["late"], found.pair), (DIFFERS, True, ("a", "b")),
                         found.objects)

    def test_the_own_order_fails_and_another_one_does_not(self):
        it = self.made(statement("m.o", "cat v.h > m.o") + statement("v.h", "echo 1 > v.h"))
        found = self.differs(it, ("v.h", "m.o"))
        self.assertEqual(found.difference["statuses"], [0, 1])

    def test_several_differences_are_mended_one_after_the_other(self):
        text = HIDDEN + statement("w.h", "echo 1 > w.h") + statement("n.o", "cat w.h v.h > n.o", "|| v.h")
        text += statement("k.o", "cat v.h > k.o")
        it = self.made(text + statement("p.o", "cat w.h > p.o 2>/dev/null || echo none > p.o"))
        found = self.answer(it, "--mend-all")
        pairs = {(them["maker"]["output"], them["user"]["output"]) for them in found.of("difference")}
        due = {("v.h", "m.o"), ("v.h", "k.o"), ("w.h", "n.o"), ("w.h", "p.o")}
        self.assertEqual((found.status, pairs), (DIFFERS, due), found.objects)
        self.assertEqual([them["mended"] for them in found.of("difference")], [True] * 4)

    def test_a_pair_that_never_ran_is_no_pair_that_stood_both_ways(self):
        """In the opposite order the first command fails, so that no pair of the others has stood both ways."""
        it = self.made("".join(statement(name, f"touch {name}") for name in "abc") + statement("z", "cat a > z"))
        found = self.answer(it, "--runs", "2")
        self.assertEqual((found.status, found.end["pairs"], found.end["left"]), (DIFFERS, 6, 6), found.objects)

    def test_what_overlaps_shows_only_where_that_is_asked_for(self):
        look = "sleep 0.1; mkdir lock 2>/dev/null && { echo free > b; rmdir lock; } || echo no > b"
        it = self.made(statement("a", "mkdir lock; sleep 0.5; rmdir lock; touch a") + statement("b", look))
        self.same(it)
        found = self.answer(it, "--overlap")
        self.assertEqual((found.status, found.difference["user"]["output"]), (DIFFERS, "b"), found.objects)
        self.assertEqual([them["output"] for them in found.difference["beside"]], ["a"])

    def test_an_order_is_repeated_by_its_number(self):
        found = self.answer(self.made(SOFT + SOUND), "--repeat", "2")
        self.assertEqual([(it["number"], it["status"]) for it in found.of("order")], [(1, 0), (2, 0)])
        self.assertEqual((found.status, found.pair), (DIFFERS, ("a", "b")))
        found = self.answer(self.made(SOFT + SOUND), "--repeat", "99")
        self.assertEqual((found.status, found.said.count("\n"), "there is no order 99" in found.said), (2, 1, True))

    def test_a_manifest_of_another_name_and_targets(self):
        it = self.made("build x: phony\n", {"build/other.ninja": RULES + SOFT + SOUND})
        self.differs(it, ("a", "b"), "--", "-f", "other.ninja")
        self.same(it, "--", "-f", "other.ninja", "m.o", "n")

    def test_in_words(self):
        status, text = self.made(HIDDEN).told()
        self.assertEqual((status, text), (DIFFERS, (
            "difference: order 2 leaves something else than its own order\n"
            "  status 1, and not 0\n"
            "    m.o failed, and wrote\n"
            "      cat: v.h: No such file or directory\n"
            "  v.h (build.ninja:3) must run before m.o (build.ninja:5), which does not wait for it\n"
            "    mend: build.ninja:5: build m.o: ... || v.h\n"
            "    tried: with it order 2 leaves the same\n"
            "in 2 builds from nothing 0 of 1 unordered pairs of 2 commands stood both ways; 1 pair left\n"
            "1 difference found: status and 3 paths compared, in 9 runs\n")))

    def test_both_forms_of_what_differs_are_kept(self):
        it = self.made(SOFT)
        out = it.room / "out"
        others = lambda: {name: them for name, them in it.everything().items()
                          if not name.startswith(str(out)) and name != str(it.room)}
        before = others()
        self.assertEqual(it.shuffle(out).status, DIFFERS)
        self.assertEqual(others(), before)
        kept = {str(path.relative_to(out)): path.read_text() for path in out.rglob("*") if path.is_file()}
        self.assertEqual(kept, {"order-1": "a\nb\n", "order-2": "b\na\n", "difference-1/order-1/b": "x\n",
                                "difference-1/order-2/b": "none\n"})


class NoDifferences(Case):
    def test_a_sound_build(self):
        found = self.same(self.made(SOUND + "build all: phony m.o n\n"))
        self.assertEqual((found.end["commands"], found.end["pairs"], found.end["left"]), (3, 2, 0))

    def test_a_chain_goes_through_names_that_wait_for_nobody(self):
        it = self.made("build nobody: phony\n" + statement("a", "touch a", "|| nobody") + "build p: phony a\n"
                       + statement("b", "touch b", "| p") + statement("c", "touch c"))
        self.assertEqual(self.same(it).end["left"], 0)

    def test_what_differs_from_run_to_run_is_told_apart(self):
        it = self.made(statement("a", "date +%N > a; mktemp -p . tmp.XXXXXX") + statement("b", "echo b > b"))
        self.assertEqual([name for name in self.same(it).end["unsteady"] if not name.startswith("tmp.")], ["a"])
        found = self.differs(self.made(SOFT + statement("t", "date +%N > t")), ("a", "b"))
        self.assertEqual((found.end["unsteady"], found.difference["paths"]), (["t"], ["b"]))

    def test_what_changes_each_second_is_no_difference(self):
        """Two runs in one second leave the same, and a third one may not."""
        it = self.made(statement("a", "date +%s > a") + statement("b", "sleep 0.4; echo b > b"))
        for _ in range(4):
            self.assertIn(self.same(it).end["unsteady"], ([], ["a"]))

    def test_a_later_command_mends_what_differed(self):
        it = self.made(statement("a", "echo a >> log; touch a") + statement("b", "echo b >> log; touch b")
                       + statement("c", "echo c > log; touch c", "a b"))
        self.same(it)

    def test_a_later_command_changes_an_output_in_place(self):
        """What differs is what the user left, and not what the later command made of it."""
        it = self.made(SOFT + statement("c", "echo more >> b; touch c", "b"))
        self.differs(it, ("a", "b"))

    def test_two_runs_share_no_folder_of_temporaries_no_port_and_no_memory(self):
        with tempfile.NamedTemporaryFile(prefix="rebug-shuffle-") as file, socket.socket() as own:
            own.bind(("127.0.0.1", 0))
            port = own.getsockname()[1]
            text = statement("a", f"echo $$ >> {file.name}; sleep 0.3; test $(wc -l < {file.name}) = 1; touch a")
            text += statement("b", f"python3 -B -c 'import socket, time; s = socket.socket(); "
                                   f"s.bind((\"127.0.0.1\", {port})); s.listen(); time.sleep(0.3)'; echo $? > b")
            text += statement("c", "echo x > ${HOME:-/tmp}/.rebug-shuffle-test; touch c")
            found = self.same(self.made("build all: phony a b c\n" + text), "-j", "4")
            self.assertEqual(found.end["runs"], 4 if len(found.of("order")) == 3 else 5)
            self.assertEqual(os.path.getsize(file.name), 0)
        self.assertFalse(os.path.exists(os.path.expanduser("~/.rebug-shuffle-test")))

    def test_nothing_can_be_written_elsewhere(self):
        place = f"/opt/rebug-shuffle-{os.getpid()}"
        it = self.made(statement("a", f"touch {place}; test -e {place} && echo yes > a || echo no > a") + SOUND)
        out = it.room / "out"
        self.same(it)
        self.assertFalse(os.path.exists(place))
        self.assertFalse(out.exists())

    def test_what_is_left_of_an_earlier_build_hides_nothing(self):
        """A header that no line declares, and that an earlier build left."""
        text = statement("v", "echo 1 > v.h; touch v") + statement("m.o", "cat v.h > m.o")
        it = self.made(text)
        it.ninja("-j1")
        found = self.differs(it, ("v", "m.o"))
        self.assertEqual(found.end["leftovers"], ["v.h"])

    def test_a_source_that_is_edited_in_place_is_no_leftover(self):
        it = self.made(statement("a", "sed s/1/2/ s > t; cat t > s; rm t; touch a") + SOUND, {"build/s": "1\n"})
        self.assertEqual(self.same(it).end["leftovers"], [])

    def test_outputs_of_an_earlier_build_are_taken_away(self):
        it = self.made(HIDDEN)
        it.ninja("-j1")
        self.differs(it, ("v.h", "m.o"))

    def test_what_dyndep_files_say_is_waited_for(self):
        text = (statement("dd", "printf 'ninja_dyndep_version = 1\\nbuild m.o: dyndep | v.h\\n' > dd")
                + statement("v.h", "echo 1 > v.h") + "build m.o: r || dd\n  dyndep = dd\n  c = cat v.h > m.o\n")
        found = self.same(self.made(text))
        self.assertEqual((found.end["pairs"], found.end["left"]), (1, 0), found.objects)
        self.assertTrue(all(it["possible"] for it in found.of("order")))

    def test_console_and_pools(self):
        rules = RULES + "rule k\n  command = $c\n  pool = console\npool p\n  depth = 1\nrule q\n  command = $c\n"
        rules += "  pool = p\n"
        text = "".join(f"build {name}: {rule}\n  c = echo {name} > {name}\n" for name, rule in
                       zip("abcdef", ("k", "r", "k", "q", "q", "r")))
        self.assertEqual(self.same(self.made(text, rules=rules)).end["left"], 0)
        text += "build g: k\n  c = cat e > g\n"
        self.differs(self.made(text, rules=rules), ("e", "g"))

    def test_the_manifest_makes_itself(self):
        rules = RULES + "rule again\n  command = touch build.ninja; echo made >> made\n  generator = 1\n"
        it = self.made("build build.ninja: again in.txt\n" + SOFT, {"build/in.txt": ""}, rules)
        it.ninja("-j1")
        found = self.differs(it, ("a", "b"))
        self.assertEqual(found.end["commands"], 2)
        before = it.everything()
        os.utime(it.build / "in.txt")
        before = it.everything()
        status, said = it.told()
        self.assertEqual((status, said.count("\n"), "makes its manifest anew" in said), (3, 1, True), said)
        self.assertEqual(it.everything(), before)

    def test_absolute_paths_into_the_build_are_those_of_the_copy(self):
        it = self.made(statement("@ROOM@/build/v.h", "echo 1 > @ROOM@/build/v.h")
                       + statement("m.o", "cat @ROOM@/build/v.h > m.o"))
        self.differs(it, (f"{it.build}/v.h", "m.o"))

    def test_outputs_elsewhere_and_behind_a_link(self):
        it = self.made(statement("@ROOM@/elsewhere/a", "echo x > @ROOM@/elsewhere/f; touch @ROOM@/elsewhere/a")
                       + statement("b", "cat l/f > b 2>/dev/null || echo none > b"))
        (it.build / "l").symlink_to(it.room / "elsewhere")
        self.differs(it, (f"{it.room}/elsewhere/a", "b"))

    def test_one_file_by_two_names(self):
        it = self.made(statement("a", "echo new > x; touch a") + statement("b", "cat y > b"), {"build/x": "old\n"})
        os.link(it.build / "x", it.build / "y")
        found = self.answer(it)
        self.assertEqual(found.status, DIFFERS if os.geteuid() == 0 else found.status, found.objects)

    def test_odd_names(self):
        odd = "build o$ dd$$$:x: r\n  c = echo x > 'o dd$$:x'\nbuild u: r\n  c = cat 'o dd$$:x' > u\n"
        self.differs(self.made(odd), (r"o\sdd$:x", "u"))

    def test_commands_that_validate_are_run_behind(self):
        rules = "ninja_required_version = 1.11\n" + RULES
        text = SOFT + statement("check", "cat b > check", "b") + statement("top", "touch top", "a b |@ check")
        self.differs(self.made(text, rules=rules), ("a", "b"), "--", "top")

    def test_a_standard_input_is_read_by_each_run(self):
        it = self.made("".join(f"build {name}: r\n  pool = console\n  c = read l; echo $$l > {name}\n"
                               for name in "ab"))
        (it.room / "lines").write_text("1\n2\n")
        with open(it.room / "lines", encoding="ascii") as file:
            found = self.answer(it, stdin=file)
        self.assertEqual((found.status, set(found.pair or ())), (DIFFERS, {"a", "b"}), found.objects)


class OfAnotherUser(Case):
    """A user without rights gets the same, where this system allows user namespaces."""

    def setUp(self):
        if os.geteuid():
            self.skipTest("only root can become another user")

    def test_a_user_without_rights(self):
        it = self.made(HIDDEN + SOFT)
        for path in [it.room, *it.room.rglob("*")]:
            os.chown(path, NOBODY, NOBODY)
        python = shutil.which("python3", path=SYSTEM)
        if not python or not shutil.which("ninja", path=SYSTEM):
            self.skipTest("another user has no Python or no Ninja")
        how = {"user": NOBODY, "group": NOBODY, "extra_groups": [], "executable": python,
               "env": {"PATH": SYSTEM, "HOME": str(it.room)}}
        before = it.everything()
        found = it.shuffle(**how)
        self.assertEqual(it.everything(), before)
        if found.status == 2 and "namespace" in found.said:
            self.skipTest(found.said)
        self.assertEqual((found.status, found.difference["mended"]), (DIFFERS, True), (found.said, found.objects))
        self.assertIn(found.pair, [("v.h", "m.o"), ("a", "b")])


if __name__ == "__main__":
    unittest.main()
