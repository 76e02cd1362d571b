"""What calls do to footprints, one rule at a time: calls are made up here, and no build is run.

Each case is a build of commands whose shells are children of Ninja; what a command looked at and left is compared by
paths from its folder, `/build`, where nothing is on the disk.
"""

import errno
import itertools
import os
import pathlib
import random
import tempfile
import unittest
from dataclasses import dataclass

from recorder.observed.calls import CLONE_FILES, CLONE_FS, CLONE_THREAD, CURRENT, Call, Kind
from recorder.observed.effects import Build
from recorder.observed.matching import match
from recorder.observed.places import Places
from recorder.observed.processes import Command
from recorder.observed.servers import Address
from recorder.observed.shares import Changes, flag_what_two_share
from recorder.observed.writing import KINDS, kinds_of, ranges

NINJA, SHELL = 1, 10
WRITE = os.O_WRONLY | os.O_CREAT | os.O_TRUNC
ABSENT = -errno.ENOENT


def opened(path, flags=os.O_RDONLY, result=3, folder=CURRENT):
    return Call(Kind.OPEN, path, folder, flags=flags, result=result)


def call(kind, path=b"", other=b"", result=0, folder=CURRENT, other_folder=CURRENT, flags=0):
    return Call(kind, path, folder, other, other_folder, flags, result)


def shell(text=b"c"):
    return Call(Kind.EXEC, b"/bin/sh", command=text)


def some_calls():
    """Calls that mostly ask for what is not there, and some that change where these lead, or what is theirs."""
    asked = [opened(path, result=ABSENT) for path in (b"a", b"b", b"d/a", b"link/a", b"/none/a")]
    asked += [call(Kind.STAT, path, result=ABSENT) for path in (b"a", b"d/b", b"link")]
    asked += [call(Kind.UNLINK, b"a", result=ABSENT), opened(b"a", os.O_DIRECTORY, -errno.ENOTDIR)]
    changes = [opened(b"a", WRITE), opened(b"d/a", WRITE), call(Kind.UNLINK, b"a"), call(Kind.SYMLINK, other=b"link"),
               call(Kind.UNLINK, b"link"), call(Kind.CHDIR, b"d"), call(Kind.CHDIR, b".."), opened(b"b"),
               call(Kind.RENAME, b"b", b"d/a"), call(Kind.NAMESPACE, b"d")]
    return [*asked, *asked, *asked, *changes]


SOME_CALLS = len(some_calls())


class Rules(unittest.TestCase):
    def setUp(self):
        room = tempfile.TemporaryDirectory(prefix="rebug-rules-")
        self.addCleanup(room.cleanup)
        self.folder = os.fsencode(os.path.realpath(room.name))

    def build(self, events, texts=(b"c",), present=()):
        """The build of these events, behind Ninja's first program."""
        places = Places()
        known = {places.of(self.folder + b"/" + path): is_there for path, is_there in dict(present).items()}
        build = Build(set(texts), self.folder, places, known)
        build.take_all(itertools.chain([(NINJA, call(Kind.EXEC, b"/usr/bin/ninja"))], events))
        build.processes.finish()
        return build

    def one(self, *calls, present=(), ends=True):
        """The footprint of one command that makes these calls: by kind, paths from the folder; those of programs and
        libraries, outside of it, are left out."""
        events = [(NINJA, call(Kind.SPAWN, result=SHELL)), (SHELL, shell())]
        events += [it if isinstance(it, tuple) else (SHELL, it) for it in calls]
        events += [(SHELL, call(Kind.EXIT)), (NINJA, call(Kind.EXIT))] if ends else [(NINJA, call(Kind.EXIT))]
        build = self.build(events, present=present)
        self.flags = build.commands[0].flags
        return self.sets(build, build.commands[0])

    def sets(self, build, command):
        top, found, sets = self.folder + b"/", {}, kinds_of(command.packed)
        for kind in KINDS:
            paths = [build.places.paths[it] for it in sets.get(kind, ())]
            inside = {it.removeprefix(top) for it in paths if it.startswith(top)}
            if inside:
                found[kind] = inside
        return found

    # looks

    def test_kinds_of_looks(self):
        self.assertEqual(
            self.one(opened(b"a"), call(Kind.STAT, b"b"), opened(b"c", result=ABSENT),
                     call(Kind.STAT, b"d", result=ABSENT), call(Kind.EXEC, b"e"),
                     opened(b"f", os.O_RDONLY | os.O_DIRECTORY, 5), call(Kind.LIST, folder=5),
                     opened(b"g", os.O_RDONLY | os.O_DIRECTORY, 6),
                     call(Kind.UNLINK, b"h", result=ABSENT), opened(b"i", result=-errno.EACCES),
                     opened(b"j", os.O_RDONLY | os.O_DIRECTORY, -errno.ENOTDIR)),
            {"reads": {b"a", b"e"}, "stats": {b"b", b"g", b"i", b"j"}, "misses": {b"c", b"d", b"h"}, "lists": {b"f"}})

    def test_a_read_behind_the_commands_own_write_is_none(self):
        self.assertEqual(self.one(opened(b"a", WRITE), opened(b"a"), call(Kind.STAT, b"a")), {"writes": {b"a"}})

    def test_a_read_before_the_commands_own_write_is_one(self):
        self.assertEqual(self.one(opened(b"a"), opened(b"a", WRITE)), {"reads": {b"a"}, "writes": {b"a"}})

    def test_a_look_behind_the_commands_own_removal_is_none(self):
        self.assertEqual(self.one(call(Kind.UNLINK, b"a"), opened(b"a", result=ABSENT)), {"deletes": {b"a"}})

    def test_equal_calls_that_are_one_object(self):
        """Calls that come again and again are taken all at once as they are one by one, whatever came between them."""
        for seed in range(100):
            chance = random.Random(seed)
            numbers = [chance.randrange(SOME_CALLS) for _ in range(chance.randint(20, 120))]
            shells = sorted(chance.randrange(3) for _ in numbers)
            found = []
            for is_at_once in (True, False):
                build = Build({b"c"}, self.folder, Places(), {})
                calls = some_calls()
                events = [(NINJA, call(Kind.EXEC, b"/usr/bin/ninja"))]
                for it in range(3):
                    events += [(NINJA, call(Kind.SPAWN, result=SHELL + it)), (SHELL + it, shell())]
                events += [(SHELL + it, calls[number]) for it, number in zip(shells, numbers)]
                events += [(NINJA, call(Kind.EXIT)), (SHELL, opened(b"behind"))]
                if is_at_once:
                    self.assertTrue(build.take_all(iter(events)))
                else:
                    for event in events:
                        if not build.take(event):
                            break
                build.processes.finish()
                found.append([(self.sets(build, it), it.flags) for it in build.commands])
            self.assertEqual(*found)
            self.assertEqual(len(found[0]), 3)

    def test_an_equal_call_behind_a_link_that_leads_to_nothing(self):
        """What an equal call asked for in vain is a link by then: that is looked at, and its end is missing."""
        asks = call(Kind.STAT, b"link", result=ABSENT)

        def events():
            for it in range(2):
                yield from ((NINJA, call(Kind.SPAWN, result=SHELL + it)), (SHELL + it, shell()), (SHELL + it, asks))
                if not it:
                    os.symlink(b"nothing", self.folder + b"/link")
                    yield SHELL, call(Kind.SYMLINK, other=b"link")
            yield NINJA, call(Kind.EXIT)

        build = self.build(events())
        self.assertEqual([self.sets(build, it) for it in build.commands],
                         [{"misses": {b"link"}, "writes": {b"link"}}, {"stats": {b"link"}, "misses": {b"nothing"}}])

    # what is left

    def test_a_temporary(self):
        self.assertEqual(self.one(opened(b"t", WRITE), opened(b"t"), call(Kind.UNLINK, b"t")), {"temps": {b"t"}})

    def test_what_was_there_and_is_taken_away_is_no_temporary(self):
        self.assertEqual(self.one(opened(b"t"), opened(b"t", WRITE), call(Kind.UNLINK, b"t")),
                         {"reads": {b"t"}, "deletes": {b"t"}})
        self.assertEqual(self.one(opened(b"t", WRITE), call(Kind.UNLINK, b"t"), present={b"t": True}),
                         {"deletes": {b"t"}})

    def test_what_is_taken_away_and_made_again_is_left(self):
        self.assertEqual(self.one(call(Kind.UNLINK, b"a"), opened(b"a", WRITE)), {"writes": {b"a"}})

    def test_a_rename(self):
        self.assertEqual(self.one(opened(b"new", WRITE), call(Kind.RENAME, b"new", b"a"), opened(b"a")),
                         {"temps": {b"new"}, "writes": {b"a"}})

    def test_a_rename_of_what_another_made(self):
        self.assertEqual(self.one(call(Kind.RENAME, b"old", b"a")),
                         {"reads": {b"old"}, "deletes": {b"old"}, "writes": {b"a"}})

    def test_an_exchange(self):
        self.assertEqual(self.one(call(Kind.EXCHANGE, b"a", b"b")), {"reads": {b"a", b"b"}, "writes": {b"a", b"b"}})

    def test_edits(self):
        append = os.O_WRONLY | os.O_CREAT | os.O_APPEND
        self.assertEqual(self.one(opened(b"a", append)), {"writes": {b"a"}, "edits": {b"a"}})
        self.assertEqual(self.one(opened(b"a", os.O_RDWR)), {"writes": {b"a"}, "edits": {b"a"}})
        self.assertEqual(self.one(call(Kind.TRUNCATE, b"a")), {"writes": {b"a"}, "edits": {b"a"}})
        self.assertEqual(self.one(call(Kind.META, b"a")), {"writes": {b"a"}, "edits": {b"a"}})

    def test_what_is_opened_to_be_changed_and_was_not_there_is_made(self):
        append = os.O_WRONLY | os.O_CREAT | os.O_APPEND
        self.assertEqual(self.one(opened(b"a", append), present={b"a": False}), {"writes": {b"a"}})
        self.assertEqual(self.one(opened(b"a", result=ABSENT), opened(b"a", append)),
                         {"misses": {b"a"}, "writes": {b"a"}})
        self.assertEqual(self.one(opened(b"a", append | os.O_EXCL)), {"writes": {b"a"}})

    def test_links(self):
        self.assertEqual(self.one(call(Kind.LINK, b"a", b"b", flags=os.O_NOFOLLOW)),
                         {"reads": {b"a"}, "writes": {b"b"}})
        self.assertEqual(self.one(call(Kind.SYMLINK, other=b"s")), {"writes": {b"s"}})
        self.assertEqual(self.one(call(Kind.SYMLINK, other=b"s", result=-errno.EEXIST)), {"stats": {b"s"}})

    def test_folders(self):
        self.assertEqual(self.one(call(Kind.MKDIR, b"d"), call(Kind.MKDIR, b"e"), call(Kind.RMDIR, b"e"),
                                  call(Kind.MKDIR, b"f", result=-errno.EEXIST)), {"folders": {b"d"}})

    def test_a_folder_of_another_that_is_listed_and_taken_away(self):
        os.makedirs(self.folder + b"/d")
        self.assertEqual(self.one(opened(b"d", os.O_RDONLY | os.O_DIRECTORY, 5), call(Kind.LIST, folder=5),
                                  call(Kind.RMDIR, b"d")), {"lists": {b"d"}, "deletes": {b"d"}})
        self.assertEqual(self.one(call(Kind.MKDIR, b"e"), opened(b"e", os.O_RDONLY | os.O_DIRECTORY, 5),
                                  call(Kind.LIST, folder=5), call(Kind.RMDIR, b"e")), {})

    def test_a_renamed_folder_takes_what_is_in_it_along(self):
        self.assertEqual(self.one(call(Kind.MKDIR, b"d"), opened(b"d/x", WRITE), call(Kind.RENAME, b"d", b"e"),
                                  opened(b"e/x")), {"folders": {b"e"}, "writes": {b"e/x"}, "temps": {b"d/x"}})

    def test_a_renamed_folder_of_another(self):
        os.makedirs(self.folder + b"/e/sub")
        pathlib.Path(os.fsdecode(self.folder), "e/sub/x").write_text("")
        self.assertEqual(self.one(call(Kind.RENAME, b"d", b"e")),
                         {"reads": {b"d/sub/x"}, "stats": {b"d", b"d/sub"}, "deletes": {b"d", b"d/sub", b"d/sub/x"},
                          "writes": {b"e/sub/x"}, "folders": {b"e", b"e/sub"}})

    def test_a_process_in_a_renamed_folder_goes_with_it(self):
        self.assertEqual(self.one(call(Kind.MKDIR, b"d"), call(Kind.CHDIR, b"d"), call(Kind.RENAME, b"../d", b"../e"),
                                  opened(b"x", WRITE)), {"folders": {b"e"}, "writes": {b"e/x"}})

    # folders and descriptors

    def test_a_folder_of_threads_is_one(self):
        thread = call(Kind.SPAWN, result=SHELL + 1, flags=CLONE_THREAD | CLONE_FS | CLONE_FILES)
        self.assertEqual(self.one(thread, (SHELL + 1, call(Kind.CHDIR, b"d")), opened(b"a"),
                                  (SHELL + 1, opened(b"../b")), (SHELL + 1, call(Kind.EXIT))),
                         {"reads": {b"d/a", b"b"}})

    def test_a_folder_of_processes_is_their_own(self):
        child = call(Kind.SPAWN, result=SHELL + 1)
        self.assertEqual(self.one(child, (SHELL + 1, call(Kind.CHDIR, b"d")), opened(b"a"),
                                  (SHELL + 1, opened(b"b")), (SHELL + 1, call(Kind.EXIT))), {"reads": {b"a", b"d/b"}})

    def test_a_thread_that_takes_its_folder_for_itself(self):
        thread = call(Kind.SPAWN, result=SHELL + 1, flags=CLONE_THREAD | CLONE_FS | CLONE_FILES)
        self.assertEqual(self.one(thread, (SHELL + 1, call(Kind.UNSHARE, flags=CLONE_FS)),
                                  (SHELL + 1, call(Kind.CHDIR, b"d")), opened(b"a"), (SHELL + 1, call(Kind.EXIT))),
                         {"reads": {b"a"}})

    def test_descriptors_of_folders(self):
        folder = os.O_RDONLY | os.O_DIRECTORY
        self.assertEqual(self.one(opened(b"d", folder, 5), call(Kind.DUP, folder=5, result=6),
                                  opened(b"a", folder=6), call(Kind.CHDIR, folder=6), opened(b"b")),
                         {"stats": {b"d"}, "reads": {b"d/a", b"d/b"}})

    def test_a_descriptor_of_unknown_origin(self):
        self.assertEqual(self.one(opened(b"a", folder=7)), {})
        self.assertEqual(self.flags, {"unresolved"})

    def test_own_paths(self):
        self.assertEqual(self.one(opened(b"a", WRITE, 1), opened(b"b", result=4), opened(b"/dev/fd/4"),
                                  opened(b"/proc/self/cwd/c"), opened(b"/dev/stdout", os.O_WRONLY)),
                         {"reads": {b"b", b"c"}, "writes": {b"a"}})

    # links on the disk

    def test_a_link_and_where_it_leads(self):
        os.symlink(b"target", self.folder + b"/link")
        self.assertEqual(self.one(opened(b"link")), {"reads": {b"link", b"target"}})
        self.assertEqual(self.one(call(Kind.STAT, b"link", flags=os.O_NOFOLLOW)), {"stats": {b"link"}})
        self.assertEqual(self.one(opened(b"link", WRITE)), {"writes": {b"link", b"target"}})

    def test_a_folder_by_a_link_is_its_real_one(self):
        os.mkdir(self.folder + b"/real")
        os.symlink(b"real", self.folder + b"/link")
        self.assertEqual(self.one(opened(b"link/a"), opened(b"link/../b")), {"reads": {b"real/a", b"b"}})

    def test_a_link_that_changes_while_the_build_runs(self):
        os.mkdir(self.folder + b"/one")
        os.mkdir(self.folder + b"/two")
        os.symlink(b"one", self.folder + b"/link")
        places = Places()
        build = Build({b"c"}, self.folder, places, {})
        events = [(NINJA, call(Kind.EXEC, b"/usr/bin/ninja")), (NINJA, call(Kind.SPAWN, result=SHELL)),
                  (SHELL, shell()), (SHELL, opened(b"link/a"))]
        for event in events:
            build.take(event)
        os.unlink(self.folder + b"/link")
        os.symlink(b"two", self.folder + b"/link")
        for it in (call(Kind.UNLINK, b"link"), call(Kind.SYMLINK, other=b"link"), opened(b"link/a")):
            build.take((SHELL, it))
        build.processes.finish()
        self.assertEqual(self.sets(build, build.commands[0])["reads"], {b"one/a", b"two/a"})

    # processes

    def test_a_process_that_outlives_ninja_is_cut(self):
        self.one(opened(b"a"), ends=False)
        self.assertEqual(self.flags, {"cut"})

    def test_a_child_that_outlives_its_shell_and_not_ninja(self):
        child = call(Kind.SPAWN, result=SHELL + 1)
        found = self.one(child, call(Kind.EXIT), (SHELL + 1, opened(b"late", WRITE)), (SHELL + 1, call(Kind.EXIT)))
        self.assertEqual((found, self.flags), ({"writes": {b"late"}}, {"late"}))

    def test_a_child_whose_calls_come_before_it(self):
        events = [(NINJA, call(Kind.SPAWN, result=SHELL)), (SHELL, shell()), (SHELL + 1, opened(b"a")),
                  (SHELL + 1, call(Kind.EXIT)), (SHELL, call(Kind.SPAWN, result=SHELL + 1)), (SHELL, call(Kind.EXIT)),
                  (NINJA, call(Kind.EXIT))]
        build = self.build(events)
        self.assertEqual((self.sets(build, build.commands[0]), build.commands[0].flags), ({"reads": {b"a"}}, set()))

    def test_a_child_that_nobody_is_told_of_cuts_what_ran(self):
        self.one((SHELL + 9, opened(b"a")))
        self.assertEqual(self.flags, {"cut"})

    def test_what_ninja_itself_does_is_of_no_command(self):
        build = self.build([(NINJA, opened(b"a")), (NINJA, call(Kind.EXIT))])
        self.assertEqual(build.commands, [])

    def test_flags(self):
        for kind, flag in ((Kind.URING, "uring"), (Kind.NAMESPACE, "namespace"), (Kind.UNRESOLVED, "unresolved"),
                           (Kind.UNKNOWN, "unknown"), (Kind.NOTIFIED, "notified"), (Kind.DEEP, "deep"),
                           (Kind.ATTRIBUTES, "attributes"), (Kind.IPC, "ipc")):
            self.one(call(kind))
            self.assertEqual(self.flags, {flag})
            self.one(call(kind, result=-errno.EPERM))
            self.assertEqual(self.flags, set())

    def test_a_question_for_free_room_is_no_flag_of_version_1(self):
        whole = self.command_of(Call(Kind.UNKNOWN, name=b"statfs")).whole
        self.assertEqual((whole.words_of_version_1, whole.words_in(1), whole.words_in(2)), ([], set(), {"unknown"}))
        whole = self.command_of(Call(Kind.UNKNOWN, name=b"statfs"), Call(Kind.UNKNOWN, name=b"bpf")).whole
        self.assertEqual((whole.words_of_version_1, whole.words_in(1)), (["unresolved"], {"unknown"}))

    def command_of(self, *calls):
        """The command that makes these calls."""
        events = [(NINJA, call(Kind.SPAWN, result=SHELL)), (SHELL, shell()), *((SHELL, it) for it in calls),
                  (SHELL, call(Kind.EXIT)), (NINJA, call(Kind.EXIT))]
        return self.build(events).commands[0]

    def sockets(self, *commands):
        """The flags of commands that bind (`True`) or connect to addresses."""
        found = [Command(b"c", 0, None) for _ in commands]
        for it, addresses in zip(found, commands):
            it.addresses = [Address(is_bind, address, b"connect", b"p") for is_bind, address in addresses]
        flag_what_two_share(found, Changes([], Places(), ()))
        return [it.flags for it in found]

    def test_a_server_of_the_commands_own_sets_no_flag(self):
        self.assertEqual(self.sockets([(True, b"0.0.0.0:99"), (False, b"127.0.0.1:99")]), [set()])
        self.assertEqual(self.sockets([(True, b"@x")]), [set()])
        self.assertEqual(self.sockets([(False, b"10.0.0.1:53")]), [{"socket"}])
        self.assertEqual(self.sockets([(True, b"@x")], [(True, b"@x")]), [{"socket"}, {"socket"}])
        self.assertEqual(self.sockets([(True, b"0.0.0.0:99")], [(False, b"[::1]:99")]), [{"socket"}, {"socket"}])


@dataclass(eq=False)
class Edge:
    number: int
    name: bytes
    ninja_command: bytes = b"c"
    content: bytes = b""
    phony: bool = False


@dataclass
class Run:
    edge: Edge
    word: str
    start: int
    end: int


class Matching(unittest.TestCase):
    """Which command is that of which edge."""

    def commands(self, *statuses, texts=None):
        found = []
        for number, status in enumerate(statuses):
            command = Command(texts[number] if texts else b"c", number, None)
            command.status, command.end = status, number
            found.append(command)
        return found

    def names(self, commands, edges, runs):
        pairs, left = match(commands, edges, runs)
        return [(edge.name, command.start) for edge, command in pairs], len(left)

    def test_by_text(self):
        edges = [Edge(0, b"x", b"one"), Edge(1, b"y", b"two;rspfile=a b", b"a b")]
        commands = self.commands(0, 0, texts=[b"two", b"one"])
        self.assertEqual(self.names(commands, edges, []), ([(b"y", 0), (b"x", 1)], 0))
        self.assertEqual(self.names(self.commands(0, texts=[b"other"]), edges, []), ([], 1))

    def test_equal_texts_by_the_order_of_the_starts(self):
        x, y = Edge(0, b"x"), Edge(1, b"y")
        commands = self.commands(0, 0)
        self.assertEqual(self.names(commands, [x, y], [Run(x, "finish", 9, 20), Run(y, "finish", 5, 30)]),
                         ([(b"y", 0), (b"x", 1)], 0))
        self.assertEqual([it.flags for it in commands], [set(), set()])

    def test_equal_texts_in_one_millisecond_may_be_exchanged_and_say_so(self):
        edges = [Edge(number, b"xyz"[number : number + 1]) for number in range(3)]
        commands = self.commands(0, 0, 0)
        match(commands, edges, [Run(edges[number], "finish", start, 9) for number, start in enumerate((5, 5, 6))])
        self.assertEqual([it.flags for it in commands], [{"twin"}, {"twin"}, set()])

    def test_one_of_equal_texts_that_failed(self):
        x, y = Edge(0, b"x"), Edge(1, b"y")
        commands = self.commands(1, 0)
        self.assertEqual(self.names(commands, [x, y], [Run(x, "finish", 4, 20), Run(y, "fail", 20, 20)]),
                         ([(b"y", 0), (b"x", 1)], 0))
        self.assertEqual([it.flags for it in commands], [set(), set()])

    def test_equal_texts_that_nothing_tells_apart_say_so(self):
        x, y = Edge(0, b"x"), Edge(1, b"y")
        cases = ((1, 1), ("fail", "fail")), ((0, None), ("finish", "abort")), ((0, 0), ("finish", "fail"))
        for statuses, words in cases:
            commands = self.commands(*statuses)
            match(commands, [x, y], [Run(x, words[0], 4, 20), Run(y, words[1], 5, 30)])
            self.assertEqual([it.flags for it in commands], [{"twin"}, {"twin"}])


class Ranges(unittest.TestCase):
    def test_ranges(self):
        for numbers, text in (((5,), b"5"), ((3, 1, 2), b"1-3"), ((1, 2, 4, 6, 7), b"1-2 4 6-7"), ((), b"")):
            self.assertEqual(ranges(numbers), text)


if __name__ == "__main__":
    unittest.main()
