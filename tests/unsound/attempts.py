"""Attempts to have a build certified that is not certain, or refused that is: manifests in which one order of the
commands gives other bytes than another, and what of version 2 of `observed` shows it.

`shows` has lines: the edge (or `ninja`, or `same`), the words of which one has to have the entry, and the entry;
behind `flag` stands the flag. Where it is empty, no command has a flag. @ROOM@ is the folder of all attempts.
"""

from __future__ import annotations

from dataclasses import dataclass, field

HEAD = "rule r\n  command = $c\n"


def two(first: str, second: str) -> str:
    """A manifest of two commands without an order."""
    lines = [it.replace("$", "$$").replace("\n", "$\n") for it in (first, second)]
    return f"{HEAD}build a: r\n  c = {lines[0]}\nbuild b: r\n  c = {lines[1]}\n"


@dataclass(frozen=True)
class Attempt:
    """One build: what it tries, its manifest and files, what a shell does before and after it, its targets, the folder
    that it lies in, the file at its standard input, and the observer that it is for."""

    name: str
    what: str
    manifest: str
    shows: tuple[str, ...]
    files: dict[str, str] = field(default_factory=dict)
    setup: str = ""
    cleanup: str = ""
    targets: tuple[str, ...] = ()
    root: str = ""
    standard_input: str = ""
    observer: str = ""


ATTEMPTS = (
    Attempt("ctl_race", "control: a plain undeclared race",
            two("sleep 0.5; echo x > f; touch a",
                "cat f > b 2>/dev/null || echo none > b"),
            ("a left f", "b read,missing f",)),
    Attempt("readlink", "A retargets a symlink, B asks readlink(1)",
            two("sleep 0.5; ln -sfn new cur; touch a",
                "readlink cur > b"),
            ("a linked cur", "b link cur",),
            setup="ln -s old cur"),
    Attempt("dir_needed", "B writes a temp into a folder that A makes",
            two("sleep 0.5; mkdir -p gen && touch a",
                "sleep 0.1; echo hi > gen/log && touch b"),
            ("a made gen", "b folder,missing gen",)),
    Attempt("test_d", "test -d of a folder that A makes",
            two("sleep 0.5; mkdir -p gen && touch a",
                "test -d gen && echo yes > b || echo no > b"),
            ("a made gen", "b folder,missing gen",)),
    Attempt("ls_dir", "ls shows a folder that A makes in it",
            two("sleep 0.5; mkdir d/sub; touch a",
                "ls d > b"),
            ("a made d/sub", "b listed d",),
            setup="mkdir d; touch d/.keep"),
    Attempt("mkdir_lock", "mkdir as a lock",
            two("mkdir lk; sleep 0.5; rmdir lk; touch a",
                "sleep 0.1; mkdir lk 2>/dev/null && { echo free > b; rmdir lk; } || echo busy > b"),
            ("a temps lk", "b missing,folder lk",)),
    Attempt("mkdir_once", "first to mkdir does it",
            two("sleep 0.5; mkdir once 2>/dev/null && echo first > a || echo second > a",
                "mkdir once 2>/dev/null && echo first > b || echo second > b"),
            ("a made,found once", "b missing,folder once",)),
    Attempt("rmdir", "rmdir tells whether a folder is empty",
            two("sleep 0.5; echo x > d/x || true; touch a",
                "rmdir d 2>/dev/null && echo was_empty > b || echo full > b"),
            ("b listed d",),
            setup="mkdir d"),
    Attempt("ninja_mkdir", "Ninja makes the folder of A's output; B writes a temp there",
            HEAD + ("build b: r\n"
                    "  c = sleep 0.3; echo x > sub/log && touch b\n"
                    "build sub/a: r\n"
                    "  c = touch sub/a\n"),
            ("b folder,missing sub",)),
    Attempt("ext_ls", "B lists a folder outside, where A makes a file",
            two("sleep 0.5; echo x > @ROOM@/ext1/f; touch a",
                "ls @ROOM@/ext1 > b"),
            ("a left @ROOM@/ext1/f", "b listed @ROOM@/ext1",),
            setup="rm -rf @ROOM@/ext1; mkdir @ROOM@/ext1"),
    Attempt("ext_glob", "B globs a folder outside by sh",
            two("sleep 0.5; echo x > @ROOM@/ext2/f.in; touch a",
                "cat /dev/null @ROOM@/ext2/*.in > b 2>/dev/null || true"),
            ("a left @ROOM@/ext2/f.in", "b listed @ROOM@/ext2",),
            setup="rm -rf @ROOM@/ext2; mkdir @ROOM@/ext2"),
    Attempt("py_3stat", "python: exists, isdir, stat, then listdir",
            two("sleep 0.5; echo x > d/x; touch a",
                "python3 lst.py > b"),
            ("a left d/x", "b listed d",),
            files={"lst.py": ("import os\n"
                               "d='d'\n"
                               "if os.path.exists(d) and os.path.isdir(d) and os.stat(d).st_mode:\n"
                               "    print(sorted(os.listdir(d)))\n"),
                   "d/k": ""}),
    Attempt("py_here", "python script lists its own folder after isdir",
            two("sleep 0.5; echo x > tool/x.txt; touch a",
                "python3 tool/gen.py > b"),
            ("a left tool/x.txt", "b listed tool",),
            files={"tool/gen.py": ("import os, helper\n"
                                    "h=os.path.dirname(os.path.abspath(__file__))\n"
                                    "if os.path.isdir(h):\n"
                                    "    print(sorted(n for n in os.listdir(h) if n.endswith('.txt')))\n"),
                   "tool/helper.py": "x=1\n"}),
    Attempt("py_glob", "python script lists its own folder by pathlib glob",
            two("sleep 0.5; echo x > tool/x.txt; touch a",
                "python3 tool/gen.py > b"),
            ("a left tool/x.txt", "b listed tool",),
            files={"tool/gen.py": ("import helper, pathlib\n"
                                    "h=pathlib.Path(__file__).resolve().parent\n"
                                    "if h.is_dir():\n"
                                    "    print(sorted(p.name for p in h.glob('*.txt')))\n"),
                   "tool/helper.py": "x=1\n"}),
    Attempt("py_plain_ls", "control: python listdir without stats",
            two("sleep 0.5; echo x > d/x; touch a",
                'python3 -c "import os; print(sorted(os.listdir(\'d\')))" > b'),
            ("a left d/x", "b listed d",),
            files={"d/k": ""}),
    Attempt("ls_order_tmpfs", "unsorted listing (ls -U) on tmpfs; B waits for both makers",
            HEAD + ("build d/x: r\n"
                    "  c = sleep 0.5; echo x > d/x\n"
                    "build d/y: r\n"
                    "  c = echo y > d/y\n"
                    "build b: r | d/x d/y\n"
                    "  c = ls -U d > b\n"),
            ("d/x left d/x", "d/y left d/y", "b listed d",),
            root="@ROOM@/tmpfs"),
    Attempt("find_ar_tmpfs", "find | xargs cat on tmpfs; B waits for both makers",
            HEAD + ("build d/x.o: r\n"
                    "  c = sleep 0.5; echo x > d/x.o\n"
                    "build d/y.o: r\n"
                    "  c = echo y > d/y.o\n"
                    "build b: r | d/x.o d/y.o\n"
                    "  c = find d -name '*.o' | xargs cat > b\n"),
            ("d/x.o left d/x.o", "d/y.o left d/y.o", "b listed d",),
            root="@ROOM@/tmpfs"),
    Attempt("ls_order_ext4", "the same on ext4",
            HEAD + ("build d/x: r\n"
                    "  c = sleep 0.5; echo x > d/x\n"
                    "build d/y: r\n"
                    "  c = echo y > d/y\n"
                    "build b: r | d/x d/y\n"
                    "  c = ls -U d > b\n"),
            ("d/x left d/x", "d/y left d/y", "b listed d",)),
    Attempt("flock", "flock -n of a source file",
            two("flock lk sleep 0.5; touch a",
                "sleep 0.1; flock -n lk true && echo free > b || echo busy > b"),
            ("a flag ipc", "b flag ipc",),
            files={"lk": ""}),
    Attempt("dev_shm", "a file in /dev/shm",
            two("sleep 0.5; echo x > /dev/shm/rebug_x; touch a",
                "cat /dev/shm/rebug_x > b 2>/dev/null || echo none > b"),
            ("a left /dev/shm/rebug_x", "b read,missing /dev/shm/rebug_x",),
            setup="rm -f /dev/shm/rebug_x",
            cleanup="rm -f /dev/shm/rebug_x"),
    Attempt("build_in_shm", "the whole build in /dev/shm: a plain race between OUTPUTS",
            two("sleep 0.5; echo x > a",
                "cat a > b 2>/dev/null || echo none > b"),
            ("a left a", "b read,missing a",),
            root="/dev/shm/rebug_unsound"),
    Attempt("sysv_shm", "System V shared memory",
            two("sleep 0.5; ipcmk -M 64 >/dev/null; touch a",
                "ipcs -m | grep -c ' 64 ' > b; true"),
            ("a flag ipc",),
            setup="for i in $(ipcs -m | awk '$5==64{print $2}'); do ipcrm -m $i; done",
            cleanup="for i in $(ipcs -m | awk '$5==64{print $2}'); do ipcrm -m $i; done"),
    Attempt("sysv_msgq", "a System V message queue (syscalls by python ctypes)",
            two("sleep 0.5; python3 q.py put; touch a",
                "python3 q.py get > b"),
            ("a flag ipc", "b flag ipc",),
            files={"q.py": ("import ctypes,sys\n"
                             "l=ctypes.CDLL(None)\n"
                             "k=0x5515\n"
                             "if sys.argv[1]=='put': print(l.msgget(k,0o1666))\n"
                             "else: print(l.msgget(k,0o666)>=0)\n")},
            setup="ipcrm -Q 0x5515 2>/dev/null; true",
            cleanup="ipcrm -Q 0x5515 2>/dev/null; true"),
    Attempt("abstract_bind", "an abstract unix socket as a lock",
            two("python3 s.py hold; touch a",
                "sleep 0.2; python3 s.py try > b"),
            ("a flag socket", "b flag socket",),
            files={"s.py": ("import socket,sys,time\n"
                             "s=socket.socket(socket.AF_UNIX)\n"
                             "try:\n"
                             "    s.bind('\\0rb_lock'); s.listen(); print('free')\n"
                             "    if sys.argv[1]=='hold': time.sleep(0.6)\n"
                             "except OSError: print('busy')\n")}),
    Attempt("tcp_bind", "a TCP port as a lock (bind/listen)",
            two("python3 s.py hold; touch a",
                "sleep 0.2; python3 s.py try > b"),
            ("a flag socket", "b flag socket",),
            files={"s.py": ("import socket,sys,time\n"
                             "s=socket.socket()\n"
                             "s.setsockopt(socket.SOL_SOCKET, socket.SO_REUSEADDR,1)\n"
                             "try:\n"
                             "    s.bind(('127.0.0.1',45515)); s.listen(); print('free')\n"
                             "    if sys.argv[1]=='hold': time.sleep(0.6)\n"
                             "except OSError: print('busy')\n")}),
    Attempt("unix_bind", "bind makes a socket file",
            two('sleep 0.5; python3 -c "import socket; socket.socket(socket.AF_UNIX).bind(\'sock\')"; touch a',
                "test -e sock && echo yes > b || echo no > b"),
            ("a left sock", "b status,missing sock",)),
    Attempt("hard_before", "x and y are one inode before the build; A writes x, B reads y",
            two("sleep 0.5; echo new > x; touch a",
                "cat y > b"),
            ("a edited y", "b read y",),
            files={"x": "old\n"},
            setup="ln x y"),
    Attempt("hard_made", "a first command makes the hard link; A appends to x, B reads y",
            HEAD + ("build y: r\n"
                    "  c = ln -f x y\n"
                    "build a: r | y\n"
                    "  c = sleep 0.5; echo more >> x; touch a\n"
                    "build b: r | y\n"
                    "  c = cat y > b\n"),
            ("a edited y", "b read y",),
            files={"x": "old\n"}),
    Attempt("bind_mount", "one folder by two names (bind mount made before)",
            two("sleep 0.5; echo new > @ROOM@/bm/x; touch a",
                "cat x > b"),
            ("a left x", "b read x",),
            files={"x": "old\n"},
            setup="mkdir -p @ROOM@/bm; mount --bind . @ROOM@/bm",
            cleanup="umount @ROOM@/bm"),
    Attempt("xattr", "setxattr by A, getxattr by B",
            two('sleep 0.5; python3 -c "import os; os.setxattr(\'f\',\'user.k\',b\'1\')"; touch a',
                'python3 -c "import os; print(os.listxattr(\'f\'))" > b'),
            ("a edited f", "b status f",),
            files={"f": "x"}),
    Attempt("fchmod", "fchmod by a read-only descriptor; B asks test -x",
            two('sleep 0.5; python3 -c "import os; os.fchmod(os.open(\'f\',0),0o777)"; touch a',
                "test -x f && echo yes > b || echo no > b"),
            ("a edited f", "b mode f",),
            files={"f": "x"}),
    Attempt("chmod_path", "control: chmod by path; B asks test -x",
            two("sleep 0.5; chmod 777 f; touch a",
                "test -x f && echo yes > b || echo no > b"),
            ("a edited f", "b mode f",),
            files={"f": "x"}),
    Attempt("stamps", "B waits for both x and y, and asks which is newer",
            HEAD + ("build x: r\n"
                    "  c = sleep 0.5; echo x > x\n"
                    "build y: r\n"
                    "  c = echo y > y\n"
                    "build b: r | x y\n"
                    "  c = test x -nt y && echo x > b || echo y > b\n"),
            ("b status x", "b status y",)),
    Attempt("nested_make", "B waits for x and y, and runs make, which goes by stamps",
            HEAD + ("build y: r\n"
                    "  c = sleep 0.5; echo y > y\n"
                    "build out: r\n"
                    "  c = echo from_ninja > out\n"
                    "build b: r | y out\n"
                    "  c = make -s out; cp out b\n"),
            ("b status y", "b status out",),
            files={"Makefile": ("z: x y2\n"
                                 "\techo made > z\n"
                                 "y2: y\n"
                                 "\t@true\n"
                                 "z2: x y\n"
                                 "\techo z2 > z2\n"
                                 ".PHONY:\n"
                                 "out: y\n"
                                 "\techo from_y > out\n")}),
    Attempt("proc_count", "B counts processes by /proc",
            two("sleep 0.515; touch a",
                ("sleep 0.1; cat /proc/[0-9]*/cmdline 2>/dev/null | tr '\\0' ' ' | grep -c 'sleep 0[.]515 ' > "
                 "b; true")),
            ("b flag proc",)),
    Attempt("daemon", "A leaves a process behind that writes later; B waits for A",
            HEAD + ("build a: r\n"
                    "  c = (sleep 0.6; echo late > shared) >/dev/null 2>&1 </dev/null & touch a\n"
                    "build s: r\n"
                    "  c = sleep 1; touch s\n"
                    "build b: r | a\n"
                    "  c = cat shared > b 2>/dev/null || echo none > b\n"),
            ("a flag late", "a left shared", "b read,missing shared",)),
    Attempt("tmp_symlink", "B reads x by a symlink that it makes and takes away",
            two("sleep 0.5; echo new > x; touch a",
                "ln -s x l && cat l > b && rm l"),
            ("a left x", "b read x",),
            files={"x": "old\n"}),
    Attempt("tmp_dirlink", "B reads d/x by a symlink of a folder that it makes and takes away",
            two("sleep 0.5; echo new > d/x; touch a",
                "ln -s d l && cat l/x > b && rm l"),
            ("a left d/x", "b read d/x",),
            files={"d/x": "old\n"}),
    Attempt("tmp_dirlink_gcc", "B compiles with -I of a temporary symlink",
            two("sleep 0.5; echo '#define X 2' > inc/x.h; touch a",
                "ln -s inc l && echo '#include <x.h>\\nX' | gcc -E -P -Il - > b && rm l"),
            ("a left inc/x.h", "b read inc/x.h",),
            files={"inc/x.h": "#define X 1\n"}),
    Attempt("proc_pid_cwd", "B reads /proc/$$/cwd/x",
            two("sleep 0.5; echo new > x; touch a",
                "cat /proc/$$/cwd/x > b"),
            ("a left x", "b read x",),
            files={"x": "old\n"}),
    Attempt("proc_pid_root", "B reads /proc/1/root/...",
            two("sleep 0.5; echo new > x; touch a",
                "cat /proc/$$/root$PWD/x > b"),
            ("a left x", "b read x",),
            files={"x": "old\n"}),
    Attempt("stdin", "two console commands read the standard input",
            HEAD + ("  pool = console\n"
                    "build w: phony\n"
                    "rule p\n"
                    "  command = $c\n"
                    "build g: p\n"
                    "  c = sleep 0.5; touch g\n"
                    "build a: r | g\n"
                    "  c = read l; echo $$l > a\n"
                    "build b: r\n"
                    "  c = read l; echo $$l > b\n"),
            ("a flag ipc", "b flag ipc",),
            files={"in.txt": ("1\n"
                               "2\n")},
            standard_input="in.txt"),
    Attempt("ninja_log", "B reads .ninja_log",
            two("sleep 0.3; touch a",
                "sleep 0.05; grep -c . .ninja_log > b"),
            ("ninja left,edited .ninja_log", "b read,missing .ninja_log",)),
    Attempt("ninja_t_deps", "B asks ninja -t deps",
            ("rule cc\n"
             "  command = sleep 0.5; gcc -MD -MF $out.d -c x.c -o $out\n"
             "  depfile = $out.d\n"
             "  deps = gcc\n"
             "rule r\n"
             "  command = $c\n"
             "build x.o: cc\n"
             "build b: r\n"
             "  c = sleep 0.1; ninja -t deps > b\n"),
            ("ninja left,edited .ninja_deps", "b read,missing .ninja_deps",),
            files={"x.c": "int x;\n"}),
    Attempt("ninja_rsp", "B asks for A's response file",
            ("rule w\n"
             "  command = sleep 0.5; touch $out\n"
             "  rspfile = a.rsp\n"
             "  rspfile_content = hello\n"
             "rule r\n"
             "  command = $c\n"
             "build a: w\n"
             "build b: r\n"
             "  c = sleep 0.1; cat a.rsp > b 2>/dev/null || echo none > b\n"),
            ("ninja temps a.rsp", "b read,missing a.rsp",)),
    Attempt("other_targets", "recorded `b` alone; the whole manifest has another command that writes b's source",
            HEAD + ("build b: r src\n"
                    "  c = sleep 0.3; cat src > b\n"
                    "build z: r\n"
                    "  c = echo new > src; touch z\n"),
            ("b read src",),
            files={"src": "old\n"},
            targets=("b",)),
    Attempt("gcc_dir", "A: cmake -E make_directory obj; B: gcc -c -o obj/tmp.o, unordered",
            two("sleep 0.5; mkdir -p obj && touch a",
                "sleep 0.1; gcc -c x.c -o obj/tmp.o && cp obj/tmp.o b"),
            ("a made obj", "b folder,missing obj",),
            files={"x.c": "int x;\n"}),
    Attempt("cd_dir", "B: cd gen || exit 1, into a folder of A",
            two("sleep 0.5; mkdir -p gen && touch a",
                "cd gen && touch ../b"),
            ("a made gen", "b folder,missing gen",)),
    Attempt("self_root", "/proc/self/root",
            two("sleep 0.5; echo new > x; touch a",
                "cat /proc/self/root$PWD/x > b"),
            ("a left x", "b read x",),
            files={"x": "old\n"}),
    Attempt("thread_self", "/proc/thread-self/cwd",
            two("sleep 0.5; echo new > x; touch a",
                "cat /proc/thread-self/cwd/x > b"),
            ("a left x", "b read x",),
            files={"x": "old\n"}),
    Attempt("proc_write", "A writes by /proc/$$/cwd, B reads plainly",
            two("sleep 0.5; echo new > /proc/$$/cwd/x; touch a",
                "cat x > b"),
            ("a left x", "b read x",),
            files={"x": "old\n"}),
    Attempt("deleted_name", "a folder whose name ends with ' (deleted)', by dir_fd",
            two("sleep 0.5; echo new > 'd (deleted)/x'; touch a",
                ('python3 -c "import os; d=os.open(\'d (deleted)\',os.O_RDONLY); print(os.read(os.open(\'x\',o'
                 's.O_RDONLY,dir_fd=d),9))" > b')),
            ("a left d (deleted)/x", "b read d (deleted)/x",),
            files={"d (deleted)/x": "old\n"}),
    Attempt("empty_path", "statx of a path with AT_EMPTY_PATH set",
            two("sleep 0.5; echo x > d/x; touch a",
                "./o > b"),
            ("a left d/x", "b status,missing d/x",),
            files={"d/k": ""},
            setup=("printf '#define _GNU_SOURCE\\n#include <fcntl.h>\\n#include <sys/stat.h>\\n#include <std"
                     'io.h>\\nint main(){struct statx s;int d=open("d",O_PATH);printf("%%d\\\\n",statx(d,"x",A'
                     "T_EMPTY_PATH,STATX_SIZE,&s));}' > o.c; gcc -w o.c -o o")),
    Attempt("nlink", "the number of links of a file",
            two("sleep 0.5; ln x y; touch a",
                "stat -c %h x > b"),
            ("same x y", "b status x",),
            files={"x": "x\n"}),
    Attempt("statfs", "free blocks? statfs of a tmpfs that A fills",
            two("head -c 9000000 /dev/zero > big; sleep 0.5; rm big; touch a",
                "sleep 0.2; stat -f -c %f . > b"),
            ("b flag unknown",),
            root="@ROOM@/tmpfs"),
    Attempt("tmpfile_link", "O_TMPFILE and linkat (ctypes)",
            two("sleep 0.5; python3 t.py; touch a",
                "cat f > b 2>/dev/null || echo none > b"),
            ("a left f", "b read,missing f",),
            files={"t.py": ("import os,ctypes\n"
                             "fd=os.open('.',os.O_TMPFILE|os.O_RDWR,0o644); os.write(fd,b'x')\n"
                             "print(ctypes.CDLL(None).linkat(-100,b'/proc/self/fd/%d'%fd,-100,b'f',0x400))\n")}),
    Attempt("append_inherited", "control: append by an inherited descriptor",
            two("exec 3>>log; sleep 0.5; sh -c 'echo a >&3'; touch a",
                "exec 3>>log; sh -c 'echo b >&3'; touch b"),
            ("a left,edited log", "b left,edited log",)),
    Attempt("release_link", "a link `current` exists; S (after B) moves it; A writes into the first target",
            HEAD + ("build a: r\n"
                    "  c = sleep 0.5; echo '#define V 2' > r1/v.h; touch a\n"
                    "build b: r\n"
                    "  c = echo '#include <v.h>' | (cat; echo V) | gcc -E -P -Icurrent - > b\n"
                    "build s: r | b\n"
                    "  c = ln -sfn r2 current; touch s\n"),
            ("s linked current", "b link current", "a left r1/v.h", "b read r1/v.h",),
            files={"r1/v.h": "#define V 1\n",
                   "r2/v.h": "#define V 9\n"},
            setup="ln -s r1 current"),
    Attempt("sandbox", "B works in a sandbox of symlinks (as Bazel's) that it removes",
            two("sleep 0.5; echo '#define V 2' > src/v.h; touch a",
                "mkdir sb && ln -s $PWD/src/v.h $PWD/src/m.c sb/ && gcc -S -o b sb/m.c && rm -rf sb"),
            ("a left src/v.h", "b read src/v.h",),
            files={"src/v.h": "#define V 1\n",
                   "src/m.c": ('#include "v.h"\n'
                                "int x=V;\n")}),
    Attempt("late_tmp", "B takes the last write of a shared temp by rename onto it",
            two("sleep 0.5; echo a > t.$$; mv t.$$ res; touch a",
                "echo b > t.$$; mv t.$$ res; touch b"),
            ("a left res", "b left res",)),
    Attempt("sh_glob", "control: sh glob in the build folder",
            two("sleep 0.5; echo x > x.in; touch a",
                "cat /dev/null *.in > b 2>/dev/null; true"),
            ("a left x.in", "b listed .",)),
    Attempt("dyn_lib_cache", "control: misses outside (LD_LIBRARY_PATH)",
            two("sleep 0.5; echo x > @ROOM@/ext4; touch a",
                "test -e @ROOM@/ext4 && echo y > b || echo n > b"),
            ("a left @ROOM@/ext4", "b status,missing @ROOM@/ext4",),
            setup="rm -f @ROOM@/ext4"),
    Attempt("src_one_deep", ("sources in /rebug_unsound_src (one deep); B lists /rebug_unsound_src/gen, in which A mak"
                     "es a file"),
            HEAD + ("build a: r\n"
                    "  c = sleep 0.5; echo x > /rebug_unsound_src/gen/x.in; touch a\n"
                    "build b: r | /rebug_unsound_src/m.c\n"
                    "  c = ls /rebug_unsound_src/gen > b\n"),
            ("a left /rebug_unsound_src/gen/x.in", "b listed /rebug_unsound_src/gen",),
            setup=("rm -rf /rebug_unsound_src; mkdir -p /rebug_unsound_src/gen; touch /rebug_unsound_src/gen"
                     "/k.in /rebug_unsound_src/m.c"),
            cleanup="rm -rf /rebug_unsound_src"),
    Attempt("cmake_copy", "control: file(1) magic, os.walk",
            two("sleep 0.5; mkdir -p d/e; echo x > d/e/x; touch a",
                'python3 -c "import os; print(sorted(f for _,_,fs in os.walk(\'d\') for f in fs))" > b'),
            ("a made d/e", "b listed d",),
            files={"d/k": ""}),
    Attempt("walk_newdir", "os.walk where A makes only a folder and a file in it",
            two("sleep 0.5; mkdir -p d/e; echo x > d/e/x; touch a",
                "find d -type f | sort > b"),
            ("a made d/e", "b listed d",),
            files={"d/k": ""}),
    Attempt("find_dirs", "find -type d",
            two("sleep 0.5; mkdir -p d/e; touch a",
                "find d -type d | sort > b"),
            ("a made d/e", "b listed d",),
            files={"d/k": ""}),
    Attempt("timeout_open", "B waits for A's socket by tries (connect fails)",
            two("python3 s.py & sleep 0.8; wait; touch a",
                "sleep 0.3; python3 c.py > b"),
            ("a flag socket", "b flag socket",),
            files={"s.py": ("import socket,time\n"
                             "s=socket.socket(); s.setsockopt(socket.SOL_SOCKET,socket.SO_REUSEADDR,1); s.bind"
                             "(('127.0.0.1',45517)); s.listen(); time.sleep(0.7)\n"),
                   "c.py": ("import socket\n"
                             "s=socket.socket()\n"
                             "print(s.connect_ex(('127.0.0.1',45517)))\n")}),
    Attempt("uring", "io_uring_setup: flagged?",
            two("touch a",
                "./o; touch b"),
            ("b flag uring",),
            setup=("printf '#include <unistd.h>\\n#include <sys/syscall.h>\\nint main(){char p[200]={0};retu"
                     "rn syscall(425,4,p)<0;}' > o.c; gcc -w o.c -o o")),
    Attempt("n_glob_other", "needless? B globs *.in, A makes y.out in the same folder",
            two("sleep 0.5; echo x > y.out; touch a",
                "cat *.in > b"),
            ("a left y.out", "b listed .",),
            files={"k.in": "k\n"}),
    Attempt("n_exist", "needless? B asks test -e x, A rewrites x",
            two("sleep 0.5; echo new > x; touch a",
                "test -e x && echo y > b"),
            ("a left x", "b status x",),
            files={"x": "old\n"}),
    Attempt("n_same_content", "needless? both write one file with the same content by rename",
            two("sleep 0.5; echo v > t1; mv t1 same; touch a",
                "echo v > t2; mv t2 same; touch b"),
            ("a left same", "b left same",)),
    Attempt("n_flock_mutex", "needless? both work under flock of one lock file and touch other files",
            two("flock build.lock sh -c 'sleep 0.2; touch a'",
                "flock build.lock touch b"),
            ("a flag ipc", "b flag ipc",)),
    Attempt("n_getent", "needless? getent hosts (DNS)",
            two("touch a",
                "getent hosts example.invalid; touch b"),
            ("b flag socket",)),
    Attempt("n_logger", "needless? a connect to a port that is closed",
            two("touch a",
                'python3 -c "import socket; print(socket.socket().connect_ex((\'127.0.0.1\',45519)))" > b'),
            ("b flag socket",)),
    Attempt("n_unshare", "needless? unshare -r (sandboxed command)",
            two("touch a",
                "unshare -m touch b"),
            ("b flag namespace",)),
    Attempt("n_git", "needless? two git describe --dirty",
            two("sleep 0.5; git -c safe.directory=* describe --always --dirty > a",
                "git -c safe.directory=* describe --always --dirty > b"),
            ("a temps .git/index.lock", "b temps .git/index.lock",),
            setup="git init -q . && git -c user.name=x -c user.email=x@x commit -q --allow-empty -m x"),
    Attempt("n_mkdir_p", "needless? both mkdir -p one folder and write different files",
            two("sleep 0.5; mkdir -p o && echo a > o/a1; touch a",
                "mkdir -p o && echo b > o/b1; touch b"),
            ("a made,found o", "b made,found o",)),
    Attempt("n_tmp", "needless? both use mktemp in the build folder",
            two("sleep 0.5; f=$(mktemp ./t.XXXX) && echo a > $f && mv $f a",
                "f=$(mktemp ./t.XXXX) && echo b > $f && mv $f b"),
            ()),
    Attempt("n_local_srv", "needless? a server and its client within one command",
            two("touch a",
                "python3 s.py > b"),
            (),
            files={"s.py": ("import socket,threading\n"
                             "s=socket.socket(); s.bind(('127.0.0.1',0)); s.listen()\n"
                             "t=threading.Thread(target=lambda: s.accept()[0].send(b'hi')); t.start()\n"
                             "c=socket.create_connection(s.getsockname()); print(c.recv(9)); t.join()\n")}),
    Attempt("n_multiproc", "needless? python multiprocessing in one command",
            two("touch a",
                "python3 s.py > b"),
            (),
            files={"s.py": ("import multiprocessing as m\n"
                             "def f(x): return x*x\n"
                             "if __name__=='__main__':\n"
                             "    with m.Pool(2) as p: print(p.map(f,[1,2]))\n"
                             "    q=m.Manager().list([1]); print(list(q))\n")}),
    Attempt("dirlink_retarget", "A retargets a link to a folder, B reads a file through it",
            two("sleep 0.5; ln -sfn r2 cur; touch a",
                "cat cur/x > b"),
            ("a linked cur", "b link cur",),
            files={"r1/x": "1\n",
                   "r2/x": "2\n"},
            setup="ln -s r1 cur"),
    Attempt("dirlink_retarget_out", "the same, and the link is A's declared output",
            HEAD + ("build cur: r\n"
                    "  c = sleep 0.5; ln -sfn r2 cur\n"
                    "build b: r\n"
                    "  c = cat cur/x > b\n"),
            ("cur linked cur", "b link cur",),
            files={"r1/x": "1\n",
                   "r2/x": "2\n"},
            setup="ln -s r1 cur"),
    Attempt("dirlink_retarget_strace", "the same, by strace",
            two("sleep 0.5; ln -sfn r2 cur; touch a",
                "cat cur/x > b"),
            ("a linked cur", "b link cur",),
            files={"r1/x": "1\n",
                   "r2/x": "2\n"},
            setup="ln -s r1 cur",
            observer="strace"),
    Attempt("dirlink_made", "A makes the link include -> real (declared output); B compiles with -Iinclude -Ifallback",
            HEAD + ("build include: r\n"
                    "  c = sleep 0.5; ln -s real include\n"
                    "build b: r m.c\n"
                    "  c = gcc -E -P -Iinclude -Ifallback m.c -o b\n"),
            ("include linked include", "b link,missing include",),
            files={"real/v.h": "#define V 1\n",
                   "fallback/v.h": "#define V 9\n",
                   "m.c": ("#include <v.h>\n"
                            "V\n")}),
    Attempt("dirlink_made_fail", "the same without fallback: B fails when it is first",
            HEAD + ("build include: r\n"
                    "  c = sleep 0.5; ln -s real include\n"
                    "build b: r m.c\n"
                    "  c = gcc -c -Iinclude m.c -o b\n"),
            ("include linked include", "b link,missing include",),
            files={"real/v.h": "#define V 1\n",
                   "m.c": ("#include <v.h>\n"
                            "int x=V;\n")}),
    Attempt("filelink_retarget", "control: A retargets a link to a file",
            two("sleep 0.5; ln -sfn x2 cur; touch a",
                "cat cur > b"),
            ("a linked cur", "b link cur",),
            files={"x1": "1\n",
                   "x2": "2\n"},
            setup="ln -s x1 cur"),
    Attempt("lib_soname", "control: libv.so -> libv.so.1 link made by A; B reads through it",
            HEAD + ("build libv.so: r\n"
                    "  c = sleep 0.5; ln -s libv.so.1 libv.so\n"
                    "build b: r\n"
                    "  c = cat libv.so > b 2>/dev/null || echo none > b\n"),
            ("libv.so linked libv.so", "b link,missing libv.so",),
            files={"libv.so.1": "1\n"}),
    Attempt("rename_over_folder", "A swaps folders by two renames (mv d old; mv n d); B reads d/x, which is a source",
            two("sleep 0.5; mv d old; mv n d; touch a",
                "cat d/x > b 2>/dev/null || echo none > b"),
            ("a made d", "b passed d",),
            files={"d/x": "1\n",
                   "n/x": "2\n"}),
    Attempt("ln_before_exec", "A makes bin -> bin2 (folder link), B runs by PATH",
            two("sleep 0.5; ln -sfn bin2 bin; touch a",
                "PATH=$PWD/bin:$PATH tool > b"),
            ("a linked bin", "b link bin",),
            files={"bin2/tool": ("#!/bin/sh\n"
                                  "echo new\n"),
                   "bin1/tool": ("#!/bin/sh\n"
                                  "echo old\n")},
            setup="ln -s bin1 bin"),
)
