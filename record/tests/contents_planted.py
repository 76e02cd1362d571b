"""A project with commands of known kinds. Of the outputs, `n..` come from commands that leave other bytes from the same
bytes, `p..` only follow from such ones, and `d..` and all others are the same each time."""

import pathlib

FIRST_CAUSES, PROPAGATED, ABSORBED = 17, 5, "d_absorb.txt"
FILES = {
    "date.c": 'const char *built = __DATE__ " " __TIME__;\n',
    "one.c": "int one(void) { return 1; }\n",
    "two.c": "int two(void) { return 2; }\n",
    "main.c": '#include "version.h"\n#include <stdio.h>\nextern const char *built; int one(void), two(void);\n'
              'int main(void) { return !printf("%s %d %d\\n", built, VERSION, one() + two()); }\n',
    "ptr.c": '#include <stdio.h>\n#include <stdlib.h>\nint main(void) { printf("%p\\n", malloc(1)); }\n',
    "uninit.c": "#include <stdio.h>\n#include <stdlib.h>\n"
                'void g(void) { char b[4096]; snprintf(b, sizeof b, "%p %p", (void *)b, malloc(9)); }\n'
                "void f(void) { struct { char c; void *l[512]; } it; it.c = 1; fwrite(&it, sizeof it, 1, stdout); }\n"
                "int main(void) { g(); f(); }\n",
    "file.c": "const char *me = __FILE__;\n",
    "words.txt": "".join(f"word{it}\n" for it in range(40)),
    "gen.sh": 'echo "line of $1"\n',
    "work.sh": 'sleep 0.0$((RANDOM % 9))\necho "done $1"\n',
}
_ZIP = 'import zipfile; z = zipfile.ZipFile("$out", "w"); z.write("gen1.txt"); z.close()'
_WORDS = 'print("\\n".join(set(open("words.txt").read().split())))'
# Of each output the command and its inputs.
COMMANDS: dict[str, tuple[str, str]] = {
    "n01_date.o": ("gcc -c date.c -o $out", "date.c"),
    "n02_ar.a": ("rm -f $out; ar qcU $out d_one.o d_two.o", "d_one.o d_two.o"),
    "n03_gzip.gz": ("gzip -c gen1.txt > $out", "gen1.txt"),
    "n04_tar.tar": ("tar cf $out gen1.txt gen2.txt", "gen1.txt gen2.txt"),
    "n05_zip.zip": (f"python3 -c '{_ZIP}'", "gen1.txt"),
    "n06_py.pyc": ("python3 -c 'import py_compile; py_compile.compile(\"gen.py\", \"$out\")'", "gen.py"),
    "n07_set.txt": (f"python3 -c '{_WORDS}' > $out", "words.txt"),
    "n08_uuid.txt": ("python3 -c 'import uuid; print(uuid.uuid4())' > $out", ""),
    "n09_pid.txt": ("echo built by $$$$ > $out", ""),
    "n10_parallel.txt": ("seq 40 | xargs -P 4 -n 1 bash work.sh > $out", "work.sh"),
    "n11_lto.o": ("gcc -flto -c one.c -o $out", "one.c"),
    "n12_ptr.txt": ("./d_ptr > $out", "d_ptr"),
    "n13_uninit.bin": ("./d_uninit > $out", "d_uninit"),
    "n14_version.h": ('echo "#define VERSION $$(date +%s)" > $out; cp $out version.h', ""),
    "n15_mktemp.txt": ('t=$$(mktemp); echo "work was in $$t" > $out; rm $$t', ""),
    "n16_dir.txt": ("ls -U dir > $out", "dir/a dir/b dir/c dir/d"),
    "n17_log.txt": ("echo fixed > $out; date +%N > tool.log", ""),  # its declared output is the same
    "e1_locale.txt": ("printf 'b\\nA\\na\\nB\\n' | sort > $out", ""),
    "e2_zone.txt": ("date -d @1000000000 > $out", ""),
    "e3_user.txt": ("echo by $$LOGNAME > $out", ""),
    "f1_debug.o": ("gcc -g -c two.c -o $out", "two.c"),
    "f2_file.o": ("gcc -c $top/file.c -o $out", "file.c"),
    "d_one.o": ("gcc -c one.c -o $out", "one.c"),
    "d_two.o": ("gcc -c two.c -o $out", "two.c"),
    "d_ptr": ("gcc ptr.c -o $out", "ptr.c"),
    "d_uninit": ("gcc -O0 uninit.c -o $out", "uninit.c"),
    "gen1.txt": ("sh gen.sh 1 > $out", "gen.sh"),
    "gen2.txt": ("sh gen.sh 2 > $out", "gen.sh"),
    "gen.py": ("echo 'X = 1' > $out", ""),
    "d_ar.a": ("rm -f $out; ar qcD $out d_one.o d_two.o", "d_one.o d_two.o"),
    "d_gzip.gz": ("gzip -nc gen1.txt > $out", "gen1.txt"),
    "d_tar.tar": ("tar cf $out --sort=name --mtime=@0 gen1.txt gen2.txt", "gen1.txt gen2.txt"),
    "d_set.txt": (f"PYTHONHASHSEED=0 python3 -c '{_WORDS}' > $out", "words.txt"),
    "d_mktemp.txt": ("t=$$(mktemp); sort words.txt > $$t; cp $$t $out; rm $$t", "words.txt"),
    "d_parallel.txt": ("seq 20 | xargs -P 4 -n 1 bash work.sh | sort > $out", "work.sh"),
    "d_lto.o": ("gcc -flto -frandom-seed=d_lto -c one.c -o $out", "one.c"),
    ABSORBED: ("grep -c VERSION n14_version.h > $out", "n14_version.h"),
    "d_slow.txt": ("date > /dev/null; echo same > $out", ""),
    **{f"dir/{it}": (f"mkdir -p dir; sleep 0.$$(($$$$ % 7)); echo {it} > $out", "work.sh") for it in "abcd"},
    "p1_main.o": ("gcc -c main.c -o $out", "main.c n14_version.h"),
    "p2_app": ("gcc p1_main.o n01_date.o d_ar.a -o $out", "p1_main.o n01_date.o d_ar.a"),
    "p3_copy.txt": ("cp n08_uuid.txt $out", "n08_uuid.txt"),
    "p4_sums.txt": ("sha256sum p2_app n03_gzip.gz d_gzip.gz > $out", "p2_app n03_gzip.gz d_gzip.gz"),
    "p5_both.txt": ("cat n07_set.txt > $out; echo $$$$ >> $out", "n07_set.txt"),  # also a first cause, which is masked
}


def make(folder: pathlib.Path) -> None:
    """Writes the project into a new folder."""
    folder.mkdir(parents=True)
    for name, text in FILES.items():
        (folder / name).write_text(text)
    lines = [f"top = {folder}"]
    for number, (output, (command, inputs)) in enumerate(COMMANDS.items()):
        lines += [f"rule r{number}", f"  command = {command}", f"build {output}: r{number} {inputs}"]
    (folder / "build.ninja").write_text("\n".join(lines) + "\n")
