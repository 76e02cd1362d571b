"""Makes a Debian package of a release's files. Used by tools/release."""

from __future__ import annotations

import gzip
import os
import re
import shutil
import subprocess
import textwrap
import time
from pathlib import Path

import layout

TOP = Path(__file__).resolve().parent.parent
MAINTAINER = "rebug's maintainers <maintainers@users.noreply.hamuchwa.example>"
CONTROL = """\
Package: rebug
Version: {version}
Architecture: amd64
Maintainer: {maintainer}
Installed-Size: {size}
Depends: libc6 (>= 2.34), python3 (>= 3.10)
Recommends: ninja-build, rlwrap, strace
Section: devel
Priority: optional
Description: reversible debugger for Ninja builds
 rebug records a build that Ninja runs, and tells which of its commands race:
 read what another command makes without waiting for it. It tells the line of
 the manifest that mends each race, makes the race happen on demand, and
 answers why a command ran, what its run rested on, and what the build would be
 without it.
 .
 What its programs answer is proved: each function meets its contract on every
 input. /usr/share/doc/rebug says what is proved, and how to check that again.
"""
COPYRIGHT = """\
Format: https://www.debian.org/doc/packaging-manuals/copyright-format/1.0/
Upstream-Name: rebug
Upstream-Contact: {maintainer}

Files: *
Copyright: 2026 the authors of rebug
License: none-stated
 The sources of rebug state no licence. Who wants to pass this package on asks
 the maintainers. The programs are linked with the standard library of the
 Rattle kit that compiled them.
"""
# What lintian is to leave out, and why.
OVERRIDES = """\
# The programs have the bytes that the gate built and that PROVED names.
rebug: unstripped-binary-or-object [usr/libexec/rebug/rebug]
rebug: unstripped-binary-or-object [usr/libexec/rebug/rebug_ask]
"""


class NotMade(Exception):
    """A sentence that says why there is no package."""


def compress(path: Path) -> None:
    """Puts the file, compressed, into its place: no byte tells when."""
    text = path.read_bytes()
    with path.with_name(f"{path.name}.gz").open("wb") as file:
        with gzip.GzipFile(filename="", mode="wb", compresslevel=9, fileobj=file, mtime=0) as compressed:
            compressed.write(text)
    path.unlink()


def changelog(version: str) -> str:
    """CHANGELOG.md as Debian has such a file: its versions with their days, newest first."""
    entries: list[str] = []
    text = (TOP / "CHANGELOG.md").read_text(encoding="utf-8")
    for name, day, body in re.findall(r"(?m)^## (\S+), (\d{4}-\d\d-\d\d)$\n((?:(?!^## )(?:.*\n))*)", text):
        lines = re.findall(r"(?m)^- (.*(?:\n  .*)*)", body) or ["See CHANGELOG.md."]
        told = "".join(textwrap.fill(" ".join(re.sub("[*`]", "", it).split()), 78, initial_indent="  * ",
                                     subsequent_indent="    ") + "\n" for it in lines)
        date = time.strftime("%a, %d %b %Y 00:00:00 +0000", time.strptime(day, "%Y-%m-%d"))
        shown = version if not entries else name
        entries.append(f"rebug ({shown}) unstable; urgency=medium\n\n{told}\n -- {MAINTAINER}  {date}\n")
    return "\n".join(entries)


def package(room: Path, out: Path, version: str, when: int, is_unproved: bool) -> Path:
    """The package of what stands in the folder's usr/, with what Debian wants beside it; gives its path."""
    if not shutil.which("dpkg-deb"):
        raise NotMade("a Debian package is made by dpkg-deb, which is not on the PATH")
    told = version + "~unproved" * is_unproved
    doc = room / "usr" / layout.DOC
    (room / "usr" / layout.LIBEXEC / "install").unlink()
    compress(room / "usr/share/man/man1/rebug.1")
    move(room / "usr" / layout.COMPLETIONS["_rebug"], room / "usr/share/zsh/vendor-completions/_rebug")
    (doc / "copyright").write_text(COPYRIGHT.format(maintainer=MAINTAINER), encoding="utf-8")
    (doc / "changelog").write_text(changelog(told), encoding="utf-8")
    compress(doc / "changelog")
    overrides = room / "usr/share/lintian/overrides/rebug"
    overrides.parent.mkdir(parents=True)
    overrides.write_text(OVERRIDES, encoding="utf-8")
    size = sum(path.stat().st_size for path in room.rglob("*") if path.is_file()) // 1024
    (room / "DEBIAN").mkdir()
    text = CONTROL.format(version=told, maintainer=MAINTAINER, size=size)
    (room / "DEBIAN/control").write_text(text, encoding="utf-8")
    sums = subprocess.run("find usr -type f -print0 | LC_ALL=C sort -z | xargs -0 md5sum", shell=True, cwd=room,
                          stdout=subprocess.PIPE, check=True).stdout
    (room / "DEBIAN/md5sums").write_bytes(sums)
    for path in [room, *room.rglob("*")]:
        path.chmod(layout.mode_of(path))
        os.utime(path, (when, when))
    made = out / f"rebug_{told}_amd64.deb"
    ran = subprocess.run(["dpkg-deb", "--root-owner-group", "--build", room, made], capture_output=True, text=True,
                         env={**os.environ, "SOURCE_DATE_EPOCH": str(when)}, check=False)
    if ran.returncode:
        raise NotMade(f"dpkg-deb: {ran.stderr.strip()}")
    return made


def move(source: Path, target: Path) -> None:
    """Moves a file, and takes its folder away if nothing else is in it."""
    target.parent.mkdir(parents=True, exist_ok=True)
    source.rename(target)
    if not any(source.parent.iterdir()):
        source.parent.rmdir()
