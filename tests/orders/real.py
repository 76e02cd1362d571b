"""The graphs of real builds that stand beside this file, as tests/orders/run and tests/orders/words read them. CMake and
Meson wrote their manifests for sources of Debian."""

from __future__ import annotations

from pathlib import Path

HERE = Path(__file__).resolve().parent
# Of each graph the recorder counted so many unordered pairs, and chose so many orders, behind which no pair is left.
REAL = {
    "curl": (13_915, 2), "flatbuffers": (1_741, 3), "gdk_pixbuf": (28_490, 4), "googletest": (16, 3),
    "gstreamer": (107_439, 6), "harfbuzz": (90, 2), "libdrm": (2_437, 4), "libgit2": (122_456, 3),
    "libsecret": (7_162, 4), "libuv": (99_087, 4), "ninja": (1_688, 3), "systemd": (1_663_760, 10), "zstd": (7_949, 4),
}


def file_of(name: str) -> Path:
    return HERE / f"{name}.graph"


def nodes_of(name: str) -> tuple[list[list[int]], list[bool]]:
    """What each node of a graph waits for, and which nodes are commands. A line is a node: whether it is a command, and
    the nodes that it waits for; the first line is for the program."""
    lines = [[int(word) for word in line.split()] for line in file_of(name).read_text().splitlines()[1:]]
    return [before for _, *before in lines], [bool(is_command) for is_command, *_ in lines]
