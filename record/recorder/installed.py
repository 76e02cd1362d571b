"""Where the recorder stands: in a checkout of rebug, or where rebug is installed."""

import os
import pathlib
import shutil

TOP = pathlib.Path(__file__).resolve().parents[2]
"""The checkout, or PREFIX/libexec/rebug."""
IS_INSTALLED = (TOP / "release").is_file()
"""Whether rebug is installed: only there a file tells of the release."""


def launcher() -> str:
    """The launcher that stands with the recorder."""
    return str(TOP.parents[1] / "bin" / "rebug" if IS_INSTALLED else TOP / "rebug")


def asking_program() -> str:
    """The proved program that answers what people ask. It may not be built."""
    return str(TOP / "rebug_ask" if IS_INSTALLED else TOP / "crates/rebug_ask/out/rebug_ask")


def word_of_launcher() -> str:
    """The word that calls rebug from the working folder, for a sentence to the user."""
    if IS_INSTALLED:
        on_path = shutil.which("rebug")
        is_found = on_path is not None and os.path.realpath(on_path) == os.path.realpath(launcher())
        return "rebug" if is_found else launcher()
    near = os.path.relpath(launcher())
    return launcher() if near.startswith("..") else f"./{near}"
