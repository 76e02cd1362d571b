"""What the kit has kept on this machine of the proofs and edits of this checkout, for tools/edits.

The kit has no word that says so. So its own script is read as a module, and asked for the names under which a run would
look: such a name is the sum of all that a proof or an edit stands on. Where that does not go, as with another kit,
nothing counts as kept: a run is then thought to take longer than it does, and tries fewer edits."""

import contextlib
import hashlib
import importlib.machinery
import importlib.util
import io
import json
import os
import shutil
import sys
from dataclasses import dataclass, field
from pathlib import Path
from types import ModuleType
from typing import Any


@dataclass
class Kept:
    """The crates whose proof is kept, with that of their tests, and the edits whose verdict is: crate and file."""

    proofs: set[str] = field(default_factory=set)
    edits: set[tuple[str, str]] = field(default_factory=set)


def kit() -> ModuleType:
    """The kit's script as a module."""
    script = os.path.realpath(shutil.which("rt") or "rt")
    loader = importlib.machinery.SourceFileLoader("rt_of_the_kit", script)
    spec = importlib.util.spec_from_loader(loader.name, loader)
    if spec is None:
        raise ImportError(script)
    found = importlib.util.module_from_spec(spec)
    sys.modules[loader.name] = found
    loader.exec_module(found)
    return found


def kept_here(top: Path) -> Kept:
    """What is kept of the repository at `top`."""
    found = Kept()
    with contextlib.suppress(Exception, SystemExit), contextlib.redirect_stderr(io.StringIO()):
        rt = kit()
        if os.path.isdir(rt.STORE):
            rt.Crate.allowed = rt.handles_of(str(top))
            crates = rt.crates_of(str(top))
            # (lowest first: a crate's name is asked for by the sums of the libraries below it)
            look_for(rt, rt.Kept(crates), crates, found)
    return found


def look_for(rt: ModuleType, store: Any, crates: list[Any], found: Kept) -> None:
    """Notes which of the crates and edits are in the store."""
    for crate in crates:
        if any(below.name not in store.rlibs for below in crate.below()):
            continue
        key = store.key(crate)
        for edit in rt.edits_of(crate)[0]:
            if store.tried(store.of_edit(edit, key)):
                found.edits.add((crate.name, os.path.basename(edit)))
        made = Path(store.place(crate, False, key), "made.json")
        if not made.is_file():
            continue
        files = [] if crate.is_program else [tuple(it) for it in json.loads(made.read_text(encoding="utf-8"))["files"]]
        store.rlibs[crate.name] = hashlib.sha256(repr(files).encode()).hexdigest()
        if not crate.has_tests() or os.path.isdir(store.place(crate, True, key)):
            found.proofs.add(crate.name)
