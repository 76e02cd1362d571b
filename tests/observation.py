"""Observations of version 2 that tests write by hand (docs/FORMATS.md, "Observed")."""

from __future__ import annotations

import hashlib


def ended(text: str) -> str:
    """The lines of an observation with the last line that is due of them: the counts, and the sum of all bytes before."""
    lines = text.splitlines()
    paths, edges = (sum(line.startswith(word) for line in lines) for word in ("path ", "edge "))
    return f"{text}end {paths} {edges} {len(lines)} {hashlib.sha256(text.encode('latin-1')).hexdigest()}\n"
