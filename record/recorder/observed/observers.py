"""Which observer is taken."""

from __future__ import annotations

from .calls import Observer
from .own import Own
from .strace import Strace

OWN = "own"
OBSERVERS = {OWN: Own, "strace": Strace}
"""Each observer by the word that asks for it, in the order in which they are tried."""


def chosen(name: str | None) -> tuple[Observer | None, str]:
    """The observer of this name, or the first that can observe here; with none, why not."""
    reasons = []
    for word, make in OBSERVERS.items():
        if name in (None, word):
            observer: Observer = make()
            refusal = observer.refusal()
            if refusal is None:
                return observer, ""
            reasons.append(refusal)
    return None, "; ".join(reasons)
