"""Counts the tests of a script as ./test reads it. What was skipped is named, and has not passed."""

from __future__ import annotations

import unittest


def names(found: list[tuple[unittest.TestCase, str]]) -> set[str]:
    """The names of tests, each once, also where several of its parts are among them."""
    return {getattr(test, "test_case", test).id() for test, _ in found}


def count(ran: unittest.TestResult) -> int:
    """Prints what was skipped and why, and as the last line 'N passed, M failed'. The status: 1 where a test failed."""
    for test, reason in ran.skipped:
        print(f"skipped: {test.id()}: {reason}")
    failed = ran.failures + ran.errors
    # A class that is skipped or fails as a whole stands for its tests, of which none was begun.
    begun = [it for it in failed + ran.skipped if isinstance(it[0], unittest.TestCase)]
    print(f"{ran.testsRun - len(names(begun))} passed, {len(names(failed))} failed", flush=True)
    return 1 if failed else 0
