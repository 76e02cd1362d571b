"""Fisher's exact test, one-sided: by whole numbers alone, up to the last division."""

from __future__ import annotations

import functools
from fractions import Fraction


@functools.lru_cache(maxsize=64)
def _ways(count: int) -> list[int]:
    """In how many ways none, one, two and so on of so many builds can be chosen."""
    found = [1]
    for it in range(count):
        found.append(found[-1] * (count - it) // (it + 1))
    return found


def tail(a: int, bad: int, c: int, good: int) -> tuple[int, int]:
    """The chance, as a fraction of whole numbers, that of `bad` and `good` builds at least `a` bad ones are among those
    that have a property, where a + c of all have it and nothing but chance says which."""
    having, of_bad, of_good = a + c, _ways(bad), _ways(good)
    most = min(bad, having)
    return sum(of_bad[it] * of_good[having - it] for it in range(a, most + 1)), _ways(bad + good)[having]


@functools.lru_cache(maxsize=1 << 18)
def chance(a: int, bad: int, c: int, good: int) -> float:
    """The same as the nearest number of floating point."""
    part, whole = tail(a, bad, c, good)
    return part / whole


def is_below(a: int, bad: int, c: int, good: int, tests: int, least: Fraction) -> bool:
    """Whether the chance, times the number of tests, is below a fraction: exactly."""
    part, whole = tail(a, bad, c, good)
    return part * tests * least.denominator < least.numerator * whole
