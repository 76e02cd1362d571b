"""The hashes of commands in Ninja's build log. Words are little-endian, and arithmetic is on 64 bits. A recording with
dyndep files needs the hash of each command twice, so hashes are remembered."""

import functools

_WORD = (1 << 64) - 1
_MURMUR_SEED, _MURMUR_TIMES, _MURMUR_SHIFT = 0xDECAFBADDECAFBAD, 0xC6A4A7935BD1E995, 47
_RAPID_SEED = 0xBDD89AA982704029
_RAPID_KEYS = (0x2D358DCCAA6C78A5, 0x8BB84B93962EACC9, 0x4B33A62ED433D4A3)


@functools.lru_cache(maxsize=None)
def murmur_hash(command: bytes) -> int:
    """MurmurHash2 in its 64-bit form A: logs of versions 5 and 6, Ninja up to 1.12."""
    value = (_MURMUR_SEED ^ (len(command) * _MURMUR_TIMES)) & _WORD
    whole = len(command) & ~7
    for at in range(0, whole, 8):
        word = (_word(command, at) * _MURMUR_TIMES) & _WORD
        word ^= word >> _MURMUR_SHIFT
        value = ((value ^ (word * _MURMUR_TIMES & _WORD)) * _MURMUR_TIMES) & _WORD
    if whole < len(command):
        value = ((value ^ int.from_bytes(command[whole:], "little")) * _MURMUR_TIMES) & _WORD
    value ^= value >> _MURMUR_SHIFT
    value = (value * _MURMUR_TIMES) & _WORD
    return value ^ (value >> _MURMUR_SHIFT)


@functools.lru_cache(maxsize=None)
def rapid_hash(command: bytes) -> int:
    """rapidhash: logs of version 7, Ninja from 1.13 on."""
    size = len(command)
    first, second, _ = _RAPID_KEYS
    state = _RAPID_SEED ^ _mixed(_RAPID_SEED ^ first, second) ^ size
    if size > 16:
        state = _long(command, state)
        one, other = _word(command, size - 16), _word(command, size - 8)
    elif size > 3:
        step = 4 if size >= 8 else 0
        one = _word(command, 0, 4) << 32 | _word(command, size - 4, 4)
        other = _word(command, step, 4) << 32 | _word(command, size - 4 - step, 4)
    elif size:
        one, other = command[0] << 56 | command[size // 2] << 32 | command[-1], 0
    else:
        one = other = 0
    product = (one ^ second) * (other ^ state)
    return _mixed((product & _WORD) ^ first ^ size, (product >> 64) ^ second)


def _long(command: bytes, state: int) -> int:
    """The state behind all but the last 16 bytes of a command that has more: blocks of 48 bytes in three lanes."""
    first, second, third = _RAPID_KEYS
    at, size = 0, len(command)
    if size > 48:
        lanes = [state, state, state]
        while size - at >= 48:
            lanes = [_mixed(_word(command, at + 16 * it) ^ _RAPID_KEYS[it], _word(command, at + 16 * it + 8) ^ lane)
                     for it, lane in enumerate(lanes)]
            at += 48
        state = lanes[0] ^ lanes[1] ^ lanes[2]
    if size - at > 16:
        state = _mixed(_word(command, at) ^ third, _word(command, at + 8) ^ state ^ second)
    if size - at > 32:
        state = _mixed(_word(command, at + 16) ^ third, _word(command, at + 24) ^ state)
    return state


def _mixed(one: int, other: int) -> int:
    """The two halves of a product of 128 bits, one over the other."""
    product = one * other
    return (product & _WORD) ^ (product >> 64)


def _word(data: bytes, at: int, size: int = 8) -> int:
    return int.from_bytes(data[at : at + size], "little")
