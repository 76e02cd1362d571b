#!/usr/bin/env python3
"""Runs the words as a user without rights who may not trace: what a strict container does. Stands in for one in tests.

A seccomp filter refuses ptrace (EPERM), the user is `nobody`, and no program gets back what it gives up.
"""

import ctypes
import os
import platform
import struct
import sys

PTRACE, ARCHITECTURE = {"x86_64": (101, 0xC000003E), "aarch64": (117, 0xC00000B7)}[platform.machine()]
PR_SET_NO_NEW_PRIVS, PR_SET_SECCOMP, FILTER = 38, 22, 2


def refuse_ptrace() -> None:
    """Makes ptrace fail with EPERM in this process and in all that come from it."""
    rules = [(0x20, 0, 0, 4), (0x15, 0, 3, ARCHITECTURE), (0x20, 0, 0, 0), (0x15, 0, 1, PTRACE), (6, 0, 0, 0x50001),
             (6, 0, 0, 0x7FFF0000)]
    code = ctypes.create_string_buffer(b"".join(struct.pack("=HBBI", *it) for it in rules))
    program = ctypes.create_string_buffer(struct.pack("=HxxxxxxQ", len(rules), ctypes.addressof(code)))
    system = ctypes.CDLL(None, use_errno=True)
    for words in ((PR_SET_NO_NEW_PRIVS, 1, 0, 0, 0), (PR_SET_SECCOMP, FILTER, ctypes.addressof(program), 0, 0)):
        if system.prctl(*map(ctypes.c_ulong, words)):
            raise OSError(ctypes.get_errno(), "prctl")


os.setgroups([])
os.setgid(65534)
os.setuid(65534)
refuse_ptrace()
os.environ.update(HOME="/nonexistent", PATH="/usr/bin:/bin:/usr/local/bin")
os.execv(sys.argv[1], sys.argv[1:])
