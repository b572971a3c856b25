#!/usr/bin/env python3
"""slices.py COMMAND..: runs a command whose processes keep a processor for 100 milliseconds at a time, and so what they have in its cache.

Where more of them want to run than there are processors, Linux otherwise takes turns every few milliseconds. From 6.12 on it grants longer turns to
whoever asks; where it does not, the command runs as it would have.
"""
import ctypes
import os
import platform
import struct
import sys

SLICE = 100_000_000
SCHED_SETATTR = {"x86_64": 314, "aarch64": 274}


def ask():
    """Asks for longer turns, for this process and those that it starts: nothing else of how they are scheduled changes."""
    policy = os.sched_getscheduler(0)
    if platform.system() != "Linux" or platform.machine() not in SCHED_SETATTR or policy not in (os.SCHED_OTHER, os.SCHED_BATCH):
        return
    attributes = struct.pack("=IIQiIQQQ", 48, policy, 0, os.getpriority(os.PRIO_PROCESS, 0), 0, SLICE, 0, 0)
    ctypes.CDLL(None).syscall(SCHED_SETATTR[platform.machine()], 0, attributes, 0)


def main():
    """The command, in this process."""
    ask()
    try:
        os.execvp(sys.argv[1], sys.argv[1:])
    except OSError as error:
        print(f"slices.py: {sys.argv[1]}: {error.strerror}", file=sys.stderr)
        return 2


if __name__ == "__main__":
    sys.exit(main())
