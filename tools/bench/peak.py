"""Runs a program with arguments, and writes its exit status and its peak memory, in KiB, to standard error.

This is a process of its own, because what a process held before `exec` counts too: a program's peak is never below that of a
small Python.
"""

import os
import sys

called = os.fork()
if called == 0:
    os.execv(sys.argv[1], sys.argv[1:])
_, ended, used = os.wait4(called, 0)
print(os.waitstatus_to_exitcode(ended), used.ru_maxrss, file=sys.stderr)
