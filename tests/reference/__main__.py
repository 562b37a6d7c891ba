"""python3 -m reference WORDS: answers as `ima-agent WORDS` does, by output and status. Status 125 says that it has no answer."""

import sys

from . import Unanswered, answer

# (only without words is all of standard input read first: a command may name it, or not need it)
standard_input = sys.stdin.buffer.read() if len(sys.argv) == 1 or not {"-", "/dev/stdin"}.isdisjoint(sys.argv[1:]) else b""
try:
    status, text = answer(sys.argv[1:], ".", standard_input)
except Unanswered as cause:
    print(f"reference: not answered: {cause}", file=sys.stderr)
    sys.exit(125)
sys.stdout.buffer.write(text)
sys.stdout.buffer.flush()
sys.exit(status)
