"""What the program is to answer, by a second implementation, written from formats.md, event-data.md, verdict.md, cli.md, json.md and the text
files beside them in docs/, with hashlib alone, and for signatures with Python's cryptography.

It reads whole inputs and keeps all that it reads, so that each part can be held against its section of the page. `answer` answers as the
program does: `python3 -m reference WORDS`, in the folder above. Inputs to test and to measure with are made by its parts."""

from .program import LacksCryptography, Unanswered, answer

__all__ = ["LacksCryptography", "Unanswered", "answer"]
