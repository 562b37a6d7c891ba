"""The words of a report that have colours: what begins a line, or follows its first or second word ('Colours')."""

import re

GREEN, RED, YELLOW, FAINT, RESET = (f"\x1b[{number}m".encode() for number in (32, 31, 33, 2, 0))
# Words that end their line.
LAST = {
    GREEN: ("match", "good", "confirmed", "valid"),
    RED: ("differ", "absent", "missing", "wrong", "nobank", "not checked", "nowhere", "not located"),
    YELLOW: ("old_kernel", "unconfirmed"),
    FAINT: ("match at reset", "at reset"),
}
# Words that others follow.
FOLLOWED = {
    GREEN: ("match:",),
    RED: ("differ", "extends", "unknown", "differ:", "no verdict:", "refused:", "failed:"),
    YELLOW: ("unconfirmed:",),
}
COLORS = {
    **{f"{words}\n".encode(): color for color, each in LAST.items() for words in each},
    **{f"{words} ".encode(): color for color, each in FOLLOWED.items() for words in each},
}
SEQUENCE = re.compile(rb"\x1b\[[0-9]+m")


def colored_line(line):
    """The line with a colour for its state."""
    words = line.split(b" ")
    for count in range(min(3, len(words))):
        label, rest = b"".join(word + b" " for word in words[:count]), b" ".join(words[count:])
        for text, color in COLORS.items():
            if rest.startswith(text):
                return label + color + text[:-1] + RESET + rest[len(text) - 1:]
    return line


def colored(text):
    """The text with colours. What is refused or failed is told in one text, of which only the start has a colour: a name may have line feeds."""
    if text.startswith((b"refused: ", b"failed: ")):
        return colored_line(text)
    return b"".join(map(colored_line, re.findall(rb"[^\n]*\n|[^\n]+", text)))


def without_colors(text):
    return SEQUENCE.sub(b"", text)
