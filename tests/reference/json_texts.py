"""Values as JSON."""

import json
import re

# What a terminal obeys, what turns the direction of a text, and what separates lines ('Events').
STEERING = re.compile(r"[\x7f-\x9f\u061c\u200e\u200f\u2028-\u202e\u2066-\u2069]")


def json_text(value):
    return json.dumps(value, separators=(",", ":"), ensure_ascii=False)


def unsteered(text):
    """The text of a value with each character that steers what shows it as its escape: they stand only within strings."""
    return STEERING.sub(lambda found: f"\\u{ord(found[0]):04x}", text)


def json_lines(values):
    """Values as lines of JSON."""
    return "".join(f"{json_text(value)}\n" for value in values)
