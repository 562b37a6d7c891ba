"""Makes pages of HTML from the package's templates: whole ones, which load nothing and run nothing but their own script.

Whatever a template prints is shown as text, whoever wrote it: markup is escaped, and each character without a glyph of its own, such as a
control or one that turns the direction of a line, is spelled out. Templates print no text in attributes."""

import base64
import hashlib
import re
from itertools import groupby
from typing import Any, Optional

from jinja2 import Environment, PackageLoader, StrictUndefined
from markupsafe import Markup, escape

from .ending import telling

# Python's mark of a byte that is not UTF-8, by `surrogateescape`.
_BYTES = range(0xDC80, 0xDD00)

# Letters and marks that show nothing, with which two names would look the same: Unicode's Default_Ignorable_Code_Point, and the blank of Braille.
_BLANK = re.compile("[\u034f\u115f\u1160\u17b4\u17b5\u180b-\u180f\u2800\u3164\ufe00-\ufe0f\uffa0\U000e0100-\U000e01ef]")

_POLICY = "default-src 'none'; style-src {}; script-src {}; base-uri 'none'; form-action 'none'"


def is_seen(text: str) -> bool:
    """Whether each character of a text has a glyph of its own, or is a space."""
    return text.isprintable() and not _BLANK.search(text)


def spelling(letter: str) -> str:
    """How a character without a glyph is written, as in Python; a byte that is not UTF-8 as that byte."""
    code = ord(letter)
    if code in _BYTES:
        return f"\\x{code - 0xDC00:02x}"
    if code < 0x100:
        return f"\\x{code:02x}"
    return f"\\u{code:04x}" if code < 0x10000 else f"\\U{code:08x}"


def shown(text: str) -> Markup:
    """A text as markup that shows each of its characters, and is nothing but text."""
    if is_seen(text):
        return escape(text)
    runs = [(is_run_seen, "".join(letters)) for is_run_seen, letters in groupby(text, is_seen)]
    return Markup("").join(
        escape(run) if is_run_seen else Markup(f'<span class="code">{"".join(map(spelling, run))}</span>') for is_run_seen, run in runs
    )


def plain(text: str) -> Markup:
    """The same without elements, for a place that has none: a title, or a picture."""
    return escape("".join(letter if is_seen(letter) else spelling(letter) for letter in text))


def text_of_bytes(data: bytes) -> str:
    """Bytes as text, of which those that are not UTF-8 are shown as bytes."""
    return data.decode(errors="surrogateescape")


def text_of_hex(digits: str) -> str:
    return text_of_bytes(bytes.fromhex(digits))


def time_span(seconds: float) -> str:
    """A time for people."""
    for unit, size in (("days", 86400), ("h", 3600), ("min", 60)):
        if seconds >= 2 * size:
            return f"{seconds / size:.0f} {unit}"
    return f"{seconds:.0f} s"


def moment(time: Optional[str]) -> Optional[str]:
    """A time in UTC for people; as it is, if it is written in another form."""
    found = re.fullmatch(r"(\d{4}-\d\d-\d\d)T(\d\d:\d\d:\d\d)(?:\.\d+)?\+00:00", time or "")
    return time if found is None else f"{found[1]} {found[2]}"


def _finalize(value: Any) -> Any:
    """What a template prints in place of a value."""
    if value is None:
        return ""
    return shown(value) if isinstance(value, str) and not isinstance(value, Markup) else value


def _environment() -> Environment:
    environment = Environment(
        loader=PackageLoader(__package__), autoescape=True, undefined=StrictUndefined, finalize=_finalize, trim_blocks=True, lstrip_blocks=True
    )
    environment.filters.update(time_span=time_span, moment=moment, plain=plain, text_of_hex=text_of_hex)
    return environment


def _inline(environment: Environment, file: str) -> Markup:
    """A file of the package, as a page has it: it is the only style, or the only script."""
    assert environment.loader is not None
    text, _, _ = environment.loader.get_source(environment, file)
    if "</" in text:
        raise ValueError(f"{file} would end its element")
    return Markup(text)


def _source(text: str) -> str:
    """How the policy of a page names an inline style or script."""
    return f"'sha256-{base64.b64encode(hashlib.sha256(text.encode()).digest()).decode()}'"


def render(template: str, **values: Any) -> bytes:
    """The page that a template makes of these values, which is whole or not made."""
    environment = _environment()
    style, script = _inline(environment, "page.css"), _inline(environment, "page.js")
    policy = Markup(_POLICY.format(_source(style), _source(script)))
    return environment.get_template(template).render(style=style, script=script, policy=policy, **values).encode()


def write_page(page: bytes) -> None:
    """Writes a page to standard output."""
    with telling() as output:
        output.buffer.write(page)
