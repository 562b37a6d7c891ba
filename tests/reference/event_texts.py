"""Texts of what the data of events says: GUIDs, UTF-16, numbers of 64 bits; and forms that take all of some bytes ('What data says')."""

from uuid import UUID

from .fields import Cut, Fields

GUID_SIZE = 16


class NoForm(Cut):
    """The bytes do not have the form."""


def require_form(holds):
    if not holds:
        raise NoForm


def read_whole(read, data):
    """What a reader of fields finds in bytes that have its form and nothing after it, or None."""
    fields = Fields(data)
    try:
        found = read(fields)
    except Cut:
        return None
    return None if fields.left() else found


def read_front(read, data):
    """What a reader of fields finds at the start of bytes, and what follows it; or None."""
    fields = Fields(data)
    try:
        found = read(fields)
    except Cut:
        return None
    return found, fields.take(fields.left())


def rest_member(rest):
    """The bytes behind a form, or no member."""
    return {"rest": rest.hex()} if rest else {}


def read_items(read, fields):
    """What a reader finds in the fields up to their end, one after another."""
    items = []
    while fields.left():
        items.append(read(fields))
    return items


def hex_number(value):
    return f"0x{value:x}"


def guid_text(data):
    """The text of a GUID, whose first three numbers are little endian (RFC 4122, section 3; UEFI 2.10, appendix A)."""
    return str(UUID(bytes_le=data))


def decoded(data, encoding):
    try:
        return data.decode(encoding)
    except UnicodeDecodeError:
        return None


def text_member(name, data, encoding="utf-8"):
    """A member of this name with the text that bytes are in the encoding, or with their hexadecimal, and then `_hex` after its name."""
    text = decoded(data, encoding)
    return {f"{name}_hex": data.hex()} if text is None else {name: text}


def wide_member(name, data):
    """The same of UTF-16."""
    return text_member(name, data, "utf-16-le")


def up_to_nul(data):
    """The units of two bytes before the first NUL unit, or all whole ones without one."""
    units = [data[place : place + 2] for place in range(0, len(data) - 1, 2)]
    return b"".join(units[: units.index(b"\0\0")] if b"\0\0" in units else units)


# How many bytes of a long value are shown in a text for people.
BRIEF = 32


def brief_text(digits):
    """Hexadecimal digits as a text for people shows them: of many the first, and how many bytes there are."""
    size = len(digits) // 2
    return digits if size <= BRIEF else {"begins": digits[: 2 * BRIEF], "size": size}
