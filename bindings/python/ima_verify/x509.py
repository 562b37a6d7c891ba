"""Whom the certificates of an event name, as they say themselves: nothing checks that, nor their
signatures. Needs the package cryptography (`pip install ima_verify[x509]`)."""

import hashlib
from collections.abc import Iterator
from typing import Any

from cryptography import x509

from ._errors import Error
from ._results import Event

_GUID, _HEAD = 16, 28  # (UEFI, EFI_SIGNATURE_LIST: a GUID and three sizes; then a GUID before each)


def certificates(event: Event) -> list[x509.Certificate]:
    """The certificates that `event.certificates` lists. One that is damaged is an `Error`."""
    variable = event.content.get("variable", {})
    found = {hashlib.sha256(data).digest(): data for data in _data_in(variable)}
    return [_read(found.get(each.sha256, b"")) for each in event.certificates]


def _read(data: bytes) -> x509.Certificate:
    try:
        return x509.load_der_x509_certificate(data)
    except (ValueError, TypeError) as fault:
        raise Error(f"A certificate cannot be read: {fault}") from None


def _data_in(variable: dict[str, Any]) -> Iterator[bytes]:
    """What may be a certificate: the value, all behind its owner, and each in lists of signatures."""
    value = bytes.fromhex(variable.get("value", ""))
    yield from (value, value[_GUID:])
    place = 0
    while "lists" in variable and place + _HEAD <= len(value):
        numbers = (value[place + at : place + at + 4] for at in (16, 20, 24))
        size, header, each = (int.from_bytes(number, "little") for number in numbers)
        if size < _HEAD or each < _GUID:
            return
        for start in range(place + _HEAD + header, place + size, each):
            yield value[start + _GUID : start + each]
        place += size
