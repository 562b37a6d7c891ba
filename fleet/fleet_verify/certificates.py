"""Whom a certificate names, as it says itself: nothing checks that, nor its signature. Bytes that are no certificate name nobody.

Which bytes are a certificate the program says, by their SHA-256: nothing here is taken for one that has not the stated hash."""

import hashlib
import struct
import warnings
from typing import Any, Dict, Iterator, NamedTuple, Sequence

from .program import Line

# UEFI, EFI_SIGNATURE_LIST: a GUID, and three sizes; EFI_SIGNATURE_DATA: a GUID before the data.
_GUID, _SIZES = 16, struct.Struct("<3I")
_HEAD = _GUID + _SIZES.size
SAYS, UNREAD, LACKING = "read from the certificate", "cannot be read", "not read: the package cryptography is not installed"


class Certificate(NamedTuple):
    """A certificate in an event: in which variable, whom it names, its fingerprint, and which part of the event is confirmed."""

    variable: str
    subject: str
    fingerprint: str
    type: str
    mark: str
    event: int
    register: int


def certificates_in(events: Sequence[Line]) -> Iterator[Certificate]:
    """The certificates in the variables of events, whose content has their names."""
    for event in events:
        variable = event["content"].get("variable")
        for each in _certificates(variable) if isinstance(variable, dict) else ():
            named, kind = each.get(SAYS, UNREAD), str(event.get("type", event["type_number"]))
            subject = named["subject"] if isinstance(named, dict) else named
            name = str(variable.get("name", variable.get("name_hex", "")))
            yield Certificate(name, subject, each["sha256"], kind, str(event.get("confirmed", "none")), event["event"], event["register"])


def _certificates(value: Any) -> Iterator[Line]:
    """What the program calls a certificate, which has a fingerprint and a size."""
    if isinstance(value, dict) and {"sha256", "size"} <= value.keys():
        yield value
    elif isinstance(value, (dict, list)):
        for each in value.values() if isinstance(value, dict) else value:
            yield from _certificates(each)


def with_names(content: Line) -> Line:
    """What the data of an event says, with the names in the certificates of a variable beside their hashes."""
    variable = content.get("variable")
    if not isinstance(variable, dict):
        return content
    found = {hashlib.sha256(each).hexdigest(): each for each in _data_in(variable)}
    return {**content, "variable": _named(variable, found)} if found else content


def _data_in(variable: Line) -> Iterator[bytes]:
    """What may be a certificate: the data of a signature, and of each in lists of signatures; or the value."""
    value = bytes.fromhex(variable.get("value", ""))
    if "signature" in variable:
        yield bytes.fromhex(variable["signature"]["data"])
    if "certificate" in variable:
        yield value
    place = 0
    while "lists" in variable and place + _HEAD <= len(value):
        size, header, each = _SIZES.unpack_from(value, place + _GUID)
        start, end = place + _HEAD + header, place + size
        if size < _HEAD or each < _GUID or end > len(value):
            return
        for first in range(start, end, each):
            yield value[first + _GUID : first + each]
        place = end


def _named(value: Any, found: Dict[str, bytes]) -> Any:
    """The same with what each certificate says of itself."""
    if isinstance(value, list):
        return [_named(each, found) for each in value]
    if not isinstance(value, dict):
        return value
    if set(value) == {"sha256", "size"} and value["sha256"] in found:
        return {**value, SAYS: names_in(found[value["sha256"]])}
    return {name: _named(each, found) for name, each in value.items()}


def names_in(data: bytes) -> Any:
    """Subject, issuer and serial number of a certificate, in which any of them may be damaged; or why there are none."""
    try:
        from cryptography import x509
    except ImportError:
        return LACKING
    try:
        with warnings.catch_warnings():
            warnings.simplefilter("ignore")
            read = x509.load_der_x509_certificate(data)
            return {"subject": read.subject.rfc4514_string(), "issuer": read.issuer.rfc4514_string(), "serial": f"{read.serial_number:x}"}
    except (KeyboardInterrupt, SystemExit):
        raise
    except BaseException:  # (a panic of the library, which is no Exception, among them)
        return UNREAD
