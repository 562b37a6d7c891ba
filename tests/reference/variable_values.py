"""What the value of a UEFI variable says, by its vendor and its name ('Values of variables')."""

import hashlib
import re
from itertools import groupby

from .device_paths import path_member
from .event_texts import GUID_SIZE, decoded, guid_text, read_items, read_whole, require_form, up_to_nul, wide_member
from .fields import Fields

EV_EFI_VARIABLE_AUTHORITY = 0x800000E0
# UEFI 2.10, EFI_GLOBAL_VARIABLE and EFI_IMAGE_SECURITY_DATABASE_GUID; shim, SHIM_LOCK_GUID.
GLOBAL = "8be4df61-93ca-11d2-aa0d-00e098032b8c"
IMAGE_SECURITY = "d719b2cb-3d3a-4596-a3bc-dad00e67656f"
SHIM = "605dab50-e046-4300-abb6-3dd810dd8b23"
FLAGS = {(GLOBAL, name) for name in ("SecureBoot", "SetupMode", "AuditMode", "DeployedMode")} | {(SHIM, "MokListTrusted")}
LISTS = {(GLOBAL, "PK"), (GLOBAL, "KEK"), (IMAGE_SECURITY, "db"), (IMAGE_SECURITY, "dbx"), (SHIM, "MokList"), (SHIM, "MokListX")}
AUTHORITIES = {(IMAGE_SECURITY, "db"), (SHIM, "MokList"), (SHIM, "MokListRT")}
# The variables of shim that have one certificate, and the levels of SBAT (shim, SBAT.md).
CERTIFICATE, LEVEL = (SHIM, "Shim"), (SHIM, "SbatLevel")
OPTION_NAME = re.compile("Boot[0-9A-F]{4}")
# UEFI 2.10, EFI_CERT_X509_GUID; the tag of a SEQUENCE, as which a certificate begins (X.690, 8.9; RFC 5280, 4.1); the size of the longest hash.
X509 = "a5c059a1-94e4-4aa7-87b5-ab155c2bf072"
SEQUENCE, LONGEST_HASH = b"\x30", 64


def certificate(data):
    """A certificate by its bytes, as they are."""
    return {"sha256": hashlib.sha256(data).hexdigest(), "size": len(data)}


def read_flag(fields):
    return {"flag": fields.number(1)}


def read_order(fields):
    return {"order": [f"{number:04x}" for number in read_items(lambda rest: rest.number(2), fields)]}


def read_option(fields):
    """An EFI_LOAD_OPTION of UEFI."""
    attributes, path_size = fields.number(), fields.number(2)
    description = up_to_nul(fields.data[fields.place :])
    fields.take(len(description))
    require_form(fields.take(2) == b"\0\0")
    path = path_member(fields.take(path_size))
    option = {"attributes": attributes, **wide_member("description", description), **path, "data": fields.take(fields.left()).hex()}
    return {"option": option}


def read_signature(fields):
    """An EFI_SIGNATURE_DATA of UEFI, up to the end."""
    owner, data = guid_text(fields.take(GUID_SIZE)), fields.take(fields.left())
    is_certificate = len(data) > LONGEST_HASH and data.startswith(SEQUENCE)
    return {"signature": {"owner": owner, "data": data.hex(), **({"certificate": certificate(data)} if is_certificate else {})}}


def read_certificate(fields):
    """A certificate (RFC 5280, section 4.1), of which the outermost form is looked at: a SEQUENCE in DER of 256 bytes to 64 KiB."""
    head = fields.take(4)
    size = int.from_bytes(head[2:], "big")
    require_form(head[:2] == b"\x30\x82" and size >= 256)
    return {"certificate": certificate(head + fields.take(size))}


def read_authority(fields):
    """What allowed an image: shim tells the certificate alone, firmware a signature with its owner."""
    data = fields.take(fields.left())
    return read_whole(read_certificate, data) or read_signature(Fields(data))


def read_level(fields):
    data = fields.take(fields.left())
    text = decoded(data.removesuffix(b"\0"), "utf-8")
    require_form(text is not None and "\0" not in text)
    return {"level": text}


def read_list(fields):
    """An EFI_SIGNATURE_LIST of UEFI."""
    kind, list_size, header_size, size = fields.take(GUID_SIZE), fields.number(), fields.number(), fields.number()
    require_form(list_size >= 28 and size >= GUID_SIZE)
    rest = Fields(fields.take(list_size - 28))
    rest.take(header_size)
    signatures = read_items(lambda signatures: signatures.take(size), rest)
    owners = [owner for owner, _ in groupby(guid_text(signature[:GUID_SIZE]) for signature in signatures)]
    certificates = [certificate(signature[GUID_SIZE:]) for signature in signatures]
    told = {"certificates": certificates} if guid_text(kind) == X509 else {}
    return {"type": guid_text(kind), "count": len(signatures), "owners": owners, **told}


def read_lists(fields):
    return {"lists": read_items(read_list, fields)}


def value_reader(kind, variable):
    """The reader of what a variable's value says in an event of this type, or None."""
    if kind == EV_EFI_VARIABLE_AUTHORITY and variable in AUTHORITIES:
        return read_authority
    if variable == CERTIFICATE:
        return read_certificate
    if variable == LEVEL:
        return read_level
    if variable in FLAGS:
        return read_flag
    if variable == (GLOBAL, "BootOrder"):
        return read_order
    if variable[0] == GLOBAL and OPTION_NAME.fullmatch(variable[1] or ""):
        return read_option
    return read_lists if variable in LISTS else None


def value_members(kind, guid, name, value):
    """What the value says, as a member of its variable, or no member: the GUID and the name are texts, and a name that is no UTF-16 is None."""
    read = value_reader(kind, (guid, name))
    return (read and read_whole(read, value)) or {}
