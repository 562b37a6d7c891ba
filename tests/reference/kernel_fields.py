"""The fields of entries with the kernel's other templates (docs/schema.json)."""

from .fields import Cut, Fields
from .registers import BY_NAME

FILE = ["d-ng", "n-ng"]
TYPED_FILE = ["d-ngv2", "n-ng"]
TEMPLATES = {
    b"ima-ngv2": TYPED_FILE,
    b"ima-sigv2": [*TYPED_FILE, "sig"],
    b"ima-buf": [*FILE, "buf"],
    b"ima-modsig": [*FILE, "sig", "d-modsig", "modsig"],
    b"evm-sig": [*FILE, "evmsig", "xattrnames", "xattrlengths", "xattrvalues", "iuid", "igid", "imode"],
}
BYTES = {"sig": "signature", "modsig": "modsig", "buf": "buffer", "evmsig": "evm_signature", "xattrvalues": "xattr_values"}
NUMBERS = {"iuid": ("uid", 4), "igid": ("gid", 4), "imode": ("mode", 2)}


class Unfit(Exception):
    """A content that no field of its kind has."""


def shown(name, data):
    """A member that shows bytes: those that are not UTF-8 under another name, in hexadecimal."""
    try:
        return {name: data.decode()}
    except UnicodeDecodeError:
        return {f"{name}_hex": data.hex()}


def kernel_fields(template, payload):
    """The members of the fields of a payload, or None."""
    if template not in TEMPLATES:
        return None
    fields, told = Fields(payload), {}
    try:
        for kind in TEMPLATES[template]:
            told |= members(kind, fields.with_length())
    except (Cut, Unfit):
        return None
    return told if not fields.left() else None


def members(kind, content):
    """What a field of this kind says."""
    if kind == "d-ng":
        return digest("algorithm", "digest", content)
    if kind == "d-ngv2":
        of, _, rest = content.partition(b":")
        require(of in (b"ima", b"verity"))
        return {"digest_type": of.decode(), **digest("algorithm", "digest", rest)}
    if kind == "d-modsig":
        return digest("modsig_algorithm", "modsig_digest", content) if content else {}
    if kind == "n-ng":
        require(is_ended(content))
        return shown("path", content[:-1])
    if kind == "xattrnames":
        return shown("xattr_names", content[:-1] if is_ended(content) else content)
    if kind == "xattrlengths":
        require(len(content) % 4 == 0)
        return {"xattr_lengths": [int.from_bytes(content[at : at + 4], "little") for at in range(0, len(content), 4)]}
    if kind in NUMBERS:
        name, size = NUMBERS[kind]
        require(len(content) in (0, size))
        return {name: int.from_bytes(content, "little")} if content else {}
    return {BYTES[kind]: content.hex()}


def digest(algorithm_name, name, content):
    """The members of a digest after its algorithm's name."""
    algorithm, colon, value = content.partition(b":\0")
    known = BY_NAME.get(algorithm.decode(errors="replace"))
    require(colon and known is not None and len(value) == known.size)
    return {algorithm_name: known.name, name: value.hex()}


def is_ended(content):
    """Whether the content's last byte is its only NUL."""
    return content.find(b"\0") == len(content) - 1 and bool(content)


def require(condition):
    if not condition:
        raise Unfit
