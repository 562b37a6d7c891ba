"""Device paths as text ('Device paths'; UEFI 2.10, 'Device Path Nodes' and 'Device Path Display Format')."""

from typing import NamedTuple

from .event_texts import GUID_SIZE, decoded, guid_text, hex_number, read_items, read_whole, require_form

HARDWARE, ACPI, MESSAGING, MEDIA, END = 1, 2, 3, 4, 0x7F
END_OF_ONE, END_OF_ALL = 0x01, 0xFF
# The names of the ACPI nodes of some hardware identifiers, and the half of an identifier that says that PNP gave it.
ACPI_NAMES = {
    0x0A0341D0: "PciRoot",
    0x0A0841D0: "PcieRoot",
    0x060441D0: "Floppy",
    0x030141D0: "Keyboard",
    0x050141D0: "Serial",
    0x040141D0: "ParallelPort",
}
PNP = 0x41D0
VENDOR_NAMES = {(HARDWARE, 4): "VenHw", (MESSAGING, 10): "VenMsg", (MEDIA, 3): "VenMedia"}
# The nodes of which all numbers are shown in their order: the name, and the size of each number.
NUMBERS = {
    (HARDWARE, 3): ("MemoryMapped", (4, 8, 8)),
    (HARDWARE, 5): ("Ctrl", (4,)),
    (MESSAGING, 2): ("Scsi", (2, 2)),
    (MESSAGING, 5): ("USB", (1, 1)),
    (MESSAGING, 17): ("Unit", (1,)),
    (MESSAGING, 18): ("Sata", (2, 2, 2)),
    (MESSAGING, 25): ("UFS", (1, 1)),
    (MESSAGING, 26): ("SD", (1,)),
    (MESSAGING, 29): ("eMMC", (1,)),
    (MEDIA, 2): ("CDROM", (4, 8, 8)),
}
GUIDS = {(MEDIA, 6): "FvFile", (MEDIA, 7): "Fv"}


class Node(NamedTuple):
    """A node: its type, its sub-type, and what follows its length."""

    type: int
    subtype: int
    payload: bytes

    @property
    def kind(self):
        return self.type, self.subtype

    @property
    def is_end(self):
        return self.type == END and self.subtype in (END_OF_ONE, END_OF_ALL) and not self.payload

    def text(self):
        text = known_text(self.kind, self.payload)
        return shown("Path", self.type, self.subtype, *rest_shown(self.payload)) if text is None else text


def shown(name, *fields):
    return f"{name}({','.join(map(str, fields))})"


def rest_shown(data):
    """Bytes as a field, where there are some."""
    return [data.hex()] if data else []


def read_numbers(*sizes):
    """A reader of numbers of these sizes, as they are shown."""
    return lambda fields: [hex_number(fields.number(size)) for size in sizes]


def numbers_text(name, sizes, payload):
    numbers = read_whole(read_numbers(*sizes), payload)
    return numbers and shown(name, *numbers)


def read_pci(fields):
    function, device = read_numbers(1, 1)(fields)
    return shown("Pci", device, function)


def read_acpi(fields):
    identifier, unique = fields.number(), hex_number(fields.number())
    if identifier in ACPI_NAMES:
        return shown(ACPI_NAMES[identifier], unique)
    return shown("Acpi", f"PNP{identifier >> 16:04x}" if identifier & 0xFFFF == PNP else hex_number(identifier), unique)


def read_mac(fields):
    address, interface = fields.take(32), fields.number(1)
    return shown("MAC", address[: 6 if interface < 2 else 32].hex(), hex_number(interface))


def read_nvme(fields):
    namespace, identifier = hex_number(fields.number()), fields.take(8)
    return shown("NVMe", namespace, identifier[::-1].hex("-"))


def read_drive(fields):
    number, places, signature = fields.number(), read_numbers(8, 8)(fields), fields.take(GUID_SIZE)
    fields.take(1)
    kind = fields.number(1)
    require_form(kind in (1, 2))
    named = ("MBR", hex_number(int.from_bytes(signature[:4], "little"))) if kind == 1 else ("GPT", guid_text(signature))
    return shown("HD", number, *named, *places)


def read_offset(fields):
    fields.take(4)
    return shown("Offset", *read_numbers(8, 8)(fields))


def file_text(payload):
    return decoded(payload[:-2], "utf-16-le") if payload.endswith(b"\0\0") else None


def uri_text(payload):
    is_shown = all(32 < byte < 127 and byte != ord(")") for byte in payload)
    return shown("Uri", payload.decode()) if is_shown else None


READERS = {
    (HARDWARE, 1): read_pci,
    (ACPI, 1): read_acpi,
    (MESSAGING, 11): read_mac,
    (MESSAGING, 23): read_nvme,
    (MEDIA, 1): read_drive,
    (MEDIA, 8): read_offset,
}
TEXTS = {(MEDIA, 4): file_text, (MESSAGING, 24): uri_text}


def known_text(kind, payload):
    """The text of a node whose type, sub-type and bytes have one, which for a file's path may be empty; or None."""
    if kind in TEXTS:
        return TEXTS[kind](payload)
    if kind in NUMBERS:
        return numbers_text(*NUMBERS[kind], payload)
    if kind in GUIDS:
        return shown(GUIDS[kind], guid_text(payload)) if len(payload) == GUID_SIZE else None
    if kind in VENDOR_NAMES:
        is_vendor = len(payload) >= GUID_SIZE
        return shown(VENDOR_NAMES[kind], guid_text(payload[:GUID_SIZE]), *rest_shown(payload[GUID_SIZE:])) if is_vendor else None
    return read_whole(READERS[kind], payload) if kind in READERS else None


def read_node(fields):
    kind, subtype, size = fields.number(1), fields.number(1), fields.number(2)
    require_form(size >= 4)
    return Node(kind, subtype, fields.take(size - 4))


def path_text(data):
    """The text of a path: '/' between the nodes of one path, ',' between one path and the next; or None where the bytes are not whole nodes."""
    nodes = read_whole(lambda fields: read_items(read_node, fields), data)
    if nodes is None:
        return None
    text, lead = "", ""
    for node in nodes:
        text, lead = (text, ",") if node.is_end else (text + lead + node.text(), "/")
    return text


def path_member(data):
    """The member of JSON with the text of a path, or with its bytes."""
    text = path_text(data)
    return {"path_hex": data.hex()} if text is None else {"path": text}
