"""What the data of an event says, by the event's type ('What data says'). Nothing here says whether it was measured."""

from functools import partial
from typing import NamedTuple

from .device_paths import path_member
from .event_texts import (GUID_SIZE, brief_text, decoded, guid_text, hex_number, read_front, read_items, read_whole, require_form, rest_member,
                          text_member, up_to_nul, wide_member)
from .fields import Fields
from .variable_values import value_members

STARTUP_LOCALITY = b"StartupLocality\0"
GPT_SIGNATURE = b"EFI PART"
LEAST_PARTITION = 128
NAME_SIZE = 72
# What GRUB puts before a command that it measures, and the kind that it tells (grub-core/kern/verifiers.c, commands/tpm.c); the last two are of
# GRUB as RHEL 8 has it, which hashes a command of its own with the NUL at its end.
WITH_NUL = b"grub_cmd "
COMMANDS = {b"grub_cmd: ": "grub", b"kernel_cmdline: ": "kernel", b"module_cmdline: ": "module", WITH_NUL: "grub", b"grub_kernel_cmdline ": "kernel"}
# What Google's firmware writes of its host, and of how a guest is kept apart from it (go-eventlog, ParseGCENonHostInfo).
GOOGLE_HOST = b"GCE NonHostInfo\0"
RESERVED = 15
# Vendor tables (UEFI 2.10, section 4.6; Linux, include/linux/efi.h; EDK2, OvmfPkg.dec).
TABLES = {
    "eb9d2d2f-2d88-11d3-9a16-0090273fc14d": "MPS_TABLE_GUID",
    "eb9d2d30-2d88-11d3-9a16-0090273fc14d": "ACPI_TABLE_GUID",
    "8868e871-e4f1-11d3-bc22-0080c73c8881": "ACPI_20_TABLE_GUID",
    "eb9d2d31-2d88-11d3-9a16-0090273fc14d": "SMBIOS_TABLE_GUID",
    "f2fd1544-9794-4a2c-992e-e5bbcf20e394": "SMBIOS3_TABLE_GUID",
    "b1b621d5-f19c-41a5-830b-d9152c69aae0": "DEVICE_TREE_GUID",
    "93bb96af-b9f2-4eb8-9462-e0ba74564236": "gUefiOvmfPkgTokenSpaceGuid",
}
UNKNOWN = {"unknown": True}


class Variable(NamedTuple):
    """A UEFI_VARIABLE_DATA of the Firmware Profile."""

    guid: bytes
    name: bytes
    value: bytes

    def as_json(self, kind, rest):
        guid, name = guid_text(self.guid), decoded(self.name, "utf-16-le")
        says = value_members(kind, guid, name, self.value)
        return {"guid": guid, **wide_member("name", self.name), "value": self.value.hex(), **rest_member(rest), **says}


class Command(NamedTuple):
    """A command that GRUB measures: its kind, its text, which is any bytes, and the bytes of which it extends the hash."""

    kind: str
    text: bytes
    hashed: bytes


def read_variable(fields):
    guid, units, size = fields.take(GUID_SIZE), fields.number(8), fields.number(8)
    return Variable(guid, fields.take(2 * units), fields.take(size))


def variable_in(data):
    """The variable that the bytes are, or None."""
    return read_whole(read_variable, data)


def command_in(data):
    """The command that the bytes are, or None."""
    for prefix, kind in COMMANDS.items():
        if data.startswith(prefix) and data.endswith(b"\0"):
            text = data[len(prefix) : -1]
            return Command(kind, text, text + b"\0" if prefix == WITH_NUL else text)
    return None


def separator(data):
    return {"separator": int.from_bytes(data, "little")} if len(data) == 4 else None


def utf8_text(data):
    text = decoded(data.removesuffix(b"\0"), "utf-8")
    return None if text is None or "\0" in text else {"text": text}


def wide_text(data):
    return wide_member("text", data[:-2]) if len(data) % 2 == 0 and data.endswith(b"\0\0") else None


def guid(data):
    return {"guid": guid_text(data)} if len(data) == GUID_SIZE else None


def command(data):
    found = command_in(data)
    return found and {"command": {"kind": found.kind, **text_member("text", found.text)}}


def with_a_nul_more(data):
    """A text of either kind, without the NUL at the end of the data: the event has a NUL more than the text."""
    shorter = data.removesuffix(b"\0")
    return None if shorter == data else utf8_text(shorter) or wide_text(shorter)


def variable(kind, data):
    found = read_front(read_variable, data)
    return found and {"variable": found[0].as_json(kind, found[1])}


def read_image(fields):
    """A UEFI_IMAGE_LOAD_EVENT of the Firmware Profile."""
    location, size, link_address = (hex_number(fields.number(8)) for _ in range(3))
    path = path_member(fields.with_length(8))
    return {"location": location, "size": size, "link_address": link_address, **path}


def image(data):
    found = read_front(read_image, data)
    return found and {"image": {**found[0], **rest_member(found[1])}}


def read_partition(fields):
    """A GPT Partition Entry of UEFI."""
    guids = {name: guid_text(fields.take(GUID_SIZE)) for name in ("type", "guid")}
    numbers = {name: hex_number(fields.number(8)) for name in ("first", "last", "attributes")}
    return {**guids, **numbers, **wide_member("name", up_to_nul(fields.take(NAME_SIZE)))}


def read_gpt(fields):
    """A UEFI_GPT_DATA of the Firmware Profile: the GPT Header of UEFI, the number of entries, and these."""
    require_form(fields.take(8) == GPT_SIGNATURE)
    fields.take(48)
    disk = guid_text(fields.take(GUID_SIZE))
    fields.take(12)
    size, _check, count = fields.number(), fields.number(), fields.number(8)
    require_form(size >= LEAST_PARTITION and fields.left() == count * size)
    return {"gpt": {"disk": disk, "partitions": [read_partition(Fields(fields.take(size))) for _ in range(count)]}}


def read_place(fields):
    return {"base": hex_number(fields.number(8)), "length": hex_number(fields.number(8))}


def read_blob(fields):
    """A UEFI_PLATFORM_FIRMWARE_BLOB of the Firmware Profile."""
    return {"blob": read_place(fields)}


def read_described_blob(fields):
    """A UEFI_PLATFORM_FIRMWARE_BLOB2 of the Firmware Profile."""
    return {"blob": {**text_member("description", fields.with_length(1)), **read_place(fields)}}


def read_tagged(fields):
    """A TCG_PCClientTaggedEvent of the Firmware Profile."""
    identifier, data = fields.number(), fields.with_length()
    return {"tagged": {"id": identifier, **(utf8_text(data) or {"data": data.hex()})}}


def read_locality(fields):
    """A TCG_EfiStartupLocalityEvent of the Firmware Profile."""
    require_form(fields.take(len(STARTUP_LOCALITY)) == STARTUP_LOCALITY)
    return {"locality": fields.number(1)}


def read_technology(fields):
    """What Google's firmware writes of its host."""
    require_form(fields.take(len(GOOGLE_HOST)) == GOOGLE_HOST)
    technology = fields.number(1)
    require_form(fields.take(RESERVED) == bytes(RESERVED))
    return {"technology": technology}


def read_table(fields):
    """An EFI_CONFIGURATION_TABLE of UEFI."""
    vendor = guid_text(fields.take(GUID_SIZE))
    named = {"name": TABLES[vendor]} if vendor in TABLES else {}
    return {"guid": vendor, **named, "address": hex_number(fields.number(8))}


def read_tables(fields):
    count = fields.number(8)
    tables = read_items(read_table, fields)
    require_form(len(tables) == count)
    return {"tables": tables}


def read_handoff(fields):
    """A UEFI_HANDOFF_TABLE_POINTERS of the Firmware Profile."""
    return {"handoff": read_tables(fields)}


def read_described_handoff(fields):
    """A UEFI_HANDOFF_TABLE_POINTERS2 of the Firmware Profile."""
    return {"handoff": {**text_member("description", fields.with_length(1)), **read_tables(fields)}}


blob, described_blob = partial(read_whole, read_blob), partial(read_whole, read_described_blob)
# The forms of each type's data, of which the first that fits is taken.
FORMS = {
    0x00000001: (utf8_text, blob),
    0x00000003: (partial(read_whole, read_locality),),
    0x00000004: (separator,),
    0x00000006: (utf8_text, partial(read_whole, read_tagged)),
    0x00000008: (utf8_text, wide_text, guid),
    0x0000000D: (command, utf8_text, wide_text, with_a_nul_more),
    0x00000011: (partial(read_whole, read_technology), utf8_text, described_blob),
    0x00000013: (described_blob,),
    0x80000006: (partial(read_whole, read_gpt),),
    0x80000008: (blob,),
    0x80000009: (partial(read_whole, read_handoff),),
    0x8000000A: (described_blob,),
    0x8000000B: (partial(read_whole, read_described_handoff),),
    0x8000000D: (partial(read_whole, read_gpt),),
}
FORMS |= dict.fromkeys((0x00000005, 0x00000007, 0x0000000C, 0x00000012, 0x80000007, 0x80000010), (utf8_text, wide_text))
FORMS |= dict.fromkeys((0x00000009, 0x0000000A, 0x0000000B, 0x0000000F, 0x00000010), (utf8_text, described_blob))
FORMS |= dict.fromkeys((0x80000003, 0x80000004, 0x80000005), (image,))
FORMS |= {kind: (partial(variable, kind),) for kind in (0x80000001, 0x80000002, 0x8000000C, 0x800000E0, 0x800000E3, 0x800000E4)}


def content_of(kind, data):
    """What the data of an event of this type says, as JSON: an object with one member."""
    readings = (form(data) for form in FORMS.get(kind, ()))
    return next((content for content in readings if content is not None), UNKNOWN)


# Which members of a form may be long bytes that are no text.
BYTES = {"variable": ("value", "rest"), "image": ("rest",), "signature": ("data",), "option": ("data",), "tagged": ("data",)}


def brief(name, value):
    """A value of this name, with long bytes in it shortened."""
    if not isinstance(value, dict):
        return value
    members = {key: brief(key, each) for key, each in value.items()}
    return members | {key: brief_text(value[key]) for key in BYTES.get(name, ()) if key in value}


def brief_content_of(kind, data):
    """The same as a text for people has it: of long bytes their beginning and their number."""
    return brief("content", content_of(kind, data))
