"""Events of random logs: data of each form as a list of fields, which are then changed at random; types that fit or not; digests that are hashes of
parts of the data or not; and expected registers, some of which match. Short logs have events as a boot has them, of which a few are changed."""

from typing import NamedTuple
from uuid import UUID

from boots import message_of
from reference.checkpoint import before_a_list
from reference.event_data import COMMANDS, GOOGLE_HOST, RESERVED, TABLES, WITH_NUL, command_in, read_variable, variable_in
from reference.event_texts import read_front
from reference.fields import number
from reference.log import EV_NO_ACTION, TYPE_NAMES, Event, Log, Specification
from reference.measurement_list import BOOT_AGGREGATE, IMA_NG, entry_of, list_spelling
from reference.registers import ALGORITHMS, BY_IDENTIFIER, REGISTERS, SHA256
from reference.variable_values import AUTHORITIES, CERTIFICATE, EV_EFI_VARIABLE_AUTHORITY, FLAGS, GLOBAL, IMAGE_SECURITY, LEVEL, LISTS, SHIM

VARIABLES = (0x80000001, 0x80000002, 0x8000000C, 0x800000E0, 0x800000E3, 0x800000E4)
IMAGES = (0x80000003, 0x80000004, 0x80000005)
# An algorithm without a name, which a header may declare, and the size of its digests.
NAMELESS = (0x0012, 7)
# Numbers of which one may take the place of a field.
BOUNDARIES = (0, 1, 2, 3, 4, 5, 15, 16, 17, 27, 28, 29, 127, 128, 129, 255, 256, 0x7FFF, 0xFFFF, 1 << 31, (1 << 32) - 1, 1 << 57, 1 << 63,
              (1 << 64) - 1)
LETTERS = "aZ09 /\\,()%\"'\x01\x1b\x7f\x80é€\ufeff\uffff😀"
# The nodes that have a text with so many bytes; and those that have it with a GUID and any bytes.
NODES = {(1, 1): 2, (1, 3): 20, (1, 5): 4, (2, 1): 8, (3, 2): 4, (3, 5): 2, (3, 11): 33, (3, 17): 1, (3, 18): 6, (3, 23): 12, (3, 25): 2, (3, 26): 1,
         (3, 29): 1, (4, 1): 38, (4, 2): 20, (4, 6): 16, (4, 7): 16, (4, 8): 20}
VENDORS = ((1, 4), (3, 10), (4, 3))
# The types whose data the manufacturer defines.
CONFIGURATIONS = (0x09, 0x0A, 0x0B, 0x0F, 0x10, 0x11)
ACPI = (0x0A0341D0, 0x0A0841D0, 0x060441D0, 0x030141D0, 0x050141D0, 0x040141D0, 0xA5B641D0, 0)
END, END_OF_ONE = b"\x7f\xff\x04\0", b"\x7f\x01\x04\0"
# What may stand in a command line beside letters.
WORDS = ("ima_policy=tcb", "ima_tcb", "ima_policy=tcb|fail", "ima_policy=x", "ima-policy=tcb", "ima_appraise_tcb", "ima_tcb=", "quiet", "--", '"', "")
BETWEEN = (" ", " ", " ", "  ", "\t", '"', "\u00a0", "x")


class Form(NamedTuple):
    """A form of data: the types that have it, and a maker of its fields."""

    types: tuple
    make: object


def guid(chance):
    return chance.choice((bytes(16), chance.randbytes(16), UUID(GLOBAL).bytes_le))


def word(chance, letters=LETTERS):
    return "".join(chance.choice(letters) for _ in range(chance.choice((0, 1, 2, 5, 20))))


def wide(chance):
    """Units of UTF-16, now and then with a surrogate alone."""
    spoiled = chance.choice((b"\x00\xd8", b"\x00\xdc\x3d\xd8")) if chance.random() < 0.1 else b""
    return word(chance).encode("utf-16-le") + spoiled


def text(chance):
    return [word(chance).encode(), chance.choice((b"", b"\0"))]


def wide_text(chance):
    return [wide(chance), b"\0\0"]


def command(chance):
    return [chance.choice([*COMMANDS]), word(chance).encode(), b"\0"]


def node(chance):
    """The fields of a node of a device path."""
    kind = chance.choice([*NODES, *VENDORS, (4, 4), (3, 24), (chance.randrange(256), chance.randrange(256))])
    payload = chance.randbytes(chance.choice((0, 1, 2, 16, 20)))
    if kind in NODES:
        payload = chance.randbytes(NODES[kind])
    if kind == (2, 1):
        payload = number(chance.choice(ACPI)) + payload[4:]
    if kind in ((3, 11), (4, 1)):
        payload = payload[:-1] + bytes([chance.randrange(4)])
    if kind in VENDORS:
        payload = guid(chance) + chance.randbytes(chance.choice((0, 0, 3)))
    if kind == (4, 4):
        payload = wide(chance) + b"\0\0"
    if kind == (3, 24):
        payload = word(chance, "ht:/.p?%(").encode()
    return [bytes(kind), number(4 + len(payload), 2), payload]


def path(chance):
    nodes = [node(chance) for _ in range(chance.choice((0, 1, 2, 4)))]
    ends = [chance.choice((END, END_OF_ONE)) for _ in range(chance.choice((0, 0, 1)))]
    return [field for part in [*nodes, ends, *[node(chance) for _ in ends]] for field in part] + chance.choice(([END], []))


def rest(chance):
    """Bytes behind a form, now and then."""
    return [chance.randbytes(chance.choice((1, 6, 8, 9)))] if chance.random() < 0.2 else []


def size_of(fields):
    return sum(map(len, fields))


def image(chance):
    nodes = path(chance)
    return [*(number(chance.choice(BOUNDARIES), 8) for _ in range(3)), number(size_of(nodes), 8), *nodes, *rest(chance)]


def option(chance):
    nodes, description = path(chance), wide(chance).replace(b"\0\0", b"a\0")
    data = chance.randbytes(chance.choice((0, 0, 5)))
    return [number(chance.getrandbits(32)), number(size_of(nodes), 2), description, b"\0\0", *nodes, data]


# EFI_CERT_X509_GUID, a5c059a1-94e4-4aa7-87b5-ab155c2bf072, by its bytes.
X509 = bytes.fromhex("a159c0a5e494a74a87b5ab155c2bf072")


def signature_list(chance):
    size, header = chance.choice((16, 17, 48)), chance.randbytes(chance.choice((0, 0, 0, 4)))
    owners = [guid(chance) for _ in range(2)]
    signatures = [chance.choice(owners) + chance.randbytes(size - 16) for _ in range(chance.choice((0, 1, 2, 5)))]
    whole = 28 + len(header) + size * len(signatures)
    kind = chance.choice((guid(chance), X509))
    return [kind, number(whole), number(len(header)), number(size), header, *signatures]


def value(chance, names):
    """The fields of a value that fits to the vendor and the name."""
    if names in FLAGS:
        return [chance.choice((b"\0", b"\1", chance.randbytes(1)))]
    if names in LISTS:
        return [field for _ in range(chance.choice((0, 1, 1, 2))) for field in signature_list(chance)]
    if names == (GLOBAL, "BootOrder"):
        return [chance.randbytes(2) for _ in range(chance.choice((0, 1, 3)))]
    if names[0] == GLOBAL and names[1].startswith("Boot"):
        return option(chance)
    if names == CERTIFICATE:
        return certificate(chance)
    if names == LEVEL:
        return [chance.choice((b"sbat,1,2021030218\n", b"sbat,1,2022052400\ngrub,2\n", word(chance).encode())), chance.choice((b"", b"\0"))]
    return [chance.randbytes(chance.choice((0, 1, 4, 20)))]


def certificate(chance):
    """A SEQUENCE in DER, mostly of as many bytes as it says, and with a length in two bytes."""
    size = chance.choice((255, 256, 257, 300, 1000))
    told = size if chance.random() < 0.8 else chance.choice((size - 1, size + 1, size % 256))
    return [chance.choice((b"\x30\x82", b"\x30\x82", b"\x30\x82", b"\x31\x82", b"\x30\x81")), told.to_bytes(2, "big"), chance.randbytes(size)]


def variable(chance):
    option_name = f"Boot{chance.randrange(1 << 16):04{chance.choice('XXXx')}}"
    known = [*FLAGS, *LISTS, CERTIFICATE, LEVEL, LEVEL, *[(GLOBAL, "BootOrder")] * 3, *[(GLOBAL, option_name)] * 5]
    names = chance.choice([*known, *known, (chance.choice((GLOBAL, IMAGE_SECURITY, SHIM)), chance.choice(known)[1]), (IMAGE_SECURITY, word(chance))])
    name, fields = names[1].encode("utf-16-le"), value(chance, names)
    if chance.random() < 0.05:
        name = wide(chance)
    return [UUID(names[0]).bytes_le, number(len(name) // 2, 8), number(size_of(fields), 8), name, *fields, *rest(chance)]


def authority(chance):
    """A variable with one signature, or with one certificate."""
    vendor, name = chance.choice(sorted(AUTHORITIES))
    name, hash_or_more = name.encode("utf-16-le"), chance.randbytes(chance.choice((0, 1, 30, 65, 80)))
    signature = [guid(chance), chance.choice((hash_or_more, b"\x30" + hash_or_more[1:]))]
    fields = chance.choice((signature, certificate(chance), [guid(chance), *certificate(chance)]))
    return [UUID(vendor).bytes_le, number(len(name) // 2, 8), number(size_of(fields), 8), name, *fields, *rest(chance)]


def partition(chance, size):
    name = wide(chance)[:72]
    numbers = [number(chance.choice(BOUNDARIES), 8) for _ in range(3)]
    return [guid(chance), guid(chance), *numbers, name.ljust(72, b"\0"), bytes(size - 128)]


def table(chance):
    size, count = chance.choice((128, 128, 128, 129, 256)), chance.choice((0, 1, 2, 4))
    head = [b"EFI PART", chance.randbytes(48), guid(chance), chance.randbytes(12), number(size), chance.randbytes(4), number(count, 8)]
    return [*head, *(field for _ in range(count) for field in partition(chance, size))]


def place(chance):
    return [number(chance.choice(BOUNDARIES), 8) for _ in range(2)]


def described(chance):
    description = chance.choice((word(chance).encode(), chance.randbytes(4)))
    return [number(len(description), 1), description, *place(chance)]


def technology(chance):
    return [GOOGLE_HOST, chance.randbytes(1), bytes(RESERVED)]


def tables(chance):
    rows = [(UUID(chance.choice(sorted(TABLES))).bytes_le if chance.random() < 0.7 else guid(chance)) for _ in range(chance.choice((0, 1, 1, 2, 5)))]
    return [number(len(rows), 8), *(field for row in rows for field in (row, number(chance.choice(BOUNDARIES), 8)))]


def described_tables(chance):
    description = chance.choice((word(chance).encode(), chance.randbytes(4)))
    return [number(len(description), 1), description, *tables(chance)]


def tagged(chance):
    data = chance.choice((b"".join(text(chance)), chance.randbytes(6), b"".join(wide_text(chance))))
    return [number(chance.getrandbits(32)), number(len(data)), data]


FORMS = (
    Form((4,), lambda chance: [number(chance.choice((0, 1, 0xFFFFFFFF, chance.getrandbits(32))))]),
    Form((1, 5, 7, 8, 12, 13, 0x12, 0x80000007, 0x80000010), text),
    Form((5, 7, 8, 12, 13, 0x12, 0x80000007, 0x80000010), wide_text),
    Form((8,), lambda chance: [guid(chance)]),
    Form((13,), command),
    Form((13,), command),
    Form(VARIABLES, variable),
    Form(VARIABLES, variable),
    Form((EV_EFI_VARIABLE_AUTHORITY,), authority),
    Form(IMAGES, image),
    Form((0x80000006, 0x8000000D), table),
    Form((0x80000008, 1), place),
    Form((0x8000000A, 0x13), described),
    Form((6,), tagged),
    Form((6, *CONFIGURATIONS), text),
    Form(CONFIGURATIONS, described),
    Form((0x11,), technology),
    Form((13,), lambda chance: [*text(chance), b"\0"]),
    Form((13,), lambda chance: [*wide_text(chance), b"\0"]),
    Form((0x80000009,), tables),
    Form((0x8000000B,), described_tables),
    Form((EV_NO_ACTION,), lambda chance: [b"StartupLocality\0", chance.randbytes(1)]),
)


def changed(chance, fields):
    """The bytes of fields that are changed: a field is replaced by a number at a boundary, left out, repeated or exchanged with another; or bytes are
    turned, cut, put in or put at the end."""
    fields, at = list(fields) or [b""], chance.randrange(len(fields) or 1)
    size, how = len(fields[at]), chance.randrange(6)
    if how == 0 and size in (1, 2, 4, 8):
        fields[at] = number(chance.choice(BOUNDARIES) % (1 << 8 * size), size)
    elif how == 1:
        del fields[at]
    elif how == 2:
        fields.insert(at, fields[at])
    elif how == 3:
        other = chance.randrange(len(fields))
        fields[at], fields[other] = fields[other], fields[at]
    data = bytearray(b"".join(fields))
    at = chance.randrange(len(data) + 1)
    if how == 4 and at < len(data):
        data[at] ^= chance.choice((1, 2, 0x80, 0xFF))
    elif how == 5:
        data[at : at + chance.choice((0, 0, 1, 2))] = chance.choice((b"", b"\0", b"\0\0", b"\xd8"))
    return bytes(data)


def parts(chance, data):
    """Bytes of which a digest may be the hash."""
    yield data
    found = (variable_in(data), command_in(data))
    yield from (part for part in (found[0] and found[0].value, found[1] and found[1].hashed) if part is not None)
    yield chance.choice((data[:-1], data[1:], b"", data + b"\0"))


def digest(chance, identifier, size, hashed):
    """The digest of some bytes, or now and then of others; or zeros, also of an algorithm that is not known."""
    if identifier not in BY_IDENTIFIER or hashed is None:
        return bytes(size)
    return BY_IDENTIFIER[identifier].hash(hashed if chance.random() < 0.9 else b"other")


def random_event(chance, declared, is_whole=False):
    """An event of a log that declares these sizes of digests, by identifier; its data, if it is whole, has a form that its type has."""
    form = chance.choice(FORMS)
    fields, kind = form.make(chance), chance.choice(form.types)
    data = b"".join(fields) if is_whole or chance.random() < 0.5 else changed(chance, fields)
    if not is_whole and chance.random() < 0.1:
        kind = chance.choice([*TYPE_NAMES, 0xFF])
    hashed = chance.choice([*parts(chance, data), *parts(chance, data), None])
    digests = {identifier: digest(chance, identifier, size, hashed) for identifier, size in declared.items()}
    if kind == EV_NO_ACTION and chance.random() < 0.3:
        digests = {}
    fitting = 1 if variable_in(data) else 8 if command_in(data) else 0
    register = chance.choice((fitting, fitting, 1, 8, 7, chance.randrange(REGISTERS)))
    return Event(register, kind, digests, data)


def command_line(chance):
    return "".join(chance.choice(WORDS) + chance.choice(BETWEEN) for _ in range(chance.choice((0, 1, 2, 4)))).strip(chance.choice((" ", "")))


def loader_text(chance):
    """A text that a boot loader measures: the register, the data, and the bytes that are hashed."""
    text = command_line(chance) if chance.random() < 0.9 else word(chance)
    if chance.random() < 0.3:
        data = b"".join(wide_text(chance)) if chance.random() < 0.2 else text.encode("utf-16-le") + b"\0\0"
        return chance.choice((12, 12, 8)), data, data
    prefix = chance.choice([*COMMANDS])
    return 8, prefix + text.encode() + b"\0", text.encode() + (b"\0" if prefix == WITH_NUL else b"")


def setting(chance):
    """A variable in register 1, of which mostly the value is hashed, also where bytes follow it."""
    data = b"".join(variable(chance))
    found = read_front(read_variable, data)
    return 1, data, found[0].value if found and chance.random() < 0.8 else data


def policy(chance):
    """A variable in register 7, which may be SecureBoot."""
    name, flag = "SecureBoot".encode("utf-16-le"), chance.choice((b"\0", b"\1", b"\1", b"\2", b""))
    secure_boot = b"".join([UUID(GLOBAL).bytes_le, number(len(name) // 2, 8), number(len(flag), 8), name, flag, *rest(chance)])
    data = chance.choice((secure_boot, secure_boot, b"".join(variable(chance))))
    return 7, data, data


def version(chance):
    data = chance.choice((b"".join(text(chance)), b"".join(wide_text(chance)), guid(chance)))
    return 0, data, data


def program(chance):
    """An image, whose data is not measured, or an action."""
    if chance.random() < 0.5:
        return 4, b"".join(image(chance)), b"image %d" % chance.randrange(4)
    data = b"".join(text(chance))
    return 4, data, data


def separator(chance):
    data = number(chance.choice((0, 0, 0, 1, 0xFFFFFFFF, 2)))
    return chance.choice((0, 1, 4, 7, 8, 12)), data, data


# The makers of a boot's events, of which one comes twice, and the type that each has as a boot has it.
MAKERS = ((loader_text, 13), (loader_text, 13), (setting, 0x80000002), (policy, 0x80000001), (version, 8), (program, 0x80000003), (separator, 4))


def boot_event(chance, declared):
    """An event as a boot has it, of which now and then another is shown, or another was hashed, in all banks or in one; or one of another type."""
    make, fitting = chance.choice(MAKERS)
    register, data, hashed = make(chance)
    if chance.random() < 0.05:
        data = changed(chance, [data])
    if chance.random() < 0.05:
        hashed = b"other"
    digests = {identifier: digest(chance, identifier, size, hashed) if chance.random() < 0.1 else BY_IDENTIFIER[identifier].hash(hashed)
               for identifier, size in declared.items()}
    kind = fitting if chance.random() < 0.5 else chance.choice((1, 4, 5, 8, 13, 0x80000001, 0x80000002, 0x80000003))
    return Event(register, kind, digests, data)


def random_boots(chance, events):
    """A log of at most so many events as a boot has them, and an earlier one, which has most of them."""
    algorithms = chance.sample(ALGORITHMS[1:], chance.choice((1, 1, 2))) + chance.sample(ALGORITHMS[:1], chance.choice((0, 1)))
    declared = {it.identifier: it.size for it in algorithms}
    log = Log(declared, [boot_event(chance, declared) for _ in range(chance.randrange(events + 1))], random_specification(chance))
    earlier = [event for event in log.events if chance.random() < 0.95]
    if chance.random() < 0.5:
        earlier.insert(chance.randrange(len(earlier) + 1), boot_event(chance, declared))
    return log, log._replace(events=earlier)


def random_specification(chance):
    """What a header says beside its algorithms: mostly what firmware says, else anything."""
    if chance.random() < 0.5:
        return Specification(vendor=chance.randbytes(chance.choice((0, 0, 8))))
    numbers = (chance.choice((0, 1, 2**32 - 1)), *(chance.randrange(256) for _ in range(4)))
    return Specification(*numbers, chance.randbytes(chance.choice((0, 1, 255))))


def random_log(chance, events, is_whole=False):
    """A log of so many events, with one bank or several."""
    algorithms = chance.sample(ALGORITHMS, chance.choice((1, 2, 4)))
    declared = {it.identifier: it.size for it in algorithms} | (dict([NAMELESS]) if chance.random() < 0.2 else {})
    return Log(declared, [random_event(chance, declared, is_whole) for _ in range(events)], random_specification(chance))


def random_expected(chance, log, share=0.7):
    """The text of expected registers: such a share of the log's, of which as many match, and now and then of a bank that it has not."""
    lines = []
    for algorithm, register, found in log.registers().rows():
        if chance.random() < share:
            shown = found if chance.random() < share else bytes(algorithm.size)
            lines.append(f"{algorithm.name} {register} {shown.hex()}\n")
    others = [it for it in ALGORITHMS if it not in log.algorithms]
    lines += [f"{it.name} 1 {bytes(it.size).hex()}\n" for it in others[:1] if chance.random() < 0.3]
    return "".join(lines)


def random_quote(chance, log):
    """A list that begins after the log, the message of a quote of both, now and then of other values, and the registers that have to be quoted: those
    of one bank up to 10, and of what else is quoted perhaps some."""
    bank, *_ = banks = chance.sample(log.algorithms, len(log.algorithms))
    listed = [entry_of(IMA_NG, bank, log.registers().boot_aggregate(bank), BOOT_AGGREGATE)]
    after = before_a_list(log.registers()).following(listed).after
    others = [it for it in banks[1:] if chance.random() < 0.5]
    selected = [(bank, (*range(11), *further_registers(chance))), *((it, further_registers(chance)) for it in others)]
    values = [after.value(it, register) for it, registers in selected for register in registers]
    values += [b"other"] if chance.random() < 0.1 else []
    further = [f"{it.name}:{','.join(map(str, registers))}" for it, registers in selected if registers and chance.random() < 0.5]
    return list_spelling(listed), message_of(SHA256.hash(b"".join(values)), selected=selected), "+".join([f"{bank.name}:0-10", *further])


def further_registers(chance):
    return [register for register in range(11, REGISTERS) if chance.random() < 0.5]
