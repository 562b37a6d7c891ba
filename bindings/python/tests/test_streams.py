"""Entries and events, which come by pieces, and texts that are longer than their buffer."""

import array
import ctypes
import dataclasses
import tracemalloc
import types
import unittest
from unittest.mock import patch

from samples import (
    ASCII, CHANGED, EXPECTED, LIST, LOG, REGISTERS, REQUIRED, VIOLATIONS, line_of,
)

import ima_verify
from ima_verify import Kind, _library

DONE, DIFFERS, TOO_SHORT, MORE = 0, 1, 4, 5
MANY, HEADER_SIZE, PIECE = 150, 65, _library.PIECE_CAPACITY
ENTRY, COUNT = line_of("entry"), b'{"entries":2}\n'
REFUSAL = ima_verify.Refused("It is damaged.", Kind.LIST, 1, 2)


def with_length(data):
    return len(data).to_bytes(4, "little") + data


def giving(*answers):
    """A library that gives these answers, one at each call."""
    return patch.object(_library, "call", side_effect=answers)


class Pieces(unittest.TestCase):
    """What a library may answer, one piece after another."""

    def test_piece_is_asked_for_when_it_is_needed(self):
        with giving((MORE, ENTRY), (DONE, ENTRY + COUNT)) as call:
            listing = ima_verify.entries(b"x")
            for count in (0, 1, 2):
                self.assertEqual(call.call_count, count)
                next(listing, None)
            self.assertEqual((list(listing), list(listing), call.call_count), ([], [], 2))

    def test_what_comes_before_an_error_is_given_first(self):
        for pieces in ([], [ENTRY], [ENTRY + ENTRY], [ENTRY, ENTRY]):
            with giving(*((MORE, piece) for piece in pieces), REFUSAL):
                listing = ima_verify.entries(b"x")
                for _ in range(b"".join(pieces).count(b"\n")):
                    next(listing)
                self.assertRaises(ima_verify.Refused, next, listing)
                self.assertEqual(list(listing), [])

    def test_what_is_cut_is_an_error(self):
        """The last line says how many entries there are."""
        both = ENTRY + ENTRY
        for answers in (
            [(DONE, both)], [(DONE, both + COUNT + COUNT)], [(DONE, both + b'{"entries":3}\n')],
            [(DONE, both + b"{}\n")], [(DONE, both + COUNT[:-1])], [(MORE, b"")], [(DONE, b"")],
            [(MORE, both), (DONE, b'{"entries":1}\n')], [(DIFFERS, both + COUNT)],
        ):
            with giving(*answers):
                with self.assertRaises(ima_verify.LibraryError, msg=answers):
                    list(ima_verify.entries(b"x"))
        for called in (ima_verify.show, ima_verify.events):
            with giving((DONE, ENTRY[:-1])):
                self.assertRaises(ima_verify.LibraryError, called, b"x")

    def test_text_longer_than_the_buffer_takes_another_call(self):
        def answer(*words):
            *_, out, capacity, info = words
            capacities.append(capacity)
            info._obj.size = size
            if capacity < size <= len(REGISTERS):
                return TOO_SHORT
            ctypes.memmove(out, REGISTERS, min(size, capacity))
            return DONE

        library = types.SimpleNamespace(ima_verify_raw_registers=answer)
        with patch.object(_library, "loaded", lambda: library):
            capacities, size = [], len(REGISTERS)
            self.assertEqual(_library.call("registers", 1), (DONE, REGISTERS))
            self.assertEqual(capacities, [1, size])
            size = 2**64 - 1
            self.assertRaises(ima_verify.LibraryError, _library.call, "registers")


class Inputs(unittest.TestCase):
    """Real lists and logs."""

    def test_entries_are_the_kernels_text(self):
        lines, found = b"", list(ima_verify.entries(LIST))
        for entry in found:
            words = (f"{entry.register:2d}", entry.template_digest.hex(), entry.template,
                     f"{entry.algorithm}:{entry.digest.hex()}")
            lines += " ".join(words).encode() + b" " + entry.path_bytes + b"\n"
        self.assertEqual(lines, ASCII)
        self.assertEqual([entry.entry for entry in found if entry.violation], [*VIOLATIONS])
        changed = [entry.entry for entry in ima_verify.entries(CHANGED) if not entry.genuine]
        self.assertEqual(changed, [5])

    def test_paths_are_their_bytes(self):
        names = b"/a\nb", b'/"\\\x1b[2J', b"/\xc3\xa9", b"/\xff", b"", b"/}{", PIECE * b"\1"
        head = b"\x0a\0\0\0" + 20 * b"x" + with_length(b"ima-ng")  # (of PCR 10)
        digest = with_length(b"sha1:\0" + bytes(20))
        data = (head + with_length(digest + with_length(name + b"\0")) for name in names)
        found = list(ima_verify.entries(b"".join(data)))
        self.assertEqual(tuple(each.path_bytes for each in found), names)
        self.assertEqual([each.entry for each in found if each.path is None], [3])

    def test_items_of_all_pieces_are_those_of_the_input(self):
        """No more than a piece is kept."""
        for read, name, first, data, more in (
            (ima_verify.entries, "entry", 0, LIST, LIST),
            (ima_verify.events, "event", 1, LOG, LOG[HEADER_SIZE:]),
        ):
            once, many = list(read(data)), data + MANY * more + b"x"
            tracemalloc.start()
            with self.assertRaises(ima_verify.Refused) as caught:
                for count, found in enumerate(read(many)):
                    place = {name: count + first, "json": found.json}
                    self.assertEqual(found, dataclasses.replace(once[count % len(once)], **place))
            self.assertEqual(caught.exception.place, len(once) * (1 + MANY) + first)
            self.assertLess(tracemalloc.get_traced_memory()[1], 6 * PIECE)
            tracemalloc.stop()

    def test_memory_of_an_input_stays_while_it_is_gone_through(self):
        listed = bytearray(10 * LIST)
        found = ima_verify.entries(listed)
        next(found)
        self.assertRaises(BufferError, listed.extend, b"x")
        self.assertEqual(len(list(found)), 989)
        for called in (ima_verify.list_registers, ima_verify.show):  # (at the end nothing is kept)
            listed.extend(b"x")
            self.assertRaises(ima_verify.Refused, called, listed)
        listed.extend(b"x")

    def test_all_types_of_bytes_give_the_same(self):
        wanted, padded = ima_verify.verify(LOG, LIST, EXPECTED, **REQUIRED), b"x" + LIST + b"x"
        for form in (bytearray(LIST), memoryview(padded)[1:-1], memoryview(bytearray(padded))[1:-1],
                     memoryview(LIST[::-1])[::-1], memoryview(LIST).cast("B", (1, len(LIST)))):
            self.assertEqual(ima_verify.verify(LOG, form, EXPECTED, **REQUIRED), wanted)
        # (32 zero bytes are an entry of PCR 0 with an empty name and payload)
        self.assertEqual(ima_verify.show(array.array("I", 8 * [0])), b" 0 " + 40 * b"0" + b"  \n")
