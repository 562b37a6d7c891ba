"""Sessions on the sample's list as it grows."""

import copy
import pickle
import unittest
from unittest.mock import patch

from samples import (
    BY_KEY, ENDS, EXPECTED, LIST, LOG, LONGER, MESSAGE, NONCE, QUOTED, REQUIRED, SUMS,
    line_of, state_after, tenth_after,
)

import ima_verify
from ima_verify import Kind, Session, _library

CUTS = 1, 2, 50, 97, 98
DONE, DIFFERS = range(2)


class Growing(unittest.TestCase):
    """Sessions by expected PCRs and by quotes."""

    def check_refused(self, session, called, *wanted):
        """The call is refused, and the session stays as it was."""
        before = session.state, session.offset
        with self.assertRaises(ima_verify.Refused) as caught:
            called()
        found = caught.exception
        self.assertEqual((found.kind, found.number, found.place), wanted)
        self.assertEqual((session.state, session.offset), before)

    def test_list_in_two_parts_is_as_the_whole(self):
        whole = ima_verify.verify(LOG, LIST, EXPECTED, **REQUIRED)
        for cut in CUTS:
            session = Session(LOG, tenth_after(cut), **REQUIRED)
            self.assertEqual((session.state, session.offset), (None, 0))
            self.assertTrue(session.more(LIST[:ENDS[cut]]))
            self.assertEqual((session.state, session.offset), (state_after(cut), ENDS[cut]))
            later = Session(LOG, EXPECTED, **REQUIRED, state=memoryview(session.state))
            self.assertEqual(later.more(LIST[later.offset:]), whole)
            self.assertEqual((later.state, later.offset), (state_after(99), len(LIST)))

    def test_only_a_match_moves_the_session(self):
        for prefix in (False, True):
            session = Session(LOG, EXPECTED, **REQUIRED, prefix=prefix, state=state_after(50))
            rest = LIST[session.offset:]
            self.assertFalse(session.more(rest[:-95]))
            self.assertEqual((session.state, session.offset), (state_after(50), ENDS[50]))
            self.check_refused(session, lambda: session.more(rest[:-1]), Kind.LIST, 1, 98)
            self.assertTrue(session.more(rest))
            self.assertEqual((session.state, session.offset), (state_after(99), len(LIST)))

    def test_prefix_is_the_shortest_that_the_pcrs_confirm(self):
        for cut in CUTS:
            session = Session(LOG, tenth_after(cut), **REQUIRED, prefix=True)
            found = session.more(LONGER + b"x")
            self.assertEqual((found.matches, found.confirmed, found.entries), (True, cut, 100))
            self.assertEqual((found.unconfirmed.kind, found.unconfirmed.entry), ("list", 100))
            for again in (copy.copy(session), pickle.loads(pickle.dumps(session))):
                self.assertEqual((again.state, again.offset), (state_after(cut), ENDS[cut]))
                self.assertEqual(again.more(LIST[ENDS[cut]:]).confirmed, cut)

    def test_states_that_do_not_fit_are_refused(self):
        state = state_after(50)
        for wrong, number in ((b"", 1), (state[:-1], 1), (state + b"\n", 1), (state[:22], 2)):
            session = Session(LOG, EXPECTED, **REQUIRED, state=wrong)
            self.check_refused(session, lambda: session.more(LIST), Kind.CHECKPOINT, number, None)
        for line, offset in ((b"bytes 49", 49), (b"bytes 9" + 20 * b"9", 0), (b"bytes -1", 0)):
            other = state.replace(b"bytes %d" % ENDS[50], line, 1)
            self.assertEqual(Session(LOG, EXPECTED, **REQUIRED, state=other).offset, offset)

    def test_quotes_move_a_session(self):
        session = Session.by_quotes(LOG, prefix=True)
        found = session.attest(*BY_KEY, LONGER, **QUOTED)
        self.assertEqual((found.matches, found.confirmed, found.entries), (True, 99, 100))
        later = Session.by_quotes(LOG, state=session.state)
        whole = ima_verify.attest(*BY_KEY, LOG, LIST, **QUOTED)
        self.assertEqual(later.attest(*BY_KEY, LIST[later.offset:], **QUOTED), whole)
        given = {**QUOTED, "signature_checked": False}
        self.assertFalse(later.attest(None, MESSAGE, None, b"", **given))
        self.assertEqual((later.state, later.offset), (session.state, len(LIST)))
        message = bytearray(MESSAGE)
        message[MESSAGE.index(NONCE) + len(NONCE) + 11] ^= 1  # (another count of resets)
        given["signature_checked"] = True
        self.check_refused(later, lambda: later.attest(None, message, None, b"", **given),
                           Kind.CHECKPOINT, 4, None)

    def test_inputs_are_copied(self):
        log, expected, known = bytearray(LOG), bytearray(EXPECTED), bytearray(SUMS)
        session = Session(log, expected, **REQUIRED, state=state_after(98), known=[known])
        log[:], expected[:], known[:] = b"", b"x", b"x"
        self.assertTrue(session.more(LIST[ENDS[98]:]))


class Answers(unittest.TestCase):
    """What a library may answer to a session."""

    REPORT, DIFFERING = line_of("verify", verdict="match"), line_of("verify", verdict="differ")

    def test_only_a_match_has_a_state(self):
        def answer(name, given, size):
            given["next"][2]._obj.value = size_of_state
            info = _library.ErrorInfo()
            info.size = len(text)
            return status, info, bytearray(text)

        for status, text, size_of_state, wanted in (
            (DONE, self.REPORT, 1, b"\0"), (DIFFERS, self.DIFFERING, 0, b"earlier"),
            (DONE, self.REPORT, 0, None), (DONE, self.REPORT, 20_001, None),
            (DONE, self.DIFFERING, 1, None), (DONE, self.REPORT[:-1], 1, None),
        ):
            session = Session(b"", b"", **REQUIRED, state=b"earlier")
            with patch.object(_library, "_answered", answer):
                if wanted is None:
                    self.assertRaises(ima_verify.LibraryError, session.more, b"")
                else:
                    session.more(b"")
            self.assertEqual(session.state, wanted or b"earlier")
