"""The package reads a newer library, whose objects have one more member, or whose verdicts have one
more reason to differ. tests/bindings/test runs this; IMA_VERIFY_SHIM is `member` or `differ`."""

import os
import unittest

from samples import AREA, BY_KEY, EXPECTED, LIST, LOG, QUOTE, QUOTED, REQUIRED

import ima_verify

SHIM = os.environ.get("IMA_VERIFY_SHIM")


@unittest.skipUnless(SHIM, "no newer library")
class Newer(unittest.TestCase):
    def test_verdicts_are_the_librarys(self):
        tenth, matches = EXPECTED.splitlines()[10], SHIM != "differ"
        sessions = ima_verify.Session(LOG, EXPECTED, **REQUIRED), ima_verify.Session.by_quotes(LOG)
        for found in (
            ima_verify.verify(LOG, LIST, EXPECTED, **REQUIRED), sessions[0].more(LIST),
            ima_verify.replay(LIST, tenth, require="sha256:10"),
            ima_verify.attest(*BY_KEY, LOG, LIST, **QUOTED),
            sessions[1].attest(*BY_KEY, LIST, **QUOTED),
        ):
            self.assertIn('"novel":', found.json)
            self.assertLessEqual({row.state for row in found.registers}, {"match"})
            self.assertEqual((found.matches, found.verdict == "match"), (matches, matches))
        self.assertEqual([each.state is not None for each in sessions], 2 * [matches])

    def test_other_answers_are_read(self):
        events = ima_verify.events(LOG, quote=QUOTE)
        for found in (
            ima_verify.locate(LOG, LIST, EXPECTED, **REQUIRED), ima_verify.read_key(AREA),
            ima_verify.boot(LOG, expected=EXPECTED, before=LOG), ima_verify.boot(LOG, quote=QUOTE),
            events.header, *events, *ima_verify.entries(LIST),
        ):
            self.assertIn('"novel":', found.json)
        self.assertEqual(len(ima_verify.list_registers(LIST)), 4)
        with self.assertRaises(ima_verify.Refused) as caught:
            ima_verify.verify(LOG, LIST[:-1], EXPECTED, **REQUIRED)
        self.assertEqual((caught.exception.kind, caught.exception.place), ("list", 98))
