"""What the package answers, as the reference implementation answers the program's commands, and
what crosses to the library."""

import dataclasses
import inspect
import re
import shutil
import tempfile
import unittest
from concurrent.futures import ThreadPoolExecutor

from samples import (
    AREA, ASCII, BY_KEY, CHANGED, EXPECTED, HCRTM, KEY, LIST, LOG, LONGER, MESSAGE, NONCE, OLDER,
    OLDER_EXPECTED, OLDER_MESSAGE, PRINTED, QUOTED, REQUIRED, ROOT, SIGNATURE, SUMS, TOLD, VIOLATIONS,
    sample, state_after,
)

import ima_verify
from ima_verify import NOTHING, Kind, Quote, Session, _library
from reference import answer

NOW, BEFORE, PCRS, ENDORSEMENT = (
    sample(name) for name in ("ovmf-boot/systemd-boot.log", "ovmf-boot/secure-boot.log",
                              "ovmf-boot/systemd-boot.expected", "keys/ek-p256.pub")
)
FILES = {
    "log": LOG, "list": LIST, "longer": LONGER, "expected": EXPECTED, "known": SUMS,
    "message": MESSAGE, "area": AREA, "endorsement": ENDORSEMENT, "now": NOW, "before": BEFORE,
    "pcrs": PCRS, "state": state_after(98),
}
HEX = {"nonce_hex": NONCE.hex().upper() + "\n", **REQUIRED}
BY_CALLER = {"quote": MESSAGE, **HEX, "key": None, "signature": None, "signature_checked": True}
QUOTE, DIFFERING = (Quote(measurements=listed, **BY_CALLER) for listed in (LIST, LONGER))
STATED = f"--nonce {NONCE.hex()} --require sha256:0-10 --signature-checked"
BESIDE = f"--quote message {STATED} --list"
# The arguments of a command, and the call that gives what it prints.
CALLS = (
    ("verify --require sha256:0-10 log list expected",
     lambda: ima_verify.verify(LOG, LIST, EXPECTED.decode(), **REQUIRED)),
    ("verify --require sha256:0-10,sha1:10 --known known log longer expected",
     lambda: ima_verify.verify(LOG, bytearray(LONGER), EXPECTED, require="sha256:0-10,sha1:10",
                               known=[memoryview(SUMS)])),
    ("verify --require sha256:0-10 --prefix log longer expected",
     lambda: Session(LOG, EXPECTED, **REQUIRED, prefix=True).more(LONGER)),
    ("verify --require sha256:0-10 --resume state --known known log list expected",
     lambda: Session(LOG, EXPECTED, **REQUIRED, state=state_after(98), known=[SUMS]).more(LIST)),
    ("replay --require sha256:10 list expected",
     lambda: ima_verify.replay(LIST, EXPECTED, require="sha256:10")),
    ("locate --require sha256:0-23 log longer expected",
     lambda: ima_verify.locate(LOG, LONGER, EXPECTED, require="sha256:0-23")),
    (f"attest {STATED} log list message",
     lambda: ima_verify.attest(log=LOG, measurements=LIST, **BY_CALLER)),
    (f"attest {STATED} --prefix --known known log longer message",
     lambda: Session.by_quotes(LOG, prefix=True, known=[SUMS]).attest(data=LONGER, **BY_CALLER)),
    ("key area", lambda: ima_verify.read_key(AREA)),
    ("key --endorsement endorsement", lambda: ima_verify.read_endorsement_key(ENDORSEMENT)),
    ("boot now", lambda: ima_verify.boot(NOW)),
    ("boot --expected pcrs --before before now",
     lambda: ima_verify.boot(NOW, expected=PCRS, before=BEFORE)),
    (f"boot {BESIDE} list log", lambda: ima_verify.boot(LOG, quote=QUOTE)),
    (f"boot {BESIDE} longer log", lambda: ima_verify.boot(LOG, quote=DIFFERING)),
    ("events log", lambda: ima_verify.events(LOG)),
    ("events --expected expected log", lambda: ima_verify.events(LOG, expected=EXPECTED)),
    (f"events {BESIDE} list log", lambda: ima_verify.events(LOG, quote=QUOTE)),
    (f"events {BESIDE} longer log", lambda: ima_verify.events(LOG, quote=DIFFERING)),
    ("show list", lambda: ima_verify.entries(LIST)),
)


def lines_of(found):
    """The lines of an answer, or of all items of a listing."""
    if hasattr(found, "json"):
        return found.json.splitlines()
    head = [found.header.json] if isinstance(found, ima_verify.Events) else []
    items = [item.json for item in found]
    return [*head, *items, *([] if head else [f'{{"entries":{len(items)}}}'])]


class Reference(unittest.TestCase):
    """A second implementation, which tests/cases holds against the program."""

    def setUp(self):
        self.folder = tempfile.mkdtemp()
        self.addCleanup(shutil.rmtree, self.folder)
        for name, data in FILES.items():
            with open(f"{self.folder}/{name}", "wb") as file:
                file.write(data)

    def answer(self, words):
        """The status of a command, and its lines of JSON."""
        command, *rest = words.split()
        status, text, *_ = answer([command, "--json", *rest], self.folder)
        return status, text.decode().splitlines()

    def test_answers_are_those_of_the_program(self):
        for words, called in CALLS:
            status, lines = self.answer(words)
            found = called()
            self.assertEqual(lines_of(found), lines, words)
            matches = not getattr(found, "quote_differs", status != 0)
            self.assertEqual(getattr(found, "matches", matches), status == 0, words)

    def test_pcrs_are_those_of_the_program(self):
        for words, found in (("registers log", ima_verify.registers(LOG)),
                             ("replay list", ima_verify.list_registers(LIST))):
            pcrs = ",".join(f'{{"bank":"{pcr.bank}","register":{pcr.register},'
                            f'"value":"{pcr.value.hex()}"}}' for pcr in found)
            self.assertEqual([f'{{"registers":[{pcrs}]}}'], self.answer(words)[1])
        self.assertEqual((ima_verify.show(LIST), ima_verify.expected(PRINTED)), (ASCII, EXPECTED))
        self.assertEqual(ima_verify.expected(PRINTED, "10"), EXPECTED.splitlines(True)[10])

    def test_known_files_are_read_as_one_text(self):
        first, _, rest = SUMS.partition(b"\n")
        wanted, found = (ima_verify.replay(LIST, EXPECTED, require="sha256:10", known=known)
                         for known in ([SUMS], iter([first.decode(), b"", bytearray(rest)])))
        self.assertEqual((found, found.unknown), (wanted, VIOLATIONS))

    def test_calls_at_once_give_what_they_give_alone(self):
        def ask(_):
            return [called() for _, called in CALLS[:4]]

        with ThreadPoolExecutor(8) as pool:
            self.assertEqual(list(pool.map(ask, range(16))), 16 * [ask(0)])


class Verdicts(unittest.TestCase):
    """Verdicts that a caller of the program does not get so."""

    def test_nothing_compared_is_no_match(self):
        for called in (lambda: ima_verify.verify(LOG, LIST, "", require=NOTHING),
                       lambda: ima_verify.replay(LIST, "", require=NOTHING),
                       lambda: Session(LOG, "", require=NOTHING).more(LIST)):
            found = called()
            self.assertEqual((found.matches, found.compared, found.verdict), (False, 0, "differ"))
        self.assertTrue(ima_verify.verify(LOG, LIST, EXPECTED, require=NOTHING))

    def test_quotes_are_signed_by_a_key(self):
        for key, nonce in ((KEY, bytearray(NONCE)), (KEY.decode(), memoryview(NONCE).cast("I"))):
            given = {**REQUIRED, "nonce": nonce}
            found = ima_verify.attest(key, MESSAGE, SIGNATURE, LOG, LIST, **given)
            self.assertEqual((found.matches, found.signature), (True, "valid"))
        given = {**BY_CALLER, "signature_checked": False}
        found = ima_verify.attest(log=LOG, measurements=LIST, **given)
        self.assertEqual((found.matches, found.signature), (False, "not checked"))


    def test_event_of_an_hcrtm_tells_where_pcr_0_began(self):
        for called in (
            lambda log, **more: ima_verify.verify(log, LIST, EXPECTED, **REQUIRED, **more),
            lambda log, **more: ima_verify.locate(log, LIST, EXPECTED, **REQUIRED, **more),
            lambda log, **more: ima_verify.attest(*BY_KEY, log, LIST, **QUOTED, **more),
            lambda log, **more: ima_verify.boot(log, expected=EXPECTED, **more),
            lambda log, **more: Session(log, EXPECTED, **REQUIRED, **more).more(LIST),
            ima_verify.registers,
        ):
            self.assertEqual(called(HCRTM, hcrtm=True), called(TOLD))
            self.assertEqual(called(LOG, hcrtm=True), called(LOG))
        zero = ima_verify.registers(TOLD)[0].value
        for hcrtm, word in ((True, "data"), (False, "none")):
            given = {"expected": f"sha256 0 {zero.hex()}\n", "hcrtm": hcrtm}
            self.assertEqual(next(ima_verify.events(HCRTM, **given)).confirmed, word)

    def test_boot_aggregate_of_an_older_kernel_is_taken_if_asked_for(self):
        checked = {**QUOTED, "signature_checked": True}
        quote = ima_verify.Quote(None, OLDER_MESSAGE, None, OLDER, **checked)
        for called in (
            lambda **more: ima_verify.verify(LOG, OLDER, OLDER_EXPECTED, **REQUIRED, **more),
            lambda **more: Session(LOG, OLDER_EXPECTED, **REQUIRED, **more).more(OLDER),
            lambda **more: ima_verify.attest(
                None, OLDER_MESSAGE, None, LOG, OLDER, **checked, **more),
            lambda **more: Session.by_quotes(LOG, **more).attest(
                None, OLDER_MESSAGE, None, OLDER, **checked),
        ):
            for old_kernel, wanted in ((False, "wrong"), (True, "old_kernel")):
                found = called(old_kernel=old_kernel)
                self.assertEqual((found.matches, found.boot_aggregate), (old_kernel, wanted))
        for old_kernel in (False, True):
            given = {"quote": quote, "old_kernel": old_kernel}
            self.assertEqual(ima_verify.boot(LOG, **given).quote_differs, not old_kernel)
            self.assertEqual(ima_verify.events(LOG, **given).quote_differs, not old_kernel)
        found = ima_verify.verify(LOG, OLDER, OLDER_EXPECTED, require=NOTHING, old_kernel=True)
        self.assertEqual((found.matches, found.boot_aggregate), (False, "wrong"))
        for called in (ima_verify.boot, ima_verify.events):
            self.assertRaises(TypeError, called, LOG, expected=EXPECTED, old_kernel=True)


class Conversions(unittest.TestCase):
    def test_inputs_are_converted(self):
        self.assertEqual(ima_verify.convert_list(ASCII), LIST)
        first = ima_verify.convert_list(ASCII[: ASCII.index(b"\n") + 1].decode())
        self.assertEqual((first, len(first) > 0), (LIST[: len(first)], True))
        for padding in (0, 5, 70_000):
            found = ima_verify.convert_log(LOG + padding * b"\xff")
            self.assertEqual((found.log, found.padding), (LOG, padding))

    def test_certificates_are_read(self):
        found = [event for event in ima_verify.events(BEFORE) if event.certificates]
        self.assertGreater(len(found), 3)
        try:
            from cryptography.hazmat.primitives.hashes import SHA256
            from ima_verify import x509
        except ImportError:
            self.skipTest("cryptography is not installed")
        for event in found:
            prints = [each.fingerprint(SHA256()) for each in x509.certificates(event)]
            self.assertEqual(prints, [each.sha256 for each in event.certificates])
        value = found[0].content["variable"]["value"].replace("3082", "3083")
        variable = {**found[0].content["variable"], "value": value}
        with self.assertRaisesRegex(ima_verify.Error, "^A certificate cannot be read"):
            x509.certificates(dataclasses.replace(found[0], content={"variable": variable}))


class Refusals(unittest.TestCase):
    """Errors of the library."""

    def test_inputs_are_refused(self):
        verify, attest, two = ima_verify.verify, ima_verify.attest, (LOG, LIST)
        for called, given, more, *wanted in (
            (verify, (LOG, CHANGED, EXPECTED), REQUIRED, Kind.REPLAY, 1, 5),
            (verify, (LOG, LIST[:-1], EXPECTED), REQUIRED, Kind.LIST, 1, 98),
            (verify, (*two, EXPECTED + b"x"), REQUIRED, Kind.EXPECTED, 1, 25),
            (verify, (*two, EXPECTED), {**REQUIRED, "known": [SUMS, "x"]}, Kind.KNOWN, 2, 94),
            (ima_verify.read_key, (ENDORSEMENT,), {}, Kind.KEY, 17, None),
            (attest, (KEY, MESSAGE, SIGNATURE[::-1], *two), QUOTED, Kind.SIGNATURE, 7, None),
            (attest, ("", MESSAGE, b"", *two), QUOTED, Kind.KEY, 1, None),
            (attest, (*BY_KEY, *two), {**REQUIRED, "nonce": bytes(16)}, Kind.QUOTE, 11, None),
            (ima_verify.boot, (LOG[:-1],), {"expected": EXPECTED}, Kind.LOG, 1, 24),
            (ima_verify.events, (b"",), {"quote": QUOTE}, Kind.LOG, 1, 0),
            (ima_verify.convert_list, (ASCII.replace(b"/bin/helper", b"/bin/helpex"),), {},
             Kind.TEXT_LIST, 3, 6),
            (ima_verify.convert_log, (LIST,), {}, Kind.LOG_FORM, 13, None),
        ):
            with self.assertRaises(ima_verify.Refused) as caught:
                called(*given, **more)
            found = caught.exception
            self.assertEqual([found.kind, found.number, found.place], wanted)
            self.assertRegex(str(found), r"^[A-Z].*\.$")

    def test_arguments_without_a_meaning_are_a_misuse(self):
        verify = ima_verify.verify, LOG, LIST, EXPECTED
        attest = ima_verify.attest, *BY_KEY, LOG, LIST
        for called, *given, more in (
            *((*verify, {"require": require}) for require in ("", "none", "sha256:0-9", "\ud800")),
            *((*attest, {**QUOTED, "require": require}) for require in ("none", "sha256:1-10")),
            *((*attest, {**REQUIRED, **nonce}) for nonce in (
                {"nonce": NONCE[:15]}, {"nonce_hex": ""}, {"nonce_hex": "x" + NONCE.hex()})),
            (*verify, {"require": NOTHING, "known": []}), (Session.by_quotes(LOG).more, LIST, {}),
            (ima_verify.expected, PRINTED, "sha256:24", {}),
        ):
            with self.assertRaisesRegex(ima_verify.Misuse, r"^\S.*\.?$"):
                called(*given, **more)


class Header(unittest.TestCase):
    def test_interface_is_that_of_the_header(self):
        header = (ROOT / "bindings/c/ima_verify.h").read_text()
        form = r"^(?:#define|   ) IMA_VERIFY_(\w+)(?: =)? ([^,\n]+)"
        numbers = dict(re.findall(form, header, re.M))
        self.assertEqual(f'"{ima_verify.__version__}"', numbers["PACKAGE_VERSION"])
        self.assertEqual(f"{ima_verify.__version__}\n", (ROOT / "VERSION").read_text())
        for name in ("VERSION", "DONE", "DIFFERS", "REFUSED", "OUT_OF_MEMORY", "TOO_SHORT", "MORE",
                     "NO_ERROR", "BY_EXPECTED", "BY_QUOTE", "CONVERT_LIST", "CONVERT_LOG"):
            self.assertEqual(getattr(_library, name), int(numbers[name]))
        for number, kind in _library.KINDS.items():
            self.assertEqual(int(numbers[kind.name]), number)
        form = r"^int32_t ima_verify_raw_(\w+)\(([^;]*),\s+uint8_t \*out,[^;]*\);"
        declared = {name: re.findall(r"(\w+)(?:,|$)", arguments)
                    for name, arguments in re.findall(form, header, re.M)}
        self.assertEqual(set(declared), set(_library.FUNCTIONS))
        for name, arguments in declared.items():
            sizes = [name for name in arguments if re.search("(^|_)(size|count|capacity)$", name)]
            names = [name for name in arguments if name not in sizes]
            known = [argument.removeprefix("error_") for argument in _library.FUNCTIONS[name]]
            self.assertEqual(names, known)
            self.assertEqual(len(arguments) + 3, len(_library.types_of(name)))


class Types(unittest.TestCase):
    """Arguments of other types."""

    TEXTS = {"expected": "", "key": "", "printed": "", "require": "sha256:10", "text": ""}

    def test_errors_name_the_argument(self):
        session = Session(b"", b"", require="sha256:10")
        functions = (getattr(ima_verify, name) for name in ima_verify.__all__)
        functions = [function for function in functions if inspect.isfunction(function)]
        for called in (*functions, Session, session.more, session.attest):
            parameters = inspect.signature(called).parameters
            names = {name for name, each in parameters.items() if each.default is each.empty}
            names |= {"before", "nonce", "state"} & parameters.keys()
            given = {name: self.TEXTS.get(name, b"") for name in names}
            for name in names:
                for wrong in (5, [b""], *([] if name in self.TEXTS else ["firmware.log"])):
                    with self.assertRaisesRegex(TypeError, f"^{name} takes .*, and not "):
                        called(**{**given, name: wrong})
        with self.assertRaisesRegex(TypeError, "^log takes bytes, and not 'firmware.log'$"):
            ima_verify.verify("firmware.log", b"", b"", require="sha256:10")

    def test_other_arguments_are_type_errors(self):
        evidence = {"log": b"", "measurements": b""}
        attest = {**evidence, "quote": b"", "require": "", "nonce": b""}
        judge, attests = ima_verify.verify, ima_verify.attest
        by_key, by_caller = ({**attest, "key": key, "signature": key} for key in (b"", None))
        for called, given, name, *wrongs in (
            (judge, {**evidence, **self.TEXTS}, "known", b"a", "a", 0, [None]),
            (attests, by_key, "key", None), (attests, by_key, "nonce", None),
            (attests, by_key, "nonce_hex", "0a"), (attests, by_key, "signature_checked", True),
            (attests, by_caller, "signature_checked", None, 1),
            (attests, {**by_key, "nonce": None}, "nonce_hex", b"0a"),
            (attests, by_key, "allow_sha1", None, 1),
            (ima_verify.boot, {"log": b"", "expected": b""}, "quote", QUOTE),
            (ima_verify.events, {"log": b""}, "quote", b"", MESSAGE),
            (Session, {"log": b"", "expected": b"", "require": "x"}, "prefix", None, 1),
            (ima_verify.registers, {"log": b""}, "hcrtm", None, 1),
            (judge, {**evidence, **self.TEXTS}, "old_kernel", None, 1),
            (ima_verify.expected, {"printed": b""}, "registers", 10, b"10"),
        ):
            for wrong in wrongs:
                self.assertRaises(TypeError, called, **{**given, name: wrong})
