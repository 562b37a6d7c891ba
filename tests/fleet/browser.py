"""Tests of pages in Chromium, for tests/fleet/test: nothing of a hostile name runs or is asked for, search and filter find what they should, and
the page can be seen."""

import hashlib
import http.server
import os
import re
import subprocess
import tempfile
import threading
import zlib
from concurrent.futures import ThreadPoolExecutor
from contextlib import contextmanager
from datetime import datetime, timedelta, timezone
from urllib.parse import quote

from cluster import SECONDS
from page_tree import Reader, every, foreign, hostile_texts, lacks_jinja, rows_below
from pages import answer_of, hostile_table, listed_table, make_table, page_of
from reports import SAMPLES, hostile_boot, hostile_words, make_boot, most_known, program_of, report_text

CHROMIUM = (
    "--headless=new", "--disable-gpu", "--hide-scrollbars", "--no-first-run", "--disable-background-networking", "--disable-component-update",
    "--disable-sync", "--enable-logging=stderr", "--force-device-scale-factor=1",
)


def browse(tools, page, *words):
    """What Chromium prints of a page, and what the page or its policy had it complain of. A word that begins with # belongs to the address."""
    alone = ["--no-sandbox"] if os.geteuid() == 0 else []  # (as root it has no other way)
    fragment = "".join(word for word in words if word.startswith("#"))
    with tempfile.TemporaryDirectory() as profile:
        words = [*alone, f"--user-data-dir={profile}", *(word for word in words if word != fragment), f"file://{page}{fragment}"]
        ended = subprocess.run(
            ["chromium", *CHROMIUM, *words],
            stdin=subprocess.DEVNULL, capture_output=True, timeout=SECONDS,
        )
    return ended.stdout.decode(errors="replace"), [line for line in ended.stderr.decode(errors="replace").splitlines() if "CONSOLE" in line]


def browse_all(tools, calls):
    """What `browse` gives for each of these calls, several at once."""
    with ThreadPoolExecutor(max_workers=3) as pool:
        return list(pool.map(lambda call: browse(tools, *call), calls))


@contextmanager
def listening():
    """The port of a server on this computer, and the paths that are asked of it."""
    asked = []

    class Handler(http.server.BaseHTTPRequestHandler):
        def do_GET(self):
            asked.append(self.path)
            self.send_error(404)

        def log_message(self, *_):
            pass

    with http.server.ThreadingHTTPServer(("127.0.0.1", 0), Handler) as server:
        threading.Thread(target=server.serve_forever, daemon=True).start()
        yield server.server_address[1], asked
        server.shutdown()


def test_browser(tools):
    """In Chromium hostile names run nothing and ask for nothing, and search and filter find what they should."""
    lacks_jinja(tools)
    tools.needs("chromium")
    if os.geteuid() != 0:  # (its sandbox may need what this user may not)
        tools.lacks(*([] if "<html" in browse(tools, "/dev/null", "--dump-dom")[0] else ["Chromium that starts"]))
    folder = tools.folder / "browser"
    folder.mkdir()
    program_of(tools)
    with listening() as (port, asked):
        fleet, boot = folder / "fleet.html", folder / "boot.html"
        fleet.write_text(page_of(tools, hostile_table(folder, port))[1])
        boot.write_text(report_text(tools, hostile_boot(folder / "boot", port), *hostile_words())[1])
        test_nothing_runs(tools, folder, (fleet, boot), port, asked)
    test_search(tools, folder, fleet, boot)
    test_sorting(tools, folder)
    test_pictures(tools, folder, fleet)
    test_narrow(tools, folder, fleet, boot)
    test_paper(tools, folder, fleet)


def test_nothing_runs(tools, folder, pages, port, asked):
    """Nothing of a hostile name runs, by the escaping alone and by the policy alone; without both it would."""
    raw = "".join(text for text, _ in hostile_texts(port)[:4])
    fleet, boot = (page.read_text() for page in pages)
    cases = {"a fleet": fleet, "a fleet, without the policy": without_policy(fleet), "a boot": boot}
    found = browse_all(tools, [(changed(folder, text), "--dump-dom") for text in cases.values()])
    for title, (shown, complaints) in zip(cases, found):
        told = (title_of(shown) != "ran", foreign(Reader(shown).top), complaints, asked)
        tools.check(f"the page of {title}: nothing runs or is asked for", told, (True, [], [], []))
    text = fleet.replace("<main>", f"<main>{raw}")
    for title, each, wanted in (("by the policy alone nothing", text, []), ("without it all", without_policy(text), ["/image", "/style"])):
        shown, complaints = browse(tools, changed(folder, each), "--dump-dom")
        told = (title_of(shown) == "ran", bool(complaints), sorted(set(asked)))
        tools.check(f"raw markup: {title} runs or is asked for", told, (bool(wanted), not wanted, wanted))


def changed(folder, text):
    """A file of this text."""
    path = folder / f"changed {hashlib.sha256(text.encode()).hexdigest()[:8]}.html"
    path.write_text(text)
    return path


def title_of(shown):
    return next(Reader(shown).top.all("title")).text


def without_policy(text):
    found = re.sub(r'<meta http-equiv="Content-Security-Policy"[^>]*>', "", text)
    assert found != text
    return found


# What somebody does on a page without its policy: types a word, sends the form, or goes to another fragment.
FORM = "const form = document.getElementById('search');"
DONE = {
    "typed": "form.elements.words.value = 'left'; form.dispatchEvent(new Event('input'));",
    "sent": "form.elements.words.value = 'left'; form.requestSubmit();",
    "another fragment": "location.hash = '#search=left';",
}


def test_search(tools, folder, fleet, boot):
    """Search and filter, by a fragment and by hand: each row that has all words and the kind, and no other. A page of a day or more says how old
    it is."""
    known = folder / "known.html"
    known.write_text(report_text(tools, make_boot(folder / "known"), "--known", most_known(folder))[1])
    listed = folder / "listed.html"
    listed.write_text(page_of(tools, listed_table(folder / "listed.db"))[1])
    bare = without_policy(listed.read_text())
    done = {title: changed(folder, f"{bare}<script>{{ {FORM} {do} }}</script>") for title, do in DONE.items()}
    old, day = (aged(folder, fleet, hours) for hours in (3 * 24, 24))
    cases = (
        (fleet, "caf", "unreadable", ""), (fleet, "INVOICE txt", "", ""), (fleet, "all MACHINES", "", ""), (fleet, "cause invoice", "", ""),
        (old, "nothing-has-this", "", "It is 3 days old."), (day, "", "none-is-so", "It is 1 day old."), (boot, "u202e", "confirmed", ""),
        (known, "", "unknown", ""), (known, "", "violation", ""), (listed, "left", "", ""), (listed, "", "match", ""),
        (listed, "late differ", "", ""), *((page, "left", title, "") for title, page in done.items()),
    )
    fragments = ["" if kind in DONE else f"#search={quote(words)}&kind={kind}" for _, words, kind, _ in cases]
    shown = browse_all(tools, [(page, "--dump-dom", "--virtual-time-budget=2000", fragment) for (page, *_), fragment in zip(cases, fragments)])
    for (page, words, kind, age), fragment, (text, _) in zip(cases, fragments, shown):
        title, top = f"{page.name}, {words!r}, {kind!r}", Reader(text).top
        kinds = {option.text for option in top.all("option")}
        check_found(tools, title, top, words.lower().split(), kind if kind in kinds else "")
        said = [each.text for each in top.all("strong") if each.attributes.get("id") == "age" and "hidden" not in each.attributes]
        tools.check(f"{title}: its age", said, [age] if age else [])


# What somebody does on a page: presses the buttons in the heads of these columns of the table below a heading, one after another.
PRESS = """
{{
  const table = document.getElementById("{heading}").parentElement.querySelector("div[aria-labelledby={heading}] table");
  for (const column of {columns}) table.tHead.rows[0].cells[column].querySelector("button").click();
}}
"""


def test_sorting(tools, folder):
    """Each column sorts, once up and pressed again down, and numbers in names count as numbers. Without the script all rows are there."""
    hosts = {f"host-{number}": answer_of("differ", number, others=(4,) if number % 2 else (10,)) for number in (2, 10, 1, 33)}
    page = without_policy(page_of(tools, make_table(folder / "sorted.db", {**hosts, "a": answer_of("refused", cause="x")}))[1])
    cases = (
        ("no", "problems", [], ["host-1", "host-2", "host-10", "host-33", "a"]), ("a name", "problems", [0], ["a", "host-1", "host-2", "host-10", "host-33"]),
        ("a name twice", "problems", [0, 0], ["host-33", "host-10", "host-2", "host-1", "a"]),
        ("a name, and then a verdict", "problems", [0, 0, 1], ["host-33", "host-10", "host-2", "host-1", "a"]),
        ("a reason, and then a name", "problems", [2, 0], ["a", "host-1", "host-2", "host-10", "host-33"]),
        ("a count", "reasons", [0], ["1", "2", "2"]), ("a count twice", "reasons", [0, 0], ["2", "2", "1"]),
    )
    calls = []
    for _, heading, columns, _ in cases:
        script = PRESS.format(heading=heading, columns=columns)
        calls.append((changed(folder, f"{page}<script>{script}</script>"), "--dump-dom", "--virtual-time-budget=2000"))
    titles = {"problems": "Machines that do not match", "reasons": "Reasons"}
    for (title, heading, columns, wanted), (shown, complaints) in zip(cases, browse_all(tools, calls)):
        top = Reader(shown).top
        found = [row[0] for row in rows_below(top, titles[heading])]
        marks = [head.attributes["aria-sort"] for head in top.all("th") if "aria-sort" in head.attributes]
        wanted_marks = (["descending"] if columns[-2:] == [0, 0] else ["ascending"]) if columns else []
        tools.check(f"sorted by {title}", (found, marks, complaints), (wanted, wanted_marks, []))


def aged(folder, page, hours):
    """The page, made so many hours ago."""
    return changed(folder, re.sub(r'datetime="[^"]*"', f'datetime="{datetime.now(timezone.utc) - timedelta(hours=hours)}"', page.read_text()))


def check_found(tools, title, top, words, kind):
    """Rows are seen if they have all words and the kind, and folded parts are open if they have such a row."""
    groups = [group for group in every(top) if "data-rows" in group.attributes]
    rows = [(group, row) for group in groups for row in group.inner if not isinstance(row, str)]

    def is_found(row):
        return all(word in row.text.lower() for word in words) and (not kind or kind in row.attributes.get("data-kind", "").split())

    wanted = [row.text for _, row in rows if is_found(row)]
    is_asked = bool(words or kind)
    tools.check(f"{title}: something is to be found", bool(wanted), "nothing-has-this" not in words)
    seen = [row.text for _, row in rows if "hidden" not in row.attributes]
    told = (next(top.all("output")).text, "hidden" in next(top.all("form")).attributes)
    tools.check(f"{title}: the rows that are found", (seen, *told), (wanted, f"{len(wanted)} of {len(rows)} rows" if is_asked else "", False))
    folded = [(group, part) for group in groups for part in [around(group, "details")] if part]
    found = ["open" in part.attributes for _, part in folded]
    tools.check(f"{title}: what is open", found, [is_asked and any(is_found(row) for home, row in rows if home is group) for group, _ in folded])


def around(element, tag):
    """The nearest element of this name that the element is in, if there is one."""
    while element and element.tag != tag:
        element = element.parent
    return element


def test_pictures(tools, folder, fleet):
    """The page has a picture: light and dark, wide and narrow; and it can be printed."""
    light, dark, paper = folder / "light.png", folder / "dark.png", folder / "page.pdf"
    browse_all(tools, [
        (fleet, f"--screenshot={light}", "--window-size=1200,900"), (fleet, f"--print-to-pdf={paper}"),
        (fleet, f"--screenshot={dark}", "--window-size=400,800", "--blink-settings=preferredColorScheme=0"),
    ])
    grounds = [first_pixel(path.read_bytes()) for path in (light, dark)]
    tools.check("pictures of the page: light and dark", grounds, [(0xFF, 0xFF, 0xFF), (0x14, 0x18, 0x1D)])
    tools.check("pictures of the page: there is something on them", min(path.stat().st_size for path in (light, dark)) > 20_000, True)
    tools.check("the page on paper", paper.read_bytes()[:5], b"%PDF-")


# Tells the page around how wide a page is shown, how wide it is, how narrow the narrowest value is, and which parts of the page end beyond it.
MEASURED = """
for (const each of document.querySelectorAll("details")) each.open = true;
const narrow = Array.from(document.querySelectorAll("td dd"), (each) => each.getBoundingClientRect().width).filter((each) => each > 0);
const wide = Array.from(document.querySelectorAll("body *")).filter((each) => each.getBoundingClientRect().right > innerWidth + 1);
const told = [innerWidth, document.documentElement.scrollWidth, Math.floor(Math.min(1000, ...narrow)), wide.map((each) => each.tagName)];
parent.postMessage(told.join(" "), "*");
"""
PHONE, DESK, LEAST = 390, 1280, 160


def measured(tools, folder, pages):
    """What MEASURED tells of these pages, each in a frame of a width."""
    frames = []
    for page, width in pages:
        inner = changed(folder, f"{without_policy(page.read_text())}<script>{{ {MEASURED} }}</script>")
        frame = f'<iframe src="{inner.name}" width="{width}" height="800"></iframe>'
        frames.append(changed(folder, f"<!DOCTYPE html><title></title><script>onmessage = (told) => document.title = told.data</script>{frame}"))
    shown = browse_all(tools, [(frame, "--dump-dom", "--virtual-time-budget=4000", f"--window-size={DESK + 100},900") for frame in frames])
    for text, _ in shown:
        shown_width, whole, least, *beyond = title_of(text).split(" ", 3)
        yield int(shown_width), int(whole), int(least), "".join(beyond)


def test_narrow(tools, folder, fleet, boot):
    """On a phone nothing of a page is cut, or beside the screen; with a table that is not in cards something would be. Values that have parts, be
    they as deep as those of a certificate, are nowhere narrow."""
    earlier = folder / "earlier.html"
    words = ("--before", SAMPLES / "ovmf-boot/systemd-boot.log")
    earlier.write_text(report_text(tools, make_boot(folder / "of two boots"), *words, "--known", most_known(folder))[1])
    pages = {"a fleet": fleet, "hostile texts": boot, "two boots": earlier}
    for title in ("a fleet", "two boots"):
        pages[f"{title}, without cards"] = changed(folder, re.sub('class="cards[^"]*"', "", pages[title].read_text()))
    for title, (width, whole, _, beyond) in zip(pages, measured(tools, folder, [(page, PHONE) for page in pages.values()])):
        is_cut = "without" in title
        tools.check(f"on a phone: {title}", (width, whole > PHONE or bool(beyond)), (PHONE, is_cut))
    ovmf, deep = SAMPLES / "ovmf-boot", folder / "deep.html"
    files = {name: (ovmf / f"secure-boot.{ending}").read_bytes() for name, ending in (("firmware", "log"), ("ima", "list"), ("expected", "expected"))}
    deep.write_text(report_text(tools, make_boot(folder / "with certificates", **files), "--before", ovmf / "systemd-boot.log")[1])
    flat = changed(folder, deep.read_text().replace('<dd class="parts">', "<dd>"))
    widths = [least for _, _, least, _ in measured(tools, folder, [(deep, DESK), (flat, DESK)])]
    tools.check("values that have parts are not narrow", [width >= LEAST for width in widths], [True, False])


# Says what is open on paper, and afterwards.
PRINTED = """
const open = () => Array.from(document.querySelectorAll("details"), (each) => Number(each.open)).join("");
const said = [open()];
for (const name of ["beforeprint", "afterprint"]) { dispatchEvent(new Event(name)); said.push(open()); }
document.title = said.join(" ");
"""


def test_paper(tools, folder, fleet):
    """On paper long texts and machines that do not match are not folded, and are folded again afterwards."""
    page = changed(folder, f"{without_policy(fleet.read_text())}<script>{{ {PRINTED} }}</script>")
    shown = browse(tools, page, "--dump-dom", "--virtual-time-budget=2000")[0]
    parts = [part for part in Reader(shown).top.all("details")]
    opened = "".join("1" if part.attributes.get("class") == "paper" or around(part, "table") or around(part, "li") else "0" for part in parts)
    folded_ = "0" * len(parts)
    tools.check("what is open on paper", (title_of(shown).split(" "), "1" in opened), ([folded_, opened, folded_], True))


def first_pixel(data):
    """The colour of the upper left pixel of a PNG (RFC 2083), without alpha."""
    at, pieces = 8, b""
    while at < len(data):
        size, kind = int.from_bytes(data[at:at + 4], "big"), data[at + 4:at + 8]
        pieces += data[at + 8:at + 8 + size] if kind == b"IDAT" else b""
        at += 12 + size
    return tuple(zlib.decompress(pieces)[1:4])  # (in the first pixel of the first row no filter changes anything)
