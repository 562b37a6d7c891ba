"""Reads pages for their tests, and has the hostile texts that they must show."""

from collections import Counter
from html.parser import HTMLParser

LONG = "<b>" + 4092 * "n"
FOLDED = 400  # characters: a longer text is folded

# Texts that a machine could write, and how a page shows each. Those with `ran` or a host would leave a trace if they were more than text.
HOSTILE = [
    ("<script>document.title='ran'</script>", "<script>document.title='ran'</script>"),
    ("<img src=x onerror=\"document.title='ran'\">", "<img src=x onerror=\"document.title='ran'\">"),
    ("<img src=http://127.0.0.1:{port}/image>", "<img src=http://127.0.0.1:{port}/image>"),
    ("<link rel=stylesheet href=http://127.0.0.1:{port}/style>", "<link rel=stylesheet href=http://127.0.0.1:{port}/style>"),
    ("</bdi></td></table><h1>All machines match</h1>", "</bdi></td></table><h1>All machines match</h1>"),
    ("</script><script>document.title='ran'</script><!--", "</script><script>document.title='ran'</script><!--"),
    ("{{ 7 * 7 }} {% set ran = 1 %}", "{{ 7 * 7 }} {% set ran = 1 %}"),
    ("&lt;b&gt; &#60; \"'`", "&lt;b&gt; &#60; \"'`"),
    ("invoice\u202etxt.exe", "invoice\\u202etxt.exe"),
    ("\u2066\u2069\ufeff\u200f\u061c\u2028", "\\u2066\\u2069\\ufeff\\u200f\\u061c\\u2028"),
    ("red \x1b[31m\x07\x7f\x9b tab\tline\nend\r\x01", "red \\x1b[31m\\x07\\x7f\\x9b tab\\x09line\\x0aend\\x0d\\x01"),
    ("wide\xa0space\u3000\U000e0041\U0010ffff", "wide\\xa0space\\u3000\\U000e0041\\U0010ffff"),
    ("sh\u3164\u115f\u1160\u2800\ufe0f\u034f\u17b4\u180b\uffa0\U000e0100",
     "sh\\u3164\\u115f\\u1160\\u2800\\ufe0f\\u034f\\u17b4\\u180b\\uffa0\\U000e0100"),
    ("\u05e9\u05dc\u05d5\u05dd a" + 300 * "\u0301", "\u05e9\u05dc\u05d5\u05dd a" + 300 * "\u0301"),
    (LONG, LONG),
]
VOID = {"meta", "br", "input", "link", "img", "hr", "source"}


class Element:
    """An element of a page, with what is in it: elements and texts."""

    def __init__(self, tag, attributes, parent=None):
        self.tag, self.attributes, self.parent, self.inner = tag, dict(attributes), parent, []

    @property
    def text(self):
        return "".join(each if isinstance(each, str) else each.text for each in self.inner)

    def all(self, tag):
        """Each element of this name within, in their order."""
        for each in self.inner:
            if not isinstance(each, str):
                if each.tag == tag:
                    yield each
                yield from each.all(tag)


class Reader(HTMLParser):
    """Reads a page as a tree."""

    def __init__(self, text):
        super().__init__()
        self.top = self.here = Element("", ())
        self.feed(text)
        self.close()

    def handle_starttag(self, tag, attributes):
        element = Element(tag, attributes, self.here)
        self.here.inner.append(element)
        if tag not in VOID:
            self.here = element

    def handle_startendtag(self, tag, attributes):
        self.here.inner.append(Element(tag, attributes, self.here))

    def handle_endtag(self, tag):
        while self.here.tag != tag:
            self.here = self.here.parent
        self.here = self.here.parent

    def handle_data(self, text):
        self.here.inner.append(text)


def rows_below(page, title):
    """The cells of the first table's rows that follows the heading with this title, as texts."""
    return tables_below(page, title)[0]


def tables_below(page, title):
    """The cells of the rows of each table between the heading with this title and the next one, as texts; the tables of its first heading first."""
    heading = next(each for each in page.all("h2") if each.text == title)
    part = heading.parent.inner[heading.parent.inner.index(heading) + 1:]
    found, ended = [], False
    for each in part:
        if not isinstance(each, str):
            ended |= each.tag == "h2"
            if not ended or not found:
                found += [each] if each.tag == "table" else each.all("table")
    return [
        [[cell.text.strip() for cell in row.inner if not isinstance(cell, str)] for row in next(table.all("tbody")).all("tr")] for table in found
    ]


def state_of(page):
    """The text of the page's head, and whether it has the colour of a match, be it one that nobody signed."""
    (state,) = [each for each in page.all("div") if each.attributes.get("class", "").startswith("state")]
    return state.text, state.attributes["class"] != "state"


def every(element):
    """Each element within."""
    for each in element.inner:
        if not isinstance(each, str):
            yield each
            yield from every(each)


def foreign(page):
    """What a page may not have: elements that load or run something besides its one script and one style, and attributes that do; nor an id
    twice, or one that is named and not there."""
    elements = list(every(page))
    tags = Counter(each.tag for each in elements)
    found = [tag for tag in ("img", "link", "iframe", "object", "embed", "base", "audio", "video", "source", "b") if tags[tag]]
    found += [tag for tag in ("script", "style", "h1", "main", "head", "body") if tags[tag] != 1]
    names = {name for each in elements for name in each.attributes}
    found += sorted(name for name in names if name.startswith("on") or name in ("style", "src", "srcdoc", "action", "formaction"))
    ids = Counter(each.attributes["id"] for each in elements if "id" in each.attributes)
    found += [name for name, count in ids.items() if count > 1]
    named = {name for each in elements for name in (each.attributes.get("aria-labelledby"), each.attributes.get("href", "")[1:]) if name}
    found += sorted(named - set(ids))
    return found + [each.attributes["href"] for each in page.all("a") if not each.attributes["href"].startswith("#")]


def hostile_texts(port):
    """The hostile texts, which name this port, each with how it is shown."""
    return [tuple(each.replace("{port}", str(port)) for each in pair) for pair in HOSTILE]


def folded(text):
    """A shown text as a page has it."""
    return text if len(text) <= FOLDED else f"{text[:120]} .. ({len(text)} characters){text}"


def lacks_jinja(tools):
    """Skips the test where the Python that makes the pages has no Jinja."""
    tools.needs_modules("jinja2")
