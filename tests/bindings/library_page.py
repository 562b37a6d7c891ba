"""The examples of docs/library.md: one program for each language, what it reads, and what it must print."""

import re

from harness import ROOT
from pages import FILES, QUOTED, SAMPLE, quote_inputs
from reference import answer

KNOWN = ROOT / "samples/known/SHA256SUMS"
# What reads the variables that the examples use. The list of the last example has one more entry.
NAMES = {"key": "AK.pub", "message": "quote.msg", "signature": "quote.sig", "log": FILES[0], "list": FILES[1], "expected": FILES[2],
         "known": "known.txt", "grown": "grown", "padded": "padded"}
PYTHON = """from pathlib import Path
import ima_verify
{variables}
measurements, nonce = list, Path("nonce").read_text()
{examples}"""
GO = """package main

import (
	"fmt"
	"os"

	"imaverify"
)

func read(name string) []byte {{
	data, _ := os.ReadFile(name)
	return data
}}

func main() {{
{variables}
	nonce := string(read("nonce"))
{examples}}}
"""
RUST = """use ima_verify::{{Evidence, Nonce, Quote, Required, Session, Signing}};
use std::fs::{{read, read_to_string}};

fn main() -> Result<(), Box<dyn std::error::Error>> {{
{variables}
let nonce = read_to_string("nonce")?;
{examples}
Ok(())
}}
"""
C = r"""#include <ima_verify.h>
#include <stdio.h>
#include <stdlib.h>
static struct ima_verify_bytes read_file(const char *name) {{
    uint8_t *bytes = malloc(1 << 16);
    FILE *stream = fopen(name, "rb");
    if (!bytes || !stream) exit(9);
    return (struct ima_verify_bytes){{bytes, fread(bytes, 1, 1 << 16, stream)}};
}}
static uint8_t text[1 << 16], checkpoint[IMA_VERIFY_CHECKPOINT_CAPACITY], kept[IMA_VERIFY_CHECKPOINT_CAPACITY];
static struct ima_verify_bytes state = {{kept, 0}};
static void keep(const uint8_t *data, size_t size) {{ memcpy(kept, data, state.size = size); }}
{functions}
int main(void) {{
{variables}
struct ima_verify_bytes nonce = read_file("nonce"), added = list;
struct ima_verify_output output = {{.data = text, .capacity = sizeof text}}, next = {{.data = checkpoint, .capacity = sizeof checkpoint}};
{examples}
return 0;
}}
"""
WRAPPED = {"python": (PYTHON, '{0} = Path("{1}").read_bytes()'), "go": (GO, '{0} := read("{1}")'), "rust": (RUST, 'let {0} = read("{1}")?;'),
           "c": (C, 'struct ima_verify_bytes {0} = read_file("{1}");')}


def program(language, examples, functions=""):
    """A program that reads what examples use, and has them in their order."""
    wrapped, variable = WRAPPED[language]
    return wrapped.format(variables="\n".join(variable.format(*item) for item in NAMES.items()), functions=functions, examples="".join(examples))


def program_of(language):
    """The page's examples in a language, as one program."""
    examples = re.findall(rf"^```{language}\n(.*?)^```", (ROOT / "docs/library.md").read_text(), re.MULTILINE | re.DOTALL)
    assert len(examples) == 5 and all(example.count("\n") <= 5 for example in examples), examples
    if language == "c":  # (the last goes round twice: it continues with what the list has after its state)
        more = "added = (struct ima_verify_bytes){grown.data + list.size, grown.size - list.size};\n}\n"
        examples[4:] = ["for (int round = 0; round < 2; round++) {\n", examples[4], more]
    return program(language, examples)


def inputs_of(folder):
    """A folder with what the programs read: the sample boot with its quote, and a list that has its last entry once more."""
    made, _ = next(quote_inputs(folder))
    (made / "grown").write_bytes((made / FILES[1]).read_bytes() + (made / FILES[1]).read_bytes()[-95:])
    (made / "known.txt").write_bytes(KNOWN.read_bytes())
    (made / "padded").write_bytes((made / FILES[0]).read_bytes() + bytes(5))
    return made


def wanted(title):
    """What a program must print. In C reports are the reference's; in other languages the words are those of samples/README.md and of these reports."""
    quoted = f"--quote {QUOTED}/quote.msg --list {FILES[1]} --nonce {(QUOTED / 'nonce').read_text()} --require sha256:0-10 --signature-checked"
    boot, known = (answer(words.split(), SAMPLE)[1].decode() for words in (
        f"boot {quoted} {FILES[0]}", f"verify --require sha256:0-10 --known {KNOWN} {' '.join(FILES)}"))
    size = str((SAMPLE / FILES[0]).stat().st_size)
    if title.startswith("C,"):
        return f"match 99\n{boot}{known}{size} 5\nmatch 99 of 99\nmatch 99 of 100\n"
    unknown, registers = re.findall(r"^unknown entry (\d+)$", known, re.MULTILINE), re.findall(r"^command unknown (\d+)", boot, re.MULTILINE)
    return [["match", "99"], [re.match(r"secure_boot (\w+)\n", boot)[1]], *([register] for register in registers), ["differ", *unknown], [size, "5"],
            ["match", "match", "99", "100"]]


def said(title, printed):
    """What a program printed: in C the text, otherwise the words and numbers of each line."""
    return printed if title.startswith("C,") else [re.findall(r"\b(?:match|differ|on|off|unknown|\d+)\b", line) for line in printed.splitlines()]
