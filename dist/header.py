"""The library's interface, as bindings/c/ima_verify.h and the versions of its symbols in libima_verify.map have it."""

import re

EXPORT = re.compile(r"^(u?int32_t) (\w+)\(([^)]*)\);", re.MULTILINE)
FUNCTION = re.compile(r"^IMA_VERIFY_USE_RESULT static inline ([\w ]+)\n(\w+)\(([^)]*)\) \{", re.MULTILINE)
CONSTANT = re.compile(r"^    (IMA_\w+) = (\d+),?$", re.MULTILINE)
NODE = re.compile(r"^IMA_VERIFY_(\d+) \{\n(.*?)^\}", re.MULTILINE | re.DOTALL)
VERSION = "ima_verify_version"


def header_of(root):
    """The header without its comments."""
    return re.sub(r"/\*.*?\*/", "", (root / "bindings/c/ima_verify.h").read_text(), flags=re.DOTALL)


def found_by(form, root):
    return {name: (kind, [" ".join(each.split()) for each in parameters.split(",")])
            for kind, name, parameters in form.findall(header_of(root))}


def exports_of(root):
    """By name, what each function that the library exports returns, and its parameters."""
    return found_by(EXPORT, root)


def functions_of(root):
    """By name, the same of each function that a program in C calls: one is exported, the others are the header's own."""
    return {VERSION: exports_of(root)[VERSION], **found_by(FUNCTION, root)}


def constants_of(root):
    return dict(CONSTANT.findall(header_of(root)))


def versions_of(root):
    """By name, the version of the interface with which each exported function came."""
    nodes = NODE.findall((root / "dist/libima_verify.map").read_text())
    return {name: int(version) for version, names in nodes for name in re.findall(r"^\s+(ima_\w+);$", names, re.MULTILINE)}
