"""What a program or a library of ELF needs, as readelf tells it."""

import re
import subprocess


def readelf(option, file):
    said = subprocess.run(["readelf", "--wide", option, str(file)], stdout=subprocess.PIPE, check=True)
    return said.stdout.decode()


def needed_libraries(file):
    return re.findall(r"\(NEEDED\).*\[(.*)\]", readelf("--dynamic", file))


def soname(file):
    return re.search(r"\(SONAME\).*\[(.*)\]", readelf("--dynamic", file))[1]


def least_glibc(files):
    """The least version of glibc that has all that these files ask of it."""
    asked = {version for file in files for version in re.findall(r"\bName: GLIBC_([0-9.]+)", readelf("--version-info", file))}
    return max(asked, key=lambda version: [int(part) for part in version.split(".")])


def exported(file):
    """The symbols that a shared library exports, each with its version; those that are the versions' names are left out."""
    rows = re.findall(r"^ +\d+: .* (?:GLOBAL|WEAK) +DEFAULT +(?!UND|ABS)\w+ (\w+)(?:@@(\w+))?$", readelf("--dyn-syms", file), re.MULTILINE)
    return dict(rows)


# What a library asks of its loader: to relocate all of it at the start, to make that read-only then, and to run no code on the stack.
PROTECTIONS = {"BIND_NOW", "GNU_RELRO", "GNU_STACK"}


def protections(file):
    """Which of `PROTECTIONS` a program or a library asks for."""
    segments, dynamic = readelf("--segments", file), readelf("--dynamic", file)
    forms = {"BIND_NOW": (dynamic, r"\(FLAGS\) +.*BIND_NOW|\(BIND_NOW\)"), "GNU_RELRO": (segments, r"^ +GNU_RELRO "),
             "GNU_STACK": (segments, r"^ +GNU_STACK .* RW +0x")}
    return {name for name, (text, form) in forms.items() if re.search(form, text, re.MULTILINE)}
