#!/usr/bin/env python3
"""Makes a library that stands for a newer libima_verify (shim.c), and forwards each function of the header to the real one.

tests/bindings/newer/build.py LIBRARY FOLDER

LIBRARY is the real libima_verify.so. In FOLDER come libima_verify.so and libima_verify.so.1, which are one file. A package is tested with it by its
own name for tests: IMA_VERIFY_LIBRARY for Python, LD_LIBRARY_PATH for Go and Rust. What the environment variable IMA_VERIFY_SHIM_DIFFER does,
shim.c says."""

import subprocess
import sys
from pathlib import Path

ROOT = Path(__file__).resolve().parents[3]
sys.path[:0] = [str(ROOT / "dist")]
from header import VERSION, exports_of  # noqa: E402

# What of a call is the caller's, and what the shim gives the real function in its place.
CALLERS = {"json": "json", "numbers": "numbers", "numbers_count": "numbers_count", "next": "call.state", "next_capacity": "sizeof call.state",
           "next_size": "&call.state_size", "offset": "&call.moved_offset", "number": "&call.moved_number"}
# A function that always, or never, gives lines of JSON.
FIXED = {"ima_verify_raw_events": "true", "ima_verify_raw_error_text": "false", "ima_verify_raw_matching": "false"}


def forwarded(name, returned, parameters):
    """The function of this name, in C."""
    names = [parameter.split()[-1].lstrip("*") for parameter in parameters]
    own = {each: each for each in names if each in CALLERS and not (name in FIXED and each == "number" and "offset" not in names)}
    members = "".join(f".{each} = {each}, " for each in own) + (f".json = {FIXED[name]}, " if name in FIXED else "")
    moved = ".moved_offset = *offset, .moved_number = *number, " if "offset" in own else ""
    words = ", ".join(CALLERS[each] if each in own else each for each in names[:-3])
    return f"""{returned} {name}({", ".join(parameters)}) {{
    struct call call = {{{members}{moved}.text = renewed(NULL, 0)}};
    do call.result = ((__typeof__(&{name}))real("{name}"))({words}, call.text, call.space, &call.told);
    while (grows(&call));
    return given(&call, out, capacity, info);
}}
"""


def build(library, folder):
    """What is wrong, or nothing."""
    functions = exports_of(ROOT)
    functions.pop(VERSION)
    source = f"""#include "{Path(__file__).with_name("shim.c")}"
uint32_t {VERSION}(void) {{ return ((__typeof__(&{VERSION}))real("{VERSION}"))() + 1; }}
{"".join(forwarded(name, *function) for name, function in functions.items())}"""
    made = folder / "libima_verify.so.1"
    ended = subprocess.run(["cc", "-std=gnu11", "-O1", "-Wall", "-Wextra", "-Werror", "-shared", "-fPIC", "-Wl,-soname,libima_verify.so.1",
                            f'-DREAL="{Path(library).resolve(strict=True)}"', f"-I{ROOT / 'bindings/c'}", "-x", "c", "-", "-o", made, "-ldl"],
                           input=source, stdout=subprocess.PIPE, stderr=subprocess.STDOUT, text=True)
    (folder / "libima_verify.so").symlink_to(made.name)
    return ended.stdout


if __name__ == "__main__":
    sys.exit(build(sys.argv[1], Path(sys.argv[2])) or None)
