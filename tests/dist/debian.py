"""A system in a folder, into which dpkg puts packages."""

import gzip
import os
import re
import shlex

from harness import ROOT
from installed import DOCS, FOLDER, MULTIARCH, RELEASE, run, samples

TOOLS, CALLS = FOLDER / "tools", FOLDER / "calls"
# What all packages need of a system, and what the fleet's does.
BASE, FLEET = ("libc6", "python3"), ("python3-jinja2",)

# What dpkg and apt read of each package. VERSION is that of the release, and GLIBC the least that has what it is linked with.
AMD64, ALL, SAME = {"Architecture": "amd64"}, {"Architecture": "all"}, {"Architecture": "amd64", "Multi-Arch": "same"}
FIELDS = {
    "ima-agent": {**AMD64, "Section": "admin", "Depends": "libc6 (>= GLIBC)", "Suggests": "jq, openssl, tpm2-tools (>= 5)"},
    "ima-collect": {**ALL, "Section": "admin", "Recommends": "tpm2-tools (>= 5)"},
    "libima-verify1": {**SAME, "Section": "libs", "Depends": "libc6 (>= GLIBC)"},
    "libima-verify-dev": {**SAME, "Section": "libdevel", "Depends": "libima-verify1 (= VERSION)", "Suggests": "pkgconf | pkg-config"},
    "python3-ima-verify": {**ALL, "Section": "python", "Depends": "python3 (>= 3.10), libima-verify1 (>= VERSION)",
                           "Suggests": "python3-cryptography (>= 38)"},
    "fleet-verify": {**ALL, "Section": "admin", "Suggests": "python3-distributed (<< 2023), python3-distributed (>= 2022.12.1), "
                     "python3-cryptography (>= 38), python3-fsspec (>= 2022.11)", "Depends": "python3 (>= 3.10), python3-ima-verify (<< 2), "
                     "python3-ima-verify (>= 1.0), python3-jinja2 (>= 3.0), ima-agent (>= VERSION)"},
}
RELATIONS = ("Architecture", "Multi-Arch", "Section", "Depends", "Pre-Depends", "Recommends", "Suggests", "Maintainer", "Version", "Priority")
# What the scripts of the fleet's package have tools do, by what dpkg calls them with and where. Units are begun by none, and end with the package.
COMPILED, CLEANED, LOADED = "py3compile -p fleet-verify", "py3clean -p fleet-verify", "systemctl --system daemon-reload"
MADE, KNOWN, FORGOTTEN = "systemd-sysusers fleet-verify.conf", *(f"deb-systemd-helper {do} fleet-poll.timer" for do in ("update-state", "purge"))
DONE = (
    ("postinst", "configure", "with systemd", [COMPILED, MADE, KNOWN, LOADED]), ("postinst", "configure", "without systemd", [COMPILED, MADE, KNOWN]),
    ("postinst", "configure", "below another root", [COMPILED, "systemd-sysusers --root=/other fleet-verify.conf", KNOWN]),
    ("prerm", "remove", "with systemd", [CLEANED, "deb-systemd-invoke stop fleet-poll.timer fleet-poll.service"]),
    ("prerm", "upgrade", "with systemd", [CLEANED]), ("prerm", "remove", "without systemd", [CLEANED]),
    ("prerm", "remove", "below another root", [CLEANED]),
    ("postrm", "remove", "with systemd", [LOADED]), ("postrm", "remove", "without systemd", []),
    ("postrm", "purge", "with systemd", [FORGOTTEN, LOADED]), ("postrm", "purge", "below another root", [FORGOTTEN]),
    *((name, "remove", "without tools", []) for name in ("postinst", "prerm", "postrm")),
)
# What each package has, but for modules of Python and samples: programs, and other files. What dpkg reads of it, and what it says of itself.
BIN, DOC, MAN = "usr/bin", "usr/share/doc", "usr/share/man"
PROGRAMS = {"ima-agent": ["ima-agent", "ima-attest", "ima-enroll"], "ima-collect": ["ima-collect"], "fleet-verify": ["fleet-verify", "ima-report"]}
FILES = {
    "ima-agent": ["usr/share/bash-completion/completions/ima-agent", "usr/share/fish/vendor_completions.d/ima-agent.fish",
                  "usr/share/zsh/vendor-completions/_ima-agent", *(f"{DOC}/ima-agent/{name}" for name in DOCS)],
    "ima-collect": [],
    "libima-verify1": [f"{MULTIARCH[1:]}/libima_verify.so.1"],
    "libima-verify-dev": ["usr/include/ima_verify.h", "usr/include/ima_verify_evp.h", f"{MULTIARCH[1:]}/libima_verify.a", f"{MULTIARCH[1:]}/libima_verify.so",
                          f"{MULTIARCH[1:]}/pkgconfig/ima_verify.pc", *(f"{DOC}/libima-verify-dev/examples/{name}" for name in ("example.c", "judge_quote.c")),
                          f"{MAN}/man3/ima_verify.3.gz"],
    "python3-ima-verify": [],
    "fleet-verify": ["lib/systemd/system/fleet-poll.service", "lib/systemd/system/fleet-poll.timer", "usr/lib/sysusers.d/fleet-verify.conf",
                     "etc/fleet-verify/poll.conf", f"{DOC}/fleet-verify/fleet.md",
                     *(f"usr/share/ima-agent/grafana/{name}" for name in ("alerts.yaml", "dashboard.json", "fleet.prom"))],
}
MODULES = {"python3-ima-verify": ("bindings/python", "ima_verify", ["METADATA"]),
           "fleet-verify": ("fleet", "fleet_verify", ["METADATA", "entry_points.txt"])}
READ = {"libima-verify1": ["shlibs", "symbols", "triggers"], "python3-ima-verify": ["postinst", "prerm"],
        "fleet-verify": ["conffiles", "postinst", "postrm", "prerm"]}
SCRIPTS = ("postinst", "postrm", "prerm")
SAYS = {
    "ima-agent": ("", ""), "ima-collect": (" (collector)", "the script that collects these on the machine."),
    "libima-verify1": (" (library)", "the shared library."), "libima-verify-dev": (" (development)", "the header and the static library."),
    "python3-ima-verify": (" (Python)", "the module ima_verify for Python 3."),
    "fleet-verify": (" (fleet)", "the commands that verify many machines, and show\n what came of it."),
}
DESCRIPTION = """verifies boot logs and IMA measurement lists{}
 Do a machine's firmware event log and its IMA measurement list account for
 the registers (PCRs) of its TPM 2.0? Both are replayed, and the result is
 compared with register values, as a quote of the TPM confirms them.
"""
# What is linked in a package.
LINKED = {"ima-agent": "bin/ima-agent", "libima-verify1": "lib/libima_verify.so.1"}


def modules_of(name, version):
    """The files of Python in a package: those of the tree, and what tells of them."""
    if name not in MODULES:
        return set()
    root, module, told = MODULES[name]
    files = [path.relative_to(ROOT / root) for path in (ROOT / root / module).rglob("*") if path.is_file() and path.suffix not in (".so", ".pyc")]
    return {f"usr/lib/python3/dist-packages/{file}" for file in (*files, *(f"{module}-{version}.dist-info/{each}" for each in told))}


def wanted_files(name, version):
    """By name, whether a file of a package is a program."""
    others = {*FILES[name], *modules_of(name, version), f"{DOC}/{name}/changelog.gz", *(f"usr/{each}" for each in samples() if name == "ima-agent")}
    programs = PROGRAMS.get(name, [])
    others |= {f"{MAN}/man1/{each}.1.gz" for each in programs}
    return {**dict.fromkeys(others, False), **{f"{BIN}/{each}": True for each in programs}}


def listed(package, words):
    """By name, mode and size of the files in a part of a package, as tar lists them; and the modes of its folders and links."""
    rows = [line.split(None, 5) for line in run("sh", "-c", f'dpkg-deb {words} "$1" | tar -tv', "sh", package).output.decode().splitlines()]
    files = {row[5][2:]: (row[0], int(row[2])) for row in rows if row[0][0] == "-"}
    return files, {row[5].partition(" -> ")[0][2:]: row[0] for row in rows if row[0][0] != "-"}


def strange(package, name, version):
    """What is otherwise in a package than the tables say: its files with their modes, their size, and what dpkg reads."""
    files, others = listed(package, "--fsys-tarfile")
    wanted = wanted_files(name, version)
    found = {**{file: mode == "-rwxr-xr-x" for file, (mode, _) in files.items()}, **{file: False for file, mode in others.items() if mode[0] == "l"}}
    yield from (f"{name}: {file}" for file in sorted({file for file, _ in {*found.items()} ^ {*wanted.items()}}))
    modes = {mode for mode, _ in files.values()} | {mode for mode in others.values() if mode[0] != "l"}
    yield from (f"{name}: mode {mode}" for mode in modes - {"-rwxr-xr-x", "-rw-r--r--", "drwxr-xr-x"})
    size = run("dpkg-deb", "--field", package, "Installed-Size").output.decode().strip()
    if int(size) != sum((size + 1023) // 1024 for _, size in files.values()):
        yield f"{name}: its size is {size}"
    read = {file: mode == "-rwxr-xr-x" for file, (mode, _) in listed(package, "--ctrl-tarfile")[0].items()}
    if read != {file: file in SCRIPTS for file in ("control", "md5sums", *READ.get(name, []))}:
        yield f"{name}: dpkg reads {read}"
    members = run("ar", "t", package).output.decode().split()
    if members != ["debian-binary", "control.tar.xz", "data.tar.xz"]:
        yield f"{name}: {members}"


def least_glibc(name):
    """The least version of glibc that has what is linked in a package, as nm names it."""
    said = run("nm", "-D", "--", RELEASE / LINKED[name]).output.decode() if name in LINKED else ""
    return max((tuple(map(int, found.split("."))) for found in re.findall(r"@GLIBC_([0-9.]+)", said)), default=())


def flaws(package, maker, version):
    """What dpkg, apt or another program finds otherwise in a package of this maker than the tables above say."""
    rows = dict(re.findall(r"^([\w-]+): (.*)$", run("dpkg-deb", "--field", package).output.decode(), re.MULTILINE))
    name = rows["Package"]
    told = {field: rows[field] for field in RELATIONS if field in rows}
    wanted = {**FIELDS[name], "Maintainer": maker, "Version": version, "Priority": "optional"}
    glibc = ".".join(map(str, least_glibc(name)))
    wanted = {field: text.replace("VERSION", version).replace("GLIBC", glibc) for field, text in wanted.items()}
    yield from (f"{name}: {field} is {told.get(field)}" for field in sorted({*told, *wanted}) if told.get(field) != wanted.get(field))
    part, what = SAYS[name]
    says = DESCRIPTION.format(part) + (f" .\n This package has {what}\n" if what else "")
    if run("dpkg-deb", "--field", package, "Description").output.decode() != says:
        yield f"{name}: it says of itself {run('dpkg-deb', '--field', package, 'Description').output.decode()}"
    yield from strange(package, name, version)


def begin(system):
    """Begins a system that has nothing but what the packages need of it, by the table of this machine's. Returns what that lacks."""
    table, lacking = system / "var/lib/dpkg", []
    for name in ("info", "updates"):
        (table / name).mkdir(parents=True)
    with open(table / "status", "wb") as status:
        for package in (*BASE, *FLEET):
            row, name = run("dpkg-query", "--status", package), run("dpkg-query", "--show", "--showformat", "${binary:Package}", package)
            if row.fault or name.fault:
                lacking.append(package)
                continue
            status.write(row.output + b"\n")
            for ending in ("list", "md5sums"):
                (table / "info" / f"{name.output.decode()}.{ending}").touch()
    return lacking


def unkept(package):
    """The files of a package that are in /etc, and are not among its conffiles, or the other way round."""
    told = run("dpkg-deb", "--contents", package).output.decode().splitlines()
    files = {line.split()[-1][1:] for line in told if re.search(r" \./etc/.*[^/]$", line)}
    kept = run("dpkg-deb", "--info", package, "conffiles")  # (which fails where there are none)
    return sorted(files ^ set([] if kept.fault else kept.output.decode().splitlines()))


def file_of(package, name):
    """What a file of a package has."""
    return run("sh", "-c", 'dpkg-deb --fsys-tarfile "$1" | tar -xO "./$2"', "sh", package, name).output


def dates(package):
    """The times of a package's files, and of its changelog."""
    for line in run("dpkg-deb", "--contents", package, env={**os.environ, "TZ": "UTC0"}).output.decode().splitlines():
        yield " ".join(line.split()[3:5])
    folder = FOLDER / f"contents of {package.stem}"
    run("dpkg-deb", "--extract", package, folder)
    [changelog] = folder.glob("usr/share/doc/*/changelog.gz")
    yield gzip.decompress(changelog.read_bytes()).decode().splitlines()[-1].partition(">  ")[2]


def make_tools():
    """Makes the tools that scripts of packages call, which write down their calls."""
    TOOLS.mkdir()
    for name in ("py3compile", "py3clean", "systemd-sysusers", "deb-systemd-helper", "deb-systemd-invoke", "systemctl"):
        # (where no systemd answers, systemctl fails)
        (TOOLS / name).write_text(f'#!/bin/sh\necho "${{0##*/}} $*" >>{shlex.quote(str(CALLS))}\n[ "${{0##*/}}" != systemctl ]\n')
        (TOOLS / name).chmod(0o755)


def misled(package):
    """The scripts of the fleet's package that do otherwise than `DONE` says. What stands in for /run/systemd/system is a folder, or none."""
    folder = FOLDER / "scripts"
    run("dpkg-deb", "--control", package, folder)
    for name, word, where, calls in DONE:
        running = TOOLS if where != "without systemd" else TOOLS / "none"
        script = (folder / name).read_text().replace("/run/systemd/system", str(running))
        settings = {"PATH": f"{TOOLS}:/usr/bin:/bin" if where != "without tools" else "/none"}
        settings |= {"DPKG_ROOT": "/other"} if where == "below another root" else {}
        ended = run("/bin/sh", "-c", script, name, word, env=settings)
        told = CALLS.read_text().splitlines() if CALLS.exists() else []
        CALLS.unlink(missing_ok=True)
        if (ended.fault, told) != (None, calls):
            yield f"{name} {word} {where}: {ended.status}, {told}"


def dpkg(system, *words):
    """Runs dpkg on the system. The scripts of its packages run outside of it, with the tools that write down their calls."""
    settings = {"PATH": f"{TOOLS}:/usr/sbin:/usr/bin:/sbin:/bin", "LC_ALL": "C"}
    return run("dpkg", f"--root={system}", "--force-not-root", "--force-script-chrootless", *words, env=settings)
