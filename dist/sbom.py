#!/usr/bin/env python3
"""Writes what is in a release, and what that was made of, in SPDX 2.3.

dist/sbom.py RELEASE           puts ima-agent.spdx.json beside its pages; the release has everything else but SHA256SUMS
dist/sbom.py --check RELEASE   looks at that of a release; each fault is printed, and the status is 1 if there is one

There are the files with their sums, this project's crates below the program and the library, the kit's crates below these with the
kit's identity, and the C library, which is linked when they are started. The time is SOURCE_DATE_EPOCH."""

import hashlib
import json
import os
import re
import shutil
import subprocess
import sys
import uuid
from datetime import datetime, timezone
from pathlib import Path

from binary import least_glibc, needed_libraries

ROOT = Path(__file__).resolve().parent.parent
DOCUMENT = "share/doc/ima-agent/ima-agent.spdx.json"
LATER = ("SHA256SUMS",)  # (which has the sum of the document itself)
PROGRAM, LIBRARY = "ima_agent_program", "ima_verify_c"
LINKED = "The crate is linked into the program or the library."


def crates_of(root):
    """By name, the crates that each crate of crates.txt stands on."""
    rows = re.findall(r"^(\w+)(?: \w+)?:(.*)$", (root / "crates.txt").read_text(), re.MULTILINE)
    return {name: below.split() for name, below in rows}


def kit_folder():
    return Path(shutil.which("rt") or "/opt/rattle/bin/rt").resolve().parent.parent


def below_of_kit(name):
    """The kit's crates on which one of them stands."""
    return sorted(path.name for path in (kit_folder() / "rlibs" / f"{name}.rlib").glob("below/*"))


def reached(names, below):
    """These crates, and all below them."""
    found, waiting = [], list(names)
    while waiting:
        name = waiting.pop()
        if name not in found:
            found.append(name)
            waiting += below(name)
    return sorted(found)


def package(name, identifier, version, **more):
    return {"name": name, "SPDXID": identifier, "versionInfo": version, "downloadLocation": "NOASSERTION", "filesAnalyzed": False,
            "licenseConcluded": "NOASSERTION", "licenseDeclared": "NOASSERTION", "copyrightText": "NOASSERTION", **more}


def relation(first, kind, second):
    return {"spdxElementId": first, "relationshipType": kind, "relatedSpdxElement": second}


def identifier(kind, name):
    return f"SPDXRef-{kind}-" + re.sub(r"[^A-Za-z0-9.]", "-", name)


def digest(file, algorithm):
    return hashlib.new(algorithm, file.read_bytes()).hexdigest()


def file_entries(release):
    """The files of the release, in the order of their names."""
    names = sorted(str(path.relative_to(release)) for path in release.rglob("*") if path.is_file() and not path.is_symlink())
    return [{"fileName": f"./{name}", "SPDXID": identifier("File", name),
             "checksums": [{"algorithm": kind.upper(), "checksumValue": digest(release / name, kind)} for kind in ("sha1", "sha256")],
             "licenseConcluded": "NOASSERTION", "copyrightText": "NOASSERTION"}
            for name in names if name not in (DOCUMENT, *LATER)]


def verification_code(files):
    sums = sorted(file["checksums"][0]["checksumValue"] for file in files)
    return hashlib.sha1("".join(sums).encode()).hexdigest()


def kit_package(name, version):
    """A crate of the kit, with the names of the licenses that lie beside it."""
    licenses = sorted(path.name for path in (kit_folder() / "rattle" / name).glob("LICENSE*"))
    comment = f"The kit has {', '.join(licenses)} beside it." if licenses else "The kit has no license beside it."
    return package(name, identifier("Kit", name), version, comment=LINKED, licenseComments=comment)


def parts_of(version, kit):
    """The packages below the release, and how they stand on each other."""
    below = crates_of(ROOT)
    ours = reached([PROGRAM, LIBRARY], lambda name: [each for each in below[name] if each in below])
    kits = reached(["std", *(each for name in ours for each in below[name] if each not in below)], below_of_kit)
    packages = [package(name, identifier("Crate", name), version, comment=LINKED) for name in ours]
    packages += [kit_package(name, kit) for name in kits]
    relations = [relation(identifier("Crate", name), "DEPENDS_ON", identifier("Crate" if each in below else "Kit", each))
                 for name in ours for each in ["std", *below[name]]]
    relations += [relation(identifier("Kit", name), "DEPENDS_ON", identifier("Kit", each)) for name in kits for each in below_of_kit(name)]
    relations += [relation("SPDXRef-Kit", "CONTAINS", identifier("Kit", name)) for name in kits]
    return packages, relations


def links_of(release):
    """What the program and the shared library were made of, and what they are linked with when they are started."""
    libraries = sorted((release / "lib").glob("lib*.so.*"))
    binaries = {"bin/ima-agent": PROGRAM, **{str(path.relative_to(release)): LIBRARY for path in libraries}}
    for name, crate in binaries.items():
        yield relation(identifier("File", name), "GENERATED_FROM", identifier("Crate", crate))
        for library in needed_libraries(release / name):
            yield relation(identifier("File", name), "DYNAMIC_LINK", identifier("System", library))


def system_packages(release, links):
    names = sorted({each["relatedSpdxElement"] for each in links if each["relationshipType"] == "DYNAMIC_LINK"})
    files = [release / "bin/ima-agent", *(release / "lib").glob("lib*.so.*")]
    for name in names:
        shown = name[len("SPDXRef-System-"):]
        yield package(shown, name, f"glibc {least_glibc(files)} or later", comment="It is not in the release.")


def document(release):
    version = (ROOT / "VERSION").read_text().strip()
    kit = subprocess.run([kit_folder() / "bin/rt", "version"], stdout=subprocess.PIPE, check=True).stdout.decode().strip()
    files, links = file_entries(release), list(links_of(release))
    packages, relations = parts_of(version, kit)
    code = verification_code(files)
    whole = {**package("ima-agent", "SPDXRef-Package", version), "filesAnalyzed": True, "packageVerificationCode": {
        "packageVerificationCodeValue": code, "packageVerificationCodeExcludedFiles": [f"./{name}" for name in (DOCUMENT, *LATER)]}}
    created = datetime.fromtimestamp(int(os.environ["SOURCE_DATE_EPOCH"]), timezone.utc)
    unique = uuid.uuid5(uuid.NAMESPACE_URL, f"ima-agent {version} {code}")
    return {
        "spdxVersion": "SPDX-2.3", "dataLicense": "CC0-1.0", "SPDXID": "SPDXRef-DOCUMENT", "name": f"ima-agent-{version}",
        "documentNamespace": f"https://spdx.org/spdxdocs/ima-agent-{version}-{unique}",
        "creationInfo": {"created": created.strftime("%Y-%m-%dT%H:%M:%SZ"), "creators": [f"Tool: ima-agent-dist-{version}"]},
        "packages": [whole, package("rattle-kit", "SPDXRef-Kit", kit), *packages, *system_packages(release, links)],
        "files": files,
        "relationships": [
            relation("SPDXRef-DOCUMENT", "DESCRIBES", "SPDXRef-Package"), relation("SPDXRef-Kit", "BUILD_TOOL_OF", "SPDXRef-Package"),
            *(relation("SPDXRef-Package", "CONTAINS", file["SPDXID"]) for file in files), *links, *relations],
    }


def check(folder):
    """What does not hold of the document: the files with their sums, and names that nothing has."""
    told = json.loads((folder / DOCUMENT).read_text())
    sums = {file["fileName"][2:]: file["checksums"][1]["checksumValue"] for file in told["files"]}
    for name, value in sums.items():
        if not (folder / name).is_file() or digest(folder / name, "sha256") != value:
            yield f"{name} is not there, or another"
    listed = re.findall(r"^[0-9a-f]{64}  (.*)$", (folder / "SHA256SUMS").read_text(), re.MULTILINE)
    files = {name for name in listed if not (folder / name).is_symlink()}
    yield from (f"{name} is told by one of both alone" for name in sorted(files ^ {*sums, DOCUMENT}))
    names = [each["SPDXID"] for each in (told, *told["packages"], *told["files"])]
    if len(names) != len(set(names)):
        yield "two things have one name"
    for each in told["relationships"]:
        yield from (f"nothing is called {each[end]}" for end in ("spdxElementId", "relatedSpdxElement") if each[end] not in names)
    kit = re.search(r"^kit (.*)$", (folder / DOCUMENT).with_name("VERSION").read_text(), re.MULTILINE)[1]
    of_kit = {each["name"] for each in told["packages"] if each["SPDXID"].startswith("SPDXRef-Kit-") and each["versionInfo"] == kit}
    needed = {name for names in crates_of(ROOT).values() for name in names} - set(crates_of(ROOT))
    yield from (f"the kit's {name} is not told" for name in sorted(needed - of_kit))


def main():
    if sys.argv[1] != "--check":
        release = Path(sys.argv[1])
        (release / DOCUMENT).write_text(json.dumps(document(release), indent=1) + "\n")
        return 0
    found = list(check(Path(sys.argv[2])))
    print("\n".join(found), end="\n" if found else "")
    return bool(found)


if __name__ == "__main__":
    sys.exit(main())
