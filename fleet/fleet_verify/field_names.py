"""Words for what the program says in numbers: PCRs, GUIDs and load options."""

from typing import Any, Dict, Iterable, List, Optional

# docs/layouts.txt, 'PCRs that have a name'
PCR_NAMES = {
    0: "platform-code", 1: "platform-config", 2: "external-code", 3: "external-config", 4: "boot-loader-code", 5: "boot-loader-config",
    6: "host-platform", 7: "secure-boot-policy", 9: "kernel-initrd", 10: "ima", 11: "kernel-boot", 12: "kernel-config", 13: "sysexts",
    14: "shim-policy", 15: "system-identity", 16: "debug", 23: "application-support",
}

# UEFI, 'Globally Defined Variables', 'UEFI Image Variables', 'EFI_SIGNATURE_LIST' and 'GPT'; shim; the GUID below which Microsoft publishes keys.
# Whoever writes a variable chooses its GUIDs.
GUIDS = {
    "8be4df61-93ca-11d2-aa0d-00e098032b8c": "variables that UEFI defines",
    "d719b2cb-3d3a-4596-a3bc-dad00e67656f": "keys of Secure Boot",
    "605dab50-e046-4300-abb6-3dd810dd8b23": "shim",
    "a5c059a1-94e4-4aa7-87b5-ab155c2bf072": "X.509 certificates",
    "c1c41626-504c-4092-aca9-41f936934328": "SHA-256 hashes",
    "77fa9abd-0359-4d32-bd60-28f4e78f784b": "the GUID that Microsoft uses",
    "c12a7328-f81f-11d2-ba4b-00a0c93ec93b": "EFI system partition",
    "0fc63daf-8483-4772-8e79-3d69d8477de4": "Linux file system",
}
_WITH_GUIDS = ("guid", "type", "owner", "owners")

# UEFI, 'Load Options'
_ATTRIBUTES = {0x1: "active", 0x2: "reconnects all drivers", 0x8: "hidden"}
_CATEGORY, _CATEGORIES = 0x1F00, {0: "a boot option", 0x100: "an application"}

def pcr(number: int) -> str:
    """The number of a PCR, with its name, if it has one."""
    return f"{number} ({PCR_NAMES[number]})" if number in PCR_NAMES else str(number)


def pcrs(numbers: Iterable[int]) -> str:
    """PCRs by number: one with its name, several in the form of a selection."""
    runs: List[List[int]] = []
    for number in sorted(numbers):
        if runs and runs[-1][-1] == number - 1:
            runs[-1].append(number)
        else:
            runs.append([number])
    if len(runs) == 1 and len(runs[0]) == 1:
        return f"PCR {pcr(runs[0][0])}"
    return "PCRs " + ", ".join(str(run[0]) if len(run) == 1 else f"{run[0]}-{run[-1]}" for run in runs)


def in_words(value: Any, name: Optional[str] = None) -> Any:
    """What the data of an event says, with words behind GUIDs and the attributes of load options."""
    if isinstance(value, list):
        return [in_words(each, name) for each in value]
    if isinstance(value, dict):
        return {each: _option(inner) if each == "option" else in_words(inner, each) for each, inner in value.items()}
    return f"{value} ({GUIDS[value]})" if name in _WITH_GUIDS and isinstance(value, str) and value in GUIDS else value


def _option(option: Any) -> Any:
    """A load option whose attributes are words."""
    if not isinstance(option, dict) or type(option.get("attributes")) is not int:
        return option
    return {**option, "attributes": attributes(option["attributes"])}


def attributes(bits: int) -> str:
    """The attributes of a load option. Bits that UEFI does not define stay a number."""
    words: Dict[int, str] = {bit: word for bit, word in _ATTRIBUTES.items() if bits & bit}
    rest, category = bits & ~sum(words) & ~_CATEGORY, bits & _CATEGORY
    said = ["not active"] * (not bits & 1) + [*words.values(), _CATEGORIES.get(category, f"category {category:#x}")]
    return f"{bits}: {', '.join([*said, *([f'{rest:#x}'] if rest else [])])}"
