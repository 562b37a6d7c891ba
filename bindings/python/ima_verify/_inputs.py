"""What callers give, and what of it crosses to the library."""

from collections.abc import Iterable
from dataclasses import KW_ONLY, dataclass
from enum import Enum
from typing import Any, TypeAlias

from ._errors import Misuse
from ._library import BY_EXPECTED, BY_QUOTE, Buffer


class Nothing(Enum):
    """The type of `NOTHING`, which `require` is if no PCR has to be among the expected ones."""

    NOTHING = "none"

    def __repr__(self) -> str:
        return f"ima_verify.{self.name}"


NOTHING = Nothing.NOTHING

Text: TypeAlias = Buffer | str
Required: TypeAlias = str | Nothing
Known: TypeAlias = Iterable[Text]


@dataclass(frozen=True, slots=True, repr=False)
class Quote:
    """A quote with its signature and the list that it covers, by which `boot` and `events` find
    what is confirmed. The members are as the arguments of `attest`."""

    key: Text | None
    quote: Buffer
    signature: Buffer | None
    measurements: Buffer
    _: KW_ONLY
    nonce: Buffer | None = None
    nonce_hex: str | None = None
    require: str
    allow_sha1: bool = False
    signature_checked: bool | None = None


def bytes_of(name: str, data: Buffer) -> Buffer:
    """An argument of bytes. The error for another says which argument it is."""
    try:
        memoryview(data).release()
    except TypeError:
        raise TypeError(f"{name} takes bytes, and not {data!r:.80}") from None
    return data


def text_of(name: str, text: Text) -> Buffer:
    """An argument of text, as bytes."""
    if isinstance(text, str):
        return text.encode("utf-8", "surrogatepass")
    return bytes_of(name, text)


def copy_of(name: str, text: Text) -> bytes:
    """A copy of an argument of text or bytes."""
    return memoryview(text_of(name, text)).tobytes()


def flag_of(name: str, value: bool) -> bool:
    """An argument that is True or False."""
    if not isinstance(value, bool):
        raise TypeError(f"{name} takes True or False, and not {value!r:.80}")
    return value


def log_of(log: Buffer, hcrtm: bool) -> dict[str, Any]:
    """The arguments of a firmware event log, and whether its H-CRTM event tells where it began."""
    return {"log": bytes_of("log", log), "hcrtm": flag_of("hcrtm", hcrtm)}


def bound_log(log: Buffer, hcrtm: bool, old_kernel: bool) -> dict[str, Any]:
    """The same, and whether a boot aggregate of it is taken as kernels before 5.8 make it."""
    return {**log_of(log, hcrtm), "old_kernel": flag_of("old_kernel", old_kernel)}


def some_bytes(data: Buffer) -> Buffer:
    """These bytes; in place of none a zero, which is refused as what is cut short. (To the library
    no bytes of a state, a key or a signature mean that there is none.)"""
    return data if memoryview(data).nbytes else bytes(1)


def required(require: Required) -> Buffer:
    """The text of what is required. (A caller does not give the library's word for nothing.)"""
    if require is NOTHING:
        return Nothing.NOTHING.value.encode()
    if not isinstance(require, str):
        raise TypeError(f"require takes a str or ima_verify.NOTHING, and not {require!r:.80}")
    if require == Nothing.NOTHING.value:
        raise Misuse("require takes a selection such as sha256:0-10, or ima_verify.NOTHING")
    return text_of("require", require)


def known_files(known: Known | None) -> dict[str, Any]:
    """The arguments of known files: their texts as one, in which each ends its last line."""
    if known is None:
        return {}
    if isinstance(known, (str, bytes, bytearray, memoryview)):
        raise TypeError("known takes an iterable of texts, such as [text], and not one text")
    texts = [copy_of("each of known", text) for text in known]
    lines = (text if text[-1:] in (b"", b"\n") else text + b"\n" for text in texts)
    return {"known": b"".join(lines), "checks_known": True}


def judged(
    measurements: Buffer, expected: Text, require: Required, known: Known | None = None
) -> dict[str, Any]:
    """The arguments of a list, and of what it is judged by."""
    return {
        "list": bytes_of("measurements", measurements), "expected": text_of("expected", expected),
        "require": required(require), **known_files(known), "json": True,
    }


def quoted(quote: Quote) -> dict[str, Any]:
    """The arguments of a quote, without the list."""
    if not isinstance(quote.require, str):
        raise TypeError(f"require takes a str, and not {quote.require!r:.80}")
    return {
        "message": bytes_of("quote", quote.quote), **_signing(quote), **_nonce(quote),
        "require": text_of("require", quote.require),
        "allow_sha1": flag_of("allow_sha1", quote.allow_sha1),
    }


def _signing(quote: Quote) -> dict[str, Any]:
    """The arguments of a key and a signature, or the word of the caller that stands for them."""
    key, signature, checked = quote.key, quote.signature, quote.signature_checked
    if key is None and signature is None and isinstance(checked, bool):
        return {"signature_checked": checked}
    if key is None or signature is None or checked is not None:
        raise TypeError("key and signature are given, or None for both and signature_checked")
    signed = some_bytes(bytes_of("signature", signature))
    return {"key": some_bytes(text_of("key", key)), "signature": signed}


def _nonce(quote: Quote) -> dict[str, Any]:
    """The argument of a nonce, which is given as bytes or by its hexadecimal digits."""
    if (quote.nonce is None) == (quote.nonce_hex is None):
        raise TypeError("nonce or nonce_hex is given, and not both")
    if quote.nonce is not None:
        return {"nonce": bytes_of("nonce", quote.nonce)}
    if not isinstance(quote.nonce_hex, str):
        raise TypeError(f"nonce_hex takes a str, and not {quote.nonce_hex!r:.80}")
    return {"nonce_hex": text_of("nonce_hex", quote.nonce_hex)}


def confirming(
    expected: Text | None, quote: Quote | None, old_kernel: bool
) -> dict[str, Any]:
    """The arguments of what tells which PCRs match: the expected ones, a quote, or nothing. (Only
    by a quote a boot aggregate is looked at.)"""
    if flag_of("old_kernel", old_kernel) and quote is None:
        raise TypeError("old_kernel is for a quote")
    if expected is not None and quote is not None:
        raise TypeError("expected or quote is given, and not both")
    if quote is not None:
        if not isinstance(quote, Quote):
            raise TypeError(f"quote takes an ima_verify.Quote, and not {quote!r:.80}")
        measurements = bytes_of("measurements", quote.measurements)
        return {"by": BY_QUOTE, "list": measurements, **quoted(quote)}
    if expected is not None:
        return {"by": BY_EXPECTED, "expected": text_of("expected", expected)}
    return {}
