//! What verdicts are asked for.

use crate::Error;
use ima_verify_sys as c;

/// A requirement that names no PCR. The verdict is a match only if some PCR was compared.
pub const NOTHING_REQUIRED: &str = "none";

/// A firmware event log. Calls take its bytes, or this.
#[derive(Debug, Clone, Copy, PartialEq, Eq)]
pub struct Log<'a> {
    pub(crate) bytes: &'a [u8],
    pub(crate) hcrtm: bool,
}

impl<'a> Log<'a> {
    /// A log whose event EV_EFI_HCRTM_EVENT in PCR 0 tells that PCR 0 began at 4, if no event tells a locality (TPM 2.0 Library, part 1, 34.3).
    pub fn hcrtm(bytes: &'a [u8]) -> Self {
        Self { bytes, hcrtm: true }
    }
}

impl<'a, T: AsRef<[u8]> + ?Sized> From<&'a T> for Log<'a> {
    fn from(bytes: &'a T) -> Self {
        Self { bytes: bytes.as_ref(), hcrtm: false }
    }
}

/// What a verdict requires: PCRs that must be among the expected ones, and maybe that each file is known; and whether an older kernel's boot
/// aggregate is taken.
#[derive(Debug, Clone, Copy)]
pub struct Required<'a> {
    pub(crate) registers: &'a str,
    pub(crate) known: Option<&'a [&'a [u8]]>,
    pub(crate) old_kernel: bool,
}

impl<'a> Required<'a> {
    /// These PCRs, and that each entry but the boot aggregate is of a known file: one whose digest these texts have, as sha256sum, sha384sum and
    /// sha512sum print them. The verdict has the others in `unknown`. Without a text no file is known. An error counts the lines of all texts.
    pub fn known(registers: &'a str, texts: &'a [&'a [u8]]) -> Self {
        Self { registers, known: Some(texts), old_kernel: false }
    }

    /// A boot aggregate over PCRs 0 to 7 is taken, as kernels before 5.8 make it: [`BootAggregate::OldKernel`](crate::BootAggregate::OldKernel).
    /// With [`NOTHING_REQUIRED`] none is taken.
    pub fn old_kernel(self) -> Self {
        Self { old_kernel: true, ..self }
    }
}

/// These PCRs, such as `sha256:0-10`, no known files, and no older kernel.
impl<'a, T: AsRef<str> + ?Sized> From<&'a T> for Required<'a> {
    fn from(registers: &'a T) -> Self {
        Self { registers: registers.as_ref(), known: None, old_kernel: false }
    }
}

/// Texts one after another, each with a line feed at its end.
pub(crate) fn lines_of(texts: &[&[u8]]) -> Vec<u8> {
    let mut lines = Vec::with_capacity(texts.iter().map(|text| text.len() + 1).sum());
    for text in texts {
        lines.extend_from_slice(text);
        if text.last().map_or(false, |last| *last != b'\n') {
            lines.push(b'\n');
        }
    }
    lines
}

/// The verifier's own nonce for a quote, used once: 16 random bytes or more.
#[derive(Debug, Clone, Copy, PartialEq, Eq)]
#[non_exhaustive]
pub enum Nonce<'a> {
    /// The bytes.
    Bytes(&'a [u8]),
    /// Hexadecimal digits that spell them, as `openssl rand -hex 20` writes them: a line feed may follow.
    Hex(&'a str),
}

/// A quote, and what a verdict by it needs.
#[derive(Debug, Clone, Copy)]
#[must_use]
pub struct Quote<'a> {
    pub(crate) signing: Signing<'a>,
    pub(crate) message: &'a [u8],
    pub(crate) nonce: Nonce<'a>,
    pub(crate) require: &'a str,
    pub(crate) allow_sha1: bool,
    pub(crate) old_kernel: bool,
    pub(crate) known: Option<&'a [&'a [u8]]>,
}

impl<'a> Quote<'a> {
    /// No quote.
    const NONE: Self =
        Self { signing: Signing::NotChecked, message: &[], nonce: Nonce::Bytes(&[]), require: "", allow_sha1: false, old_kernel: false, known: None };

    /// A quote with this message: what the TPM signed, a TPMS_ATTEST, the file that `tpm2_quote -m` writes. It must have the nonce, and
    /// select the required PCRs, at least 0 to 10, such as `sha256:0-10`.
    pub fn new(signing: Signing<'a>, message: &'a [u8], nonce: Nonce<'a>, require: &'a str) -> Self {
        Self { signing, message, nonce, require, ..Self::NONE }
    }

    /// PCRs may be required in the SHA-1 bank alone.
    pub fn allow_sha1(self) -> Self {
        Self { allow_sha1: true, ..self }
    }

    /// A boot aggregate over PCRs 0 to 7 is taken, as for [`Required::old_kernel`].
    pub fn old_kernel(self) -> Self {
        Self { old_kernel: true, ..self }
    }

    /// Entries must be of these known files, as for [`Required::known`]. In a session they replace its own.
    pub fn known(self, texts: &'a [&'a [u8]]) -> Self {
        Self { known: Some(texts), ..self }
    }

    /// Message, key, signature, nonce, a nonce's digits, and requirement, as the library takes them: one that is not given is empty.
    pub(crate) fn parts(&self) -> [&'a [u8]; 6] {
        let (key, signature) = match self.signing {
            Signing::ByKey { key, signature } => (some_bytes(key), some_bytes(signature)),
            Signing::ByCaller | Signing::NotChecked => (&[][..], &[][..]),
        };
        let (nonce, nonce_hex) = match self.nonce {
            Nonce::Bytes(bytes) => (bytes, &[][..]),
            Nonce::Hex(digits) => (&[][..], digits.as_bytes()),
        };
        [self.message, key, signature, nonce, nonce_hex, self.require.as_bytes()]
    }

    pub(crate) fn is_checked(&self) -> bool {
        self.signing == Signing::ByCaller
    }
}

/// These bytes, or in place of none, which the library takes as no key, no signature or no state, a zero. It is refused for the same reason:
/// it ends too early.
pub(crate) fn some_bytes(bytes: &[u8]) -> &[u8] {
    if bytes.is_empty() {
        &[0]
    } else {
        bytes
    }
}

/// By what the message of a quote is known to be signed by the machine's attestation key.
#[derive(Debug, Clone, Copy, PartialEq, Eq)]
#[non_exhaustive]
pub enum Signing<'a> {
    /// By a signature, which is verified.
    ByKey {
        /// The public area for which a credential was activated, or the PEM that [`read_key`](crate::read_key) gives for it. The key is of RSA
        /// with 2048 to 4096 bits, or of the curve P-256 or P-384.
        key: &'a [u8],
        /// The file that `tpm2_quote -s` writes, with `-f plain` or without: RSASSA, RSAPSS or ECDSA, by SHA-256, SHA-384 or SHA-512.
        signature: &'a [u8],
    },
    /// By the word of the caller, which has verified the signature of this message: for a key that is not taken, such as one on P-521.
    ByCaller,
    /// Nobody has verified its signature. There is no match.
    NotChecked,
}

/// What shows which PCRs have the values that a firmware event log gives them, so that they confirm its events.
#[derive(Debug, Clone, Copy)]
#[non_exhaustive]
pub enum Evidence<'a> {
    /// The text of expected PCRs, as [`verify`](crate::verify) takes it.
    Expected(&'a [u8]),
    /// A quote. It confirms events of the PCRs that it requires, if [`attest`](crate::attest) finds a match for the log, this list and the quote.
    Quote {
        /// The measurement list.
        list: &'a [u8],
        /// The quote. One with known files, which have no part in this, is refused with [`Kind::Argument`](crate::Kind::Argument).
        quote: Quote<'a>,
    },
}

/// The arguments of a call that takes evidence.
pub(crate) struct Shown<'a> {
    /// The library's number for the kind of evidence.
    pub(crate) by: u32,
    pub(crate) expected: &'a [u8],
    pub(crate) list: &'a [u8],
    pub(crate) quote: Quote<'a>,
}

impl<'a> Evidence<'a> {
    pub(crate) fn shown(self) -> Result<Shown<'a>, Error> {
        match self {
            Self::Expected(expected) => Ok(Shown { by: c::IMA_VERIFY_BY_EXPECTED, expected, list: &[], quote: Quote::NONE }),
            Self::Quote { quote, .. } if quote.known.is_some() => Err(Error::argument()),
            Self::Quote { list, quote } => Ok(Shown { by: c::IMA_VERIFY_BY_QUOTE, expected: &[], list, quote }),
        }
    }
}
