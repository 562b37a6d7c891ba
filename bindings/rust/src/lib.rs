//! Do a machine's boot log and measurement list account for the PCRs of its TPM 2.0?
//!
//! A firmware event log (TCG, crypto-agile) and a binary measurement list of Linux IMA are replayed, and the resulting PCRs are compared with
//! expected ones. On the machine the files are `/sys/kernel/security/tpm0/binary_bios_measurements` and
//! `/sys/kernel/security/ima/binary_runtime_measurements`. The expected PCRs are text, a line for each, such as `sha256 10 <64 hexadecimal digits>`.
//!
//! ```
//! # fn main() -> Result<(), Box<dyn std::error::Error>> {
//! # let sample = |name| std::fs::read(format!("samples/{name}"));
//! # let (log, list, expected) = (sample("firmware.log")?, sample("ima.list")?, sample("expected.txt")?);
//! let verdict = ima_verify::verify(&log, &list, &expected, "sha256:0-10")?;
//! assert!(verdict.matches && verdict.registers.len() == 11);
//! # Ok(())
//! # }
//! ```
//!
//! A verdict covers only the boot aggregate and the PCRs in the expected text. So each call says which PCRs it must cover, as here. With such a
//! requirement a verdict is a match only if no event of the log extends PCR 10 and each entry of the list names it. [`attest`] judges by a quote in
//! place of expected PCRs. A [`Session`] is for a list that grows. [`boot`] says what the machine booted. `docs/library.md` has examples.
//!
//! What is refused is an [`Error::Refused`]. Any call may give one of the other errors. Any number of threads may call at once.

#![deny(missing_docs)]

mod boot;
mod error;
mod library;
mod lines;
mod reply;
mod request;
mod results;
mod session;
mod words;

pub use boot::Boot;
pub use error::Error;
pub use lines::{Entries, Events};
pub use request::{Evidence, Log, Nonce, Quote, Required, Signing, NOTHING_REQUIRED};
pub use results::*;
pub use session::Session;
pub use words::*;

#[cfg(test)]
mod tests;

/// The examples of the page are compiled.
#[cfg(doctest)]
#[doc = include_str!("../README.md")]
struct Readme;

use library::{ask, Grown, Out};
use request::lines_of;

/// The version of the library's interface.
#[must_use]
pub fn version() -> u32 {
    library::version()
}

/// The verdict on a firmware event log, a measurement list and the expected PCRs that a text states.
///
/// `require` names the PCRs that must be among the expected ones, such as `sha256:0-10` or `sha256:0-7,sha1:10`, or it is a [`Required`] with known
/// files, or for an older kernel. One that is not has a row whose state is [`State::Missing`]. A requirement without PCR 10 is refused, except [`NOTHING_REQUIRED`].
pub fn verify<'a>(log: impl Into<Log<'a>>, list: &[u8], expected: &[u8], require: impl Into<Required<'a>>) -> Result<Verdict, Error> {
    let Required { registers, known, old_kernel } = require.into();
    let known = known.map(lines_of);
    let inputs = Grown { log: log.into(), old_kernel, state: &[], more: list, known: known.as_deref(), prefix: false };
    ask(Out::for_text()?, |out| library::verdict(&inputs, expected, registers, out))?.judged()
}

/// The verdict on a firmware event log and a measurement list by a quote with its signature. No file of PCR values is needed.
///
/// # Errors
///
/// [`Error::Refused`] with [`Kind::Signature`], [`Kind::Key`] or [`Kind::Quote`] for what the quote has, and with [`Kind::Argument`] for a
/// requirement that leaves out one of the PCRs 0 to 10, or names one in the SHA-1 bank alone, and for a nonce that is too short or not hexadecimal.
pub fn attest<'a>(log: impl Into<Log<'a>>, list: &[u8], quote: &Quote<'_>) -> Result<Attestation, Error> {
    let known = quote.known.map(lines_of);
    let inputs = Grown { log: log.into(), old_kernel: quote.old_kernel, state: &[], more: list, known: known.as_deref(), prefix: false };
    session::attested(&inputs, quote)?.judged()
}

/// Where each expected PCR first has its value. The arguments are as in [`verify`], without known files.
pub fn locate<'a>(log: impl Into<Log<'a>>, list: &[u8], expected: &[u8], require: &str) -> Result<Places, Error> {
    let log = log.into();
    ask(Out::for_text()?, |out| library::locate(log, list, expected, require, out))?.judged()
}

/// The verdict on a measurement list without a log, and the expected PCRs that a text states.
///
/// The list is replayed from the PCRs' reset values, so a PCR that the firmware extends too differs. `require` is as in [`verify`], but
/// for an older kernel, of which no boot aggregate is looked at, it is refused with [`Kind::Argument`]. A list without entries is no match.
pub fn replay<'a>(list: &[u8], expected: &[u8], require: impl Into<Required<'a>>) -> Result<ListVerdict, Error> {
    let Required { registers, known, old_kernel } = require.into();
    if old_kernel {
        return Err(Error::argument());
    }
    let known = known.map(lines_of);
    ask(Out::for_text()?, |out| library::replay(list, expected, registers, known.as_deref(), out))?.judged()
}

/// The lines of expected PCRs, as [`verify`] takes them, that a text which tpm2_pcrread or tpm2_checkquote printed states: of the PCRs
/// that a selection has, such as `sha256:0-10` or `0-7,10`, or of all.
///
/// Anyone can write such a text, and it does not say whether a quote holds: take the values of a quote that was checked, or of a trusted machine.
pub fn expected(printed: &[u8], registers: Option<&str>) -> Result<Vec<u8>, Error> {
    ask(Out::for_text()?, |out| library::expected(printed, registers.unwrap_or_default(), out))?.lines()
}

/// The binary list of a measurement list as text, such as the kernel's `ascii_runtime_measurements`. Only a text is taken that has exactly the lines
/// of genuine entries; another is refused with [`Kind::TextList`].
pub fn convert_list(text: &[u8]) -> Result<Vec<u8>, Error> {
    Ok(converted(text, ima_verify_sys::IMA_VERIFY_CONVERT_LIST)?.0)
}

/// The crypto-agile log of a log in the SHA-1 form of TPM 1.2, or of one with zeros or bytes 0xFF behind its last event, and how many these were.
/// Another is refused with [`Kind::LogForm`]. A log by SHA-1 is worth nothing against whoever can make collisions.
pub fn convert_log(log: &[u8]) -> Result<(Vec<u8>, usize), Error> {
    converted(log, ima_verify_sys::IMA_VERIFY_CONVERT_LOG)
}

fn converted(bytes: &[u8], conversion: u32) -> Result<(Vec<u8>, usize), Error> {
    let mut padding = usize::MAX;
    let reply = ask(Out::for_text()?, |out| library::convert(bytes, conversion, &mut padding, out))?;
    if reply.result != library::DONE || padding > bytes.len() {
        return Err(reply.unexpected());
    }
    Ok((reply.text, padding))
}

/// The PCRs that differ from their reset values after a firmware event log.
pub fn registers<'a>(log: impl Into<Log<'a>>) -> Result<Registers, Error> {
    let log = log.into();
    ask(Out::for_text()?, |out| library::registers(log, false, out))?.line()
}

/// The PCRs, in banks of all algorithms, that differ from their reset values after a measurement list without a log.
pub fn list_registers(list: &[u8]) -> Result<Registers, Error> {
    ask(Out::for_text()?, |out| library::registers(list.into(), true, out))?.line()
}

/// The attestation key of a public area: a TPM2B_PUBLIC, the file that `tpm2_createak -u` writes, or a bare TPMT_PUBLIC.
///
/// The key is restricted, never leaves the TPM that made it, signs, and does not decrypt. Whose TPM it is in, the area does not say, and anyone can
/// write one. Take the area, or its PEM, for [`attest`] only after a credential for its name was activated, as `ima-enroll` does.
///
/// ```
/// # fn main() -> Result<(), Box<dyn std::error::Error>> {
/// let key = ima_verify::read_key(&std::fs::read("samples/AK.pub")?)?;
/// assert_eq!((key.key_type, key.bits, key.scheme), (ima_verify::KeyType::Ecc, 256, ima_verify::Scheme::Ecdsa));
/// # Ok(())
/// # }
/// ```
pub fn read_key(area: &[u8]) -> Result<Key, Error> {
    ask(Out::for_text()?, |out| library::key(area, false, out))?.line()
}

/// The endorsement key of a public area, to which credentials are made: the file that `tpm2_createek -u` writes.
///
/// The key is restricted, never leaves the TPM that made it, decrypts, and does not sign. Nor does its area say whose it is: compare
/// the PEM with the key of a certificate by the TPM's manufacturer.
pub fn read_endorsement_key(area: &[u8]) -> Result<Key, Error> {
    ask(Out::for_text()?, |out| library::key(area, true, out))?.line()
}

/// The entries of a measurement list, one after another. No entry says that the list is the machine's, as [`verify`] does.
///
/// For a damaged list the iterator gives the entries before the error, then the [`Error::Refused`] that says where it is, and then
/// nothing. A loop that ends early does not come to the error.
pub fn entries(list: &[u8]) -> Entries<'_> {
    Entries(lines::Lines::of(list, None, library::entries))
}

/// The events of a firmware event log after its header, one after another. A log that is damaged after the header ends as for [`entries`].
pub fn events(log: &[u8]) -> Result<Events<'_>, Error> {
    Events::of(log, None)
}

/// The events of a firmware event log as from [`events`], each with the part of its data that PCRs confirm, by this evidence. The whole log and
/// the evidence are read before the first event, with errors as of [`verify`] and [`attest`].
pub fn confirmed_events<'a>(log: impl Into<Log<'a>>, evidence: Evidence<'_>) -> Result<Events<'a>, Error> {
    let (log, shown) = (log.into(), evidence.shown()?);
    let matching = ask(Out::for_text()?, |out| library::matching(log, &shown, out))?;
    Events::of(log.bytes, Some(matching))
}

/// What a machine booted, by its firmware event log and as far as PCRs confirm it, and what differs from the log of an earlier boot.
/// Nothing confirms the earlier log. Errors are as of [`confirmed_events`].
pub fn boot<'a>(log: impl Into<Log<'a>>, evidence: Evidence<'_>, before: Option<&[u8]>) -> Result<Boot, Error> {
    let (log, shown) = (log.into(), evidence.shown()?);
    ask(Out::for_text()?, |out| library::boot(log, before, &shown, out))?.boot()
}

/// The entries of a measurement list as text, each in the kernel's form. Paths are as they are: they may have line feeds and control
/// bytes. [`entries`] gives each entry by itself.
pub fn show(list: &[u8]) -> Result<Vec<u8>, Error> {
    lines::Lines::of(list, None, library::texts).text()
}
