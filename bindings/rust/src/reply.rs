//! Reads what the library gives to a call. The verdict is its status; a text that does not fit the status is `Unexpected`.

use crate::library::{error_text, Info, DIFFERS, DONE, MORE, OUT_OF_MEMORY, REFUSED};
use crate::results::{Judgement, Line, Refusal};
use crate::{Boot, Error, Kind, Outcome};
use ima_verify_sys as c;
use serde::de::DeserializeOwned;

/// What the library gives to a call: a result, what it reports of an error, a next state, and a text.
#[derive(Debug)]
pub(crate) struct Reply {
    pub(crate) result: i32,
    pub(crate) info: Info,
    pub(crate) next: Vec<u8>,
    pub(crate) text: Vec<u8>,
}

impl Reply {
    /// The reply, or the error that it reports.
    pub(crate) fn accepted(self) -> Result<Self, Error> {
        match (self.result, self.info.error_kind) {
            (DONE | DIFFERS | MORE, c::IMA_VERIFY_NO_ERROR) => Ok(self),
            (REFUSED, kind) if kind != c::IMA_VERIFY_NO_ERROR => Err(self.refusal().unwrap_or_else(|| self.unexpected())),
            (OUT_OF_MEMORY, c::IMA_VERIFY_MEMORY) => Err(Error::OutOfMemory),
            _ => Err(self.unexpected()),
        }
    }

    /// The error, whose text is a line, or JSON that has it.
    fn refusal(&self) -> Option<Error> {
        let line = if self.text.starts_with(b"{") {
            object::<Refusal>(&self.text)?.fault.message
        } else {
            std::str::from_utf8(&self.text).ok()?.strip_suffix('\n')?.to_owned()
        };
        Some(refused(&self.info, line))
    }

    /// What the reply's line says of inputs, with the library's verdict: its status, which the line has to agree with.
    pub(crate) fn judged<T: Line>(&self) -> Result<T, Error> {
        let says_match = object(&self.text).map(|says: Judgement| says.located.unwrap_or(says.verdict == Some(Outcome::Match)));
        match (self.result, says_match) {
            (DONE, Some(true)) | (DIFFERS, Some(false)) => line(&self.text, self.result == DONE).ok_or_else(|| self.unexpected()),
            _ => Err(self.unexpected()),
        }
    }

    /// The reply's line, which judges nothing.
    pub(crate) fn line<T: Line>(&self) -> Result<T, Error> {
        line(&self.text, false).filter(|_| self.result == DONE).ok_or_else(|| self.unexpected())
    }

    /// The lines of expected PCRs, with no more memory than they need.
    pub(crate) fn lines(&self) -> Result<Vec<u8>, Error> {
        let is_whole = self.result == DONE && self.text.ends_with(b"\n");
        is_whole.then(|| self.text.clone()).ok_or_else(|| self.unexpected())
    }

    /// Whether the evidence is a quote whose verdict is no match.
    pub(crate) fn quote_differs(&self) -> Result<bool, Error> {
        match self.result {
            DONE | DIFFERS => Ok(self.result == DIFFERS),
            _ => Err(self.unexpected()),
        }
    }

    /// What the reply's lines say of a boot.
    pub(crate) fn boot(&self) -> Result<Boot, Error> {
        Boot::read(&self.text, self.quote_differs()?).ok_or_else(|| self.unexpected())
    }

    pub(crate) fn unexpected(&self) -> Error {
        Error::unexpected(self.result, &self.text)
    }
}

/// The error that is reported with this line, in the library's words.
pub(crate) fn refused(info: &Info, line: String) -> Error {
    let place = Some(info.error_place).filter(|place| *place != c::IMA_VERIFY_NO_PLACE);
    let text = error_text(info).unwrap_or_else(|| line.clone());
    Error::Refused { kind: kind_of(info.error_kind), number: info.error_number.into(), place, text, line }
}

fn kind_of(number: u32) -> Kind {
    match number {
        c::IMA_VERIFY_ARGUMENT => Kind::Argument,
        c::IMA_VERIFY_LOG => Kind::Log,
        c::IMA_VERIFY_LIST => Kind::List,
        c::IMA_VERIFY_REPLAY => Kind::Replay,
        c::IMA_VERIFY_EXPECTED => Kind::Expected,
        c::IMA_VERIFY_CHECKPOINT => Kind::Checkpoint,
        c::IMA_VERIFY_QUOTE => Kind::Quote,
        c::IMA_VERIFY_KEY => Kind::Key,
        c::IMA_VERIFY_KNOWN => Kind::Known,
        c::IMA_VERIFY_SIGNATURE => Kind::Signature,
        c::IMA_VERIFY_TEXT_LIST => Kind::TextList,
        c::IMA_VERIFY_LOG_FORM => Kind::LogForm,
        later => Kind::Other(later.to_string()),
    }
}

/// What the line has that a text is.
pub(crate) fn line<T: Line>(text: &[u8], matches: bool) -> Option<T> {
    let mut found: T = object(text)?;
    found.keep(std::str::from_utf8(text).ok()?.strip_suffix('\n')?.to_owned(), matches);
    Some(found)
}

/// The object of a line, which ends with its only line feed.
pub(crate) fn object<T: DeserializeOwned>(line: &[u8]) -> Option<T> {
    let text = line.strip_suffix(b"\n").filter(|text| text.starts_with(b"{") && !text.contains(&b'\n'))?;
    serde_json::from_slice(text).ok()
}
