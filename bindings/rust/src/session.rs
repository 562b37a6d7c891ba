//! Verdicts on a list that grows.

use crate::library::{self, ask, Grown, Out, DONE};
use crate::reply::Reply;
use crate::request::{lines_of, some_bytes};
use crate::results::Line;
use crate::{Attestation, Error, Log, Quote, Required, Verdict};

/// Verdicts on a measurement list that grows: each is on all of the list so far, but only what is new of it is given.
#[derive(Debug, Clone)]
#[must_use]
pub struct Session {
    log: Vec<u8>,
    hcrtm: bool,
    old_kernel: bool,
    expected: Vec<u8>,
    require: String,
    known: Option<Vec<u8>>,
    prefix: bool,
    state: Option<Vec<u8>>,
}

impl Session {
    /// A session on a list from its start. The arguments are as in [`verify`](crate::verify), and are copied. What the state covers is not looked up
    /// again among known files: if other files are known now, begin a new session with the whole list.
    pub fn new<'a>(log: impl Into<Log<'a>>, expected: &[u8], require: impl Into<Required<'a>>) -> Self {
        let (Log { bytes, hcrtm }, Required { registers, known, old_kernel }) = (log.into(), require.into());
        let (log, expected, require) = (bytes.to_vec(), expected.to_vec(), registers.to_owned());
        Self { log, hcrtm, old_kernel, expected, require, known: known.map(lines_of), prefix: false, state: None }
    }

    /// A session for [`attest`](Self::attest) alone: no PCRs are expected, and [`more`](Self::more) gives an error.
    pub fn by_quotes<'a>(log: impl Into<Log<'a>>) -> Self {
        Self::new(log, &[], "")
    }

    /// A session whose verdict is on the confirmed part of the list, if there is one: the list's first entries, as few as make all
    /// PCRs match. What comes after them may be new since the PCRs were read, or damaged.
    pub fn prefix(self) -> Self {
        Self { prefix: true, ..self }
    }

    /// A session that continues from the state of an earlier one, with a log of the same boot. The expected PCRs may be others.
    /// A state is trusted: whoever can write it can choose the verdict.
    pub fn resume(self, state: &[u8]) -> Self {
        Self { state: Some(state.to_vec()), ..self }
    }

    /// The verdict on the list that the state covers, followed by these bytes, which may be none. If it is a match, the state then
    /// covers the list that it is on: with [`prefix`](Self::prefix) the confirmed part, otherwise the whole list.
    ///
    /// Numbers of entries, even in an error, are those of the whole list. After an error, and after a verdict that is no match,
    /// the session is as it was before: give these bytes again. A state that is damaged, even an empty one, or of another boot is refused.
    pub fn more(&mut self, data: &[u8]) -> Result<Verdict, Error> {
        let inputs = self.inputs(data, self.known.as_deref(), self.old_kernel);
        let call = |out: &mut Out| library::verify_more(&inputs, &self.expected, &self.require, out);
        let reply = ask(Out::for_text_and_state()?, call)?;
        self.take(reply)
    }

    /// The verdict by a quote on the list that the state covers, followed by these bytes, as of [`more`](Self::more) and [`attest`](crate::attest).
    ///
    /// A state is continued by a quote only in its boot: `resets` and `restarts` of the quote's clock are those of the last quote, and
    /// the state is that of a session that used this function last. After a suspend, which counts as a restart, begin a new session with
    /// the whole list. The known files are those of the quote, or of the session if the quote has none; an older
    /// kernel's boot aggregate is taken if the quote says so.
    pub fn attest(&mut self, data: &[u8], quote: &Quote<'_>) -> Result<Attestation, Error> {
        let of_quote = quote.known.map(lines_of);
        let known = of_quote.as_deref().or(self.known.as_deref());
        let reply = attested(&self.inputs(data, known, quote.old_kernel), quote)?;
        self.take(reply)
    }

    /// What to keep, and to [`resume`](Self::resume) another session from. None before the first match on a list from its start.
    #[must_use]
    pub fn state(&self) -> Option<&[u8]> {
        self.state.as_deref()
    }

    /// How many bytes of the list the state covers: [`more`](Self::more) takes those that follow. It is 0 for a state that is refused.
    #[must_use]
    pub fn offset(&self) -> u64 {
        self.state().and_then(offset_of).unwrap_or_default()
    }

    fn inputs<'a>(&'a self, more: &'a [u8], known: Option<&'a [u8]>, old_kernel: bool) -> Grown<'a> {
        let log = Log { bytes: &self.log, hcrtm: self.hcrtm };
        Grown { log, old_kernel, state: self.state().map(some_bytes).unwrap_or_default(), more, known, prefix: self.prefix }
    }

    /// What a reply says, and its state, if it is a match.
    pub(crate) fn take<T: Line>(&mut self, reply: Reply) -> Result<T, Error> {
        let found = reply.judged()?;
        if reply.result == DONE {
            offset_of(&reply.next).ok_or_else(|| reply.unexpected())?;
            self.state = Some(reply.next);
        }
        Ok(found)
    }
}

/// How many bytes of a list a state covers, by its third line (docs/formats.md). The library reads all of it.
fn offset_of(state: &[u8]) -> Option<u64> {
    let digits = state.split(|byte| *byte == b'\n').nth(2)?.strip_prefix(b"bytes ")?;
    std::str::from_utf8(digits).ok()?.parse().ok()
}

/// The reply to a call by a quote.
pub(crate) fn attested(inputs: &Grown<'_>, quote: &Quote<'_>) -> Result<Reply, Error> {
    ask(Out::for_text_and_state()?, |out| library::attest(inputs, quote, out))
}
