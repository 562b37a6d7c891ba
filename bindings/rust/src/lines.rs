//! Lines of entries and of events, which the library gives by pieces.

use crate::library::{ask, events, Listed, Out, Position, DONE, MORE};
use crate::reply::{line, object, Reply};
use crate::results::{End, Line};
use crate::{Entry, Error, Event, Header};
use std::iter::FusedIterator;
use std::ops::Range;

/// What writes the next piece of lines, and gives the result.
pub(crate) type Piece = fn(&Listed<'_>, &mut Position, &mut Out) -> i32;

/// Goes through lines. Nothing comes after the first error.
#[derive(Debug, Clone)]
pub(crate) struct Lines<'a> {
    listed: Listed<'a>,
    piece: Piece,
    at: Position,
    buffer: Vec<u8>,
    /// Where in the buffer the lines are that are not read yet.
    rest: Range<usize>,
    /// The result of the last call.
    result: i32,
    /// How many entries were read.
    count: u64,
    is_over: bool,
}

impl<'a> Lines<'a> {
    pub(crate) fn of(bytes: &'a [u8], matching: Option<Vec<u8>>, piece: Piece) -> Self {
        let listed = Listed { bytes, matching };
        Self { listed, piece, at: Position::default(), buffer: Vec::new(), rest: 0..0, result: MORE, count: 0, is_over: false }
    }

    /// Gets the lines of the next call. There are no more only after the last ones.
    fn fill(&mut self) -> Result<(), Error> {
        self.rest = 0..0;
        if self.result == DONE {
            return Ok(());
        }
        let buffer = std::mem::take(&mut self.buffer);
        let out = if buffer.is_empty() { Out::for_text()? } else { Out::with(buffer) };
        let reply = ask(out, |out| (self.piece)(&self.listed, &mut self.at, out))?;
        let is_last = reply.result == DONE;
        if !(reply.text.ends_with(b"\n") && (is_last || reply.result == MORE) || reply.text.is_empty() && is_last) {
            return Err(reply.unexpected());
        }
        let Reply { result, text, .. } = reply;
        (self.result, self.rest, self.buffer) = (result, 0..text.len(), text);
        let capacity = self.buffer.capacity();
        self.buffer.resize(capacity, 0);
        Ok(())
    }

    /// The next line, or none after the last one.
    fn next_line(&mut self) -> Result<Option<&[u8]>, Error> {
        if self.rest.is_empty() {
            self.fill()?;
        }
        let rest = &self.buffer[self.rest.clone()];
        let Some(at) = rest.iter().position(|byte| *byte == b'\n') else { return Ok(None) };
        self.rest.start += at + 1;
        Ok(Some(&rest[..=at]))
    }

    /// What the next line has, if there is one.
    pub(crate) fn next_of<T: Line>(&mut self) -> Result<Option<T>, Error> {
        let result = self.result;
        let Some(text) = self.next_line()? else { return Ok(None) };
        line(text, false).map(Some).ok_or_else(|| Error::unexpected(result, text))
    }

    /// The next entry, or none after the line that says how many there are. Without this line the list was cut.
    pub(crate) fn next_entry(&mut self) -> Result<Option<Entry>, Error> {
        let result = self.result;
        let Some(text) = self.next_line()? else { return Err(Error::unexpected(result, b"")) };
        if let Some(entry) = line(text, false) {
            self.count += 1;
            return Ok(Some(entry));
        }
        let (end, text) = (object::<End>(text), text.to_vec());
        let is_end = end.map(|end| end.entries) == Some(self.count) && self.result == DONE && self.rest.is_empty();
        is_end.then_some(None).ok_or_else(|| Error::unexpected(result, &text))
    }

    /// An item of an iterator, after which there may be none.
    pub(crate) fn item<T>(&mut self, next: impl FnOnce(&mut Self) -> Result<Option<T>, Error>) -> Option<Result<T, Error>> {
        if self.is_over {
            return None;
        }
        let item = next(self);
        self.is_over = !matches!(item, Ok(Some(_)));
        item.transpose()
    }

    /// The text of all pieces.
    pub(crate) fn text(mut self) -> Result<Vec<u8>, Error> {
        let mut text = Vec::new();
        loop {
            self.fill()?;
            if self.rest.is_empty() {
                return Ok(text);
            }
            text.try_reserve(self.rest.len()).map_err(|_| Error::OutOfMemory)?;
            text.extend_from_slice(&self.buffer[self.rest.clone()]);
        }
    }
}

/// The entries of a measurement list, by [`entries`](crate::entries).
#[derive(Debug, Clone)]
#[must_use]
pub struct Entries<'a>(pub(crate) Lines<'a>);

impl Iterator for Entries<'_> {
    type Item = Result<Entry, Error>;

    fn next(&mut self) -> Option<Self::Item> {
        self.0.item(Lines::next_entry)
    }
}

impl FusedIterator for Entries<'_> {}

/// The events of a firmware event log, by [`events`](crate::events) or [`confirmed_events`](crate::confirmed_events).
#[derive(Debug, Clone)]
#[must_use]
pub struct Events<'a> {
    lines: Lines<'a>,
    header: Header,
    quote_differs: bool,
}

impl<'a> Events<'a> {
    /// The events of a log, with the library's reply on the PCRs that match, if these are asked for.
    pub(crate) fn of(log: &'a [u8], matching: Option<Reply>) -> Result<Self, Error> {
        let quote_differs = matching.as_ref().map_or(Ok(false), Reply::quote_differs)?;
        let mut lines = Lines::of(log, matching.map(|reply| reply.text), events);
        let header = lines.next_of()?.ok_or_else(|| Error::unexpected(lines.result, b""))?;
        Ok(Self { lines, header, quote_differs })
    }

    /// The log's header.
    #[must_use]
    pub fn header(&self) -> &Header {
        &self.header
    }

    /// The evidence is a quote whose verdict is no match, so nothing is confirmed.
    #[must_use]
    pub fn quote_differs(&self) -> bool {
        self.quote_differs
    }
}

impl Iterator for Events<'_> {
    type Item = Result<Event, Error>;

    fn next(&mut self) -> Option<Self::Item> {
        self.lines.item(Lines::next_of)
    }
}

impl FusedIterator for Events<'_> {}
