//! Calls the C library, as `bindings/c/ima_verify.h` describes it.

use crate::reply::Reply;
use crate::request::{Log, Shown};
use crate::{Error, Quote};
use ima_verify_sys as c;
use std::ptr::NonNull;

pub(crate) use c::{
    ima_verify_info as Info, IMA_VERIFY_DIFFERS as DIFFERS, IMA_VERIFY_DONE as DONE, IMA_VERIFY_MORE as MORE,
    IMA_VERIFY_OUT_OF_MEMORY as OUT_OF_MEMORY, IMA_VERIFY_REFUSED as REFUSED, IMA_VERIFY_TOO_SHORT as TOO_SHORT,
};

/// The first buffer for a text. (Four banks have 96 PCRs, and no row has more than 256 bytes; a checkpoint has less than 20000.)
pub(crate) const CAPACITY: usize = 64 * 1024;

/// What is reported before a call: no error, and a size that no text has.
pub(crate) const NO_ERROR: Info = Info { size: usize::MAX, error_kind: c::IMA_VERIFY_NO_ERROR, error_number: 0, error_place: c::IMA_VERIFY_NO_PLACE };

/// Where a call writes: a text, what it reports of it, and a next state with its size.
#[derive(Debug, Clone)]
pub(crate) struct Out {
    pub(crate) text: Vec<u8>,
    pub(crate) info: Info,
    pub(crate) next: Vec<u8>,
    pub(crate) next_size: usize,
}

impl Out {
    /// With this buffer for a text, and no next state.
    pub(crate) fn with(text: Vec<u8>) -> Self {
        Self { text, info: NO_ERROR, next: Vec::new(), next_size: 0 }
    }

    pub(crate) fn for_text() -> Result<Self, Error> {
        zeros(CAPACITY).map(Self::with)
    }

    pub(crate) fn for_text_and_state() -> Result<Self, Error> {
        Ok(Self { next: zeros(CAPACITY)?, next_size: usize::MAX, ..Self::for_text()? })
    }
}

/// Calls a function with groups of arguments: slices in brackets, which it takes as pointers and sizes, and others after them. The last
/// arguments are those of an [`Out`].
macro_rules! call {
    ($out:ident, $function:ident, $([$($slice:expr),*] $($other:expr),*);*) => {
        // SAFETY: the pointers are those of slices that live through the call, so they are not null, and the sizes are theirs; `$out`
        // is borrowed for writing, and its parts and all other variables overlap nothing else. The library keeps nothing, and any
        // thread may call it.
        unsafe { c::$function($($($slice.as_ptr(), $slice.len(),)* $($other,)*)* $out.text.as_mut_ptr(), $out.text.len(), &mut $out.info) }
    };
}

pub(crate) fn version() -> u32 {
    // SAFETY: the function takes nothing and only returns a number.
    unsafe { c::ima_verify_version() }
}

/// The place of no numbers: what they say is in the text, too.
const NO_NUMBERS: *mut u64 = NonNull::dangling().as_ptr();

/// The text of known files, and whether files have to be known.
fn known_in(known: Option<&[u8]>) -> (&[u8], bool) {
    (known.unwrap_or_default(), known.is_some())
}

/// The whole list is `more`, and nothing is known of one before.
pub(crate) fn verdict(inputs: &Grown<'_>, expected: &[u8], require: &str, out: &mut Out) -> i32 {
    let &Grown { log, old_kernel, more, known, .. } = inputs;
    let (known, checks_known) = known_in(known);
    call!(out, ima_verify_raw_verdict, [log.bytes] log.hcrtm, old_kernel; [more, expected, require, known] checks_known, true, NO_NUMBERS, 0)
}

pub(crate) fn replay(list: &[u8], expected: &[u8], require: &str, known: Option<&[u8]>, out: &mut Out) -> i32 {
    let (known, checks_known) = known_in(known);
    call!(out, ima_verify_raw_replay, [list, expected, require, known] checks_known, true, NO_NUMBERS, 0)
}

pub(crate) fn locate(log: Log<'_>, list: &[u8], expected: &[u8], require: &str, out: &mut Out) -> i32 {
    call!(out, ima_verify_raw_locate, [log.bytes] log.hcrtm; [list, expected, require] true)
}

pub(crate) fn expected(printed: &[u8], selection: &str, out: &mut Out) -> i32 {
    call!(out, ima_verify_raw_expected, [printed, selection] false)
}

pub(crate) fn registers(of: Log<'_>, of_list: bool, out: &mut Out) -> i32 {
    call!(out, ima_verify_raw_registers, [of.bytes] of_list, of.hcrtm, true)
}

pub(crate) fn convert(bytes: &[u8], conversion: u32, padding: &mut usize, out: &mut Out) -> i32 {
    call!(out, ima_verify_raw_convert, [bytes] conversion, padding)
}

pub(crate) fn key(area: &[u8], endorsement: bool, out: &mut Out) -> i32 {
    call!(out, ima_verify_raw_key, [area] endorsement, true)
}

/// The inputs of a call on a list that grows.
pub(crate) struct Grown<'a> {
    pub(crate) log: Log<'a>,
    pub(crate) old_kernel: bool,
    pub(crate) state: &'a [u8],
    pub(crate) more: &'a [u8],
    pub(crate) known: Option<&'a [u8]>,
    pub(crate) prefix: bool,
}

pub(crate) fn verify_more(inputs: &Grown<'_>, expected: &[u8], require: &str, out: &mut Out) -> i32 {
    let &Grown { log, old_kernel, state, more, known, prefix } = inputs;
    let (known, checks_known) = known_in(known);
    let (next, next_capacity) = (out.next.as_mut_ptr(), out.next.len());
    call!(out, ima_verify_raw_more, [log.bytes] log.hcrtm, old_kernel; [state, more, expected, require, known]
        checks_known, prefix, true, NO_NUMBERS, 0, next, next_capacity, &mut out.next_size)
}

pub(crate) fn attest(inputs: &Grown<'_>, quote: &Quote<'_>, out: &mut Out) -> i32 {
    let &Grown { log, old_kernel, state, more, known, prefix } = inputs;
    let (known, checks_known) = known_in(known);
    let [message, key, signature, nonce, nonce_hex, require] = quote.parts();
    let (next, next_capacity) = (out.next.as_mut_ptr(), out.next.len());
    call!(out, ima_verify_raw_attest, [log.bytes] log.hcrtm, old_kernel;
        [state, more, message, key, signature, nonce, nonce_hex, require, known] checks_known, quote.allow_sha1, quote.is_checked(), prefix, true, NO_NUMBERS, 0, next, next_capacity, &mut out.next_size)
}

pub(crate) fn matching(log: Log<'_>, shown: &Shown<'_>, out: &mut Out) -> i32 {
    let Shown { by, expected, list, quote } = shown;
    let [message, key, signature, nonce, nonce_hex, require] = quote.parts();
    call!(out, ima_verify_raw_matching, [log.bytes] log.hcrtm, quote.old_kernel, *by;
        [expected, list, message, key, signature, nonce, nonce_hex, require] quote.allow_sha1, quote.is_checked())
}

pub(crate) fn boot(log: Log<'_>, before: Option<&[u8]>, shown: &Shown<'_>, out: &mut Out) -> i32 {
    let Shown { by, expected, list, quote } = shown;
    let [message, key, signature, nonce, nonce_hex, require] = quote.parts();
    let (before, compares) = (before.unwrap_or_default(), before.is_some());
    call!(out, ima_verify_raw_boot, [log.bytes] log.hcrtm, quote.old_kernel; [before] compares, *by;
        [expected, list, message, key, signature, nonce, nonce_hex, require] quote.allow_sha1, quote.is_checked(), true)
}

/// What lines are of: a list or a log, and for events the PCRs that match, as [`matching`] gives them.
#[derive(Debug, Clone)]
pub(crate) struct Listed<'a> {
    pub(crate) bytes: &'a [u8],
    pub(crate) matching: Option<Vec<u8>>,
}

/// Where the lines of entries or events continue: zeros, or what the library set for these bytes.
#[derive(Debug, Clone, Copy, Default)]
pub(crate) struct Position {
    pub(crate) offset: usize,
    pub(crate) number: usize,
}

pub(crate) fn entries(of: &Listed<'_>, at: &mut Position, out: &mut Out) -> i32 {
    call!(out, ima_verify_raw_entries, [of.bytes] &mut at.offset, &mut at.number, true)
}

pub(crate) fn texts(of: &Listed<'_>, at: &mut Position, out: &mut Out) -> i32 {
    call!(out, ima_verify_raw_entries, [of.bytes] &mut at.offset, &mut at.number, false)
}

pub(crate) fn events(of: &Listed<'_>, at: &mut Position, out: &mut Out) -> i32 {
    let matching = of.matching.as_deref().unwrap_or_default();
    call!(out, ima_verify_raw_events, [of.bytes, matching] of.matching.is_some(), &mut at.offset, &mut at.number)
}

/// The library's words on an error, if it knows the error.
pub(crate) fn error_text(error: &Info) -> Option<String> {
    let Info { error_kind, error_number, error_place, .. } = *error;
    let reply = exchange(Out::for_text().ok()?, |out| call!(out, ima_verify_raw_error_text, [] error_kind, error_number, error_place));
    let text = reply.ok().filter(|reply| reply.result == DONE)?.text;
    String::from_utf8(text).ok().map(|text| text.trim_end().to_owned())
}

/// Calls the library, whose reply has no error.
pub(crate) fn ask(out: Out, call: impl FnMut(&mut Out) -> i32) -> Result<Reply, Error> {
    exchange(out, call)?.accepted()
}

/// Calls the library, again with longer buffers while they are too short.
fn exchange(mut out: Out, mut call: impl FnMut(&mut Out) -> i32) -> Result<Reply, Error> {
    if version() < c::IMA_VERIFY_VERSION {
        return Err(Error::Version(version()));
    }
    loop {
        let result = call(&mut out);
        let Out { text, info, next, next_size } = &mut out;
        if result == TOO_SHORT && (lengthen(next, *next_size)? | lengthen(text, info.size)?) {
            continue;
        }
        if *next_size > next.len() || info.size > text.len() {
            return Err(Error::Unexpected { result, size: info.size, text: Vec::new() });
        }
        next.truncate(*next_size);
        text.truncate(info.size);
        return Ok(Reply { result, info: out.info, next: out.next, text: out.text });
    }
}

/// Makes a buffer long enough for a text of this size, and says whether it was too short.
fn lengthen(buffer: &mut Vec<u8>, size: usize) -> Result<bool, Error> {
    let is_longer = size > buffer.len() && size != usize::MAX;
    if is_longer {
        *buffer = zeros(size)?;
    }
    Ok(is_longer)
}

pub(crate) fn zeros(size: usize) -> Result<Vec<u8>, Error> {
    let mut bytes = Vec::new();
    bytes.try_reserve_exact(size).map_err(|_| Error::OutOfMemory)?;
    bytes.resize(size, 0);
    Ok(bytes)
}
