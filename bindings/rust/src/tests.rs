//! What the crate answers, by the library: about the samples, and changes of them.

mod answers;
mod boots;
mod listings;
mod newer;
mod sessions;
mod verdicts;

use crate::*;

const PCRS: &str = "sha256:0-10";

/// A file of the tree around the package.
fn file(path: &str) -> Vec<u8> {
    std::fs::read(format!("{}/../../{path}", env!("CARGO_MANIFEST_DIR"))).unwrap()
}

fn text_of(path: &str) -> String {
    String::from_utf8(file(path)).unwrap()
}

/// A refusal of this kind, with this number and place, and in the library's words.
#[track_caller]
fn check_refused<T: std::fmt::Debug>(found: Result<T, Error>, wanted: Kind, wanted_number: u64, wanted_place: Option<u64>) {
    let error = found.unwrap_err();
    let Error::Refused { kind, number, place, text, line } = &error else { panic!("{error:?}") };
    assert_eq!((kind, *number, *place), (&wanted, wanted_number, wanted_place), "{line}");
    assert!(line.starts_with("refused: ") && text != line && error.to_string() == *text, "{text}");
    assert!(text.ends_with('.') && place.map_or(true, |place| text.contains(&place.to_string())), "{text}");
}

/// How many bytes the last entry of the sample's list has.
const LAST: usize = 95;

/// A boot whose PCRs were read and quoted after the list.
struct Sample {
    log: Vec<u8>,
    list: Vec<u8>,
    expected: Vec<u8>,
    message: Vec<u8>,
    nonce: String,
    key: Vec<u8>,
    signature: Vec<u8>,
}

impl Sample {
    fn new() -> Self {
        let [log, list, expected] = ["firmware.log", "ima.list", "expected.txt"].map(|name| file(&format!("samples/real-boot/{name}")));
        let [message, key, signature] = ["quote.msg", "AK.pem", "quote.sig"].map(|name| file(&format!("samples/quoted/{name}")));
        Self { log, list, expected, message, nonce: text_of("samples/quoted/nonce"), key, signature }
    }

    /// The list, with its last entry once more.
    fn longer(&self) -> Vec<u8> {
        [&self.list, &self.list[self.list.len() - LAST..]].concat()
    }

    /// The list without its last byte.
    fn cut(&self) -> &[u8] {
        &self.list[..self.list.len() - 1]
    }

    fn quote(&self) -> Quote<'_> {
        self.signed(Signing::ByKey { key: &self.key, signature: &self.signature })
    }

    fn signed<'a>(&'a self, signing: Signing<'a>) -> Quote<'a> {
        Quote::new(signing, &self.message, Nonce::Hex(&self.nonce), PCRS)
    }
}
