//! How replies are read: the real ones of `tests/bindings/answers.jsonl`, those of a later library, and wrong ones.

use super::text_of;
use crate::library::{ask, Info, Out, DIFFERS, DONE, MORE, NO_ERROR, OUT_OF_MEMORY, REFUSED, TOO_SHORT};
use crate::reply::{object, Reply};
use crate::results::End;
use crate::*;
use ima_verify_sys as c;
use serde::Deserialize;
use serde_json::{Map, Value};
use std::collections::BTreeSet;

/// A line of the table.
#[derive(Deserialize)]
struct Real {
    kind: String,
    status: i32,
    line: String,
}

fn table() -> Vec<Real> {
    text_of("tests/bindings/answers.jsonl").lines().map(|line| serde_json::from_str(line).unwrap()).collect()
}

/// A real verdict with this status.
fn real(status: i32) -> String {
    table().into_iter().find(|real| real.kind == "verify" && real.status == status).unwrap().line
}

/// The reply of a library that gives this result and this text. An error is the list's.
pub(super) fn reply(result: i32, text: &str) -> Reply {
    let error_kind = match result {
        REFUSED => c::IMA_VERIFY_LIST,
        OUT_OF_MEMORY => c::IMA_VERIFY_MEMORY,
        _ => c::IMA_VERIFY_NO_ERROR,
    };
    let info = Info { size: text.len(), error_kind, error_number: u32::from(result == REFUSED), ..NO_ERROR };
    Reply { result, info, next: Vec::new(), text: text.into() }
}

/// Reads a line as one of this kind, and gives whether it says that all is well, if it judges.
fn read(kind: &str, result: i32, line: &str) -> Result<bool, Error> {
    let reply = reply(result, &format!("{line}\n")).accepted()?;
    match kind {
        "verify" => reply.judged().map(|found: Verdict| found.matches && found.json == line),
        "attest" => reply.judged().map(|found: Attestation| found.matches && found.json == line),
        "replay" => reply.judged().map(|found: ListVerdict| found.matches && found.json == line),
        "places" => reply.judged().map(|found: Places| found.located && found.json == line),
        "pcrs" => reply.line().map(|found: Registers| found.json == line),
        "key" => reply.line().map(|found: Key| found.json == line),
        "header" => reply.line().map(|found: Header| found.json == line),
        "event" => reply.line().map(|found: Event| found.json == line),
        "entry" => reply.line().map(|found: Entry| found.json == line),
        "end" => object::<End>(&reply.text).map(|_| true).ok_or_else(|| reply.unexpected()),
        _ => boot_with(line).map(|_| true).ok_or_else(|| reply.unexpected()),
    }
}

/// What is said of a boot with this line and those that each boot has.
fn boot_with(line: &str) -> Option<Boot> {
    let text = format!("{{\"secure_boot\":\"on\"}}\n{{\"firmware_version\":\"unknown\"}}\n{line}\n{{\"ima_policy\":\"unknown\"}}\n");
    Boot::read(text.as_bytes(), false)
}

/// Checks that parts of the schema have the members of a type, or its words.
macro_rules! check_schema {
    ($schema:ident: $($part:literal $of:ty,)*) => {$(
        let wanted = $schema["$defs"][$part]["properties"].as_object().unwrap();
        assert_eq!(<$of>::MEMBERS.iter().copied().collect::<BTreeSet<_>>(), wanted.keys().map(String::as_str).collect(), $part);
    )*};
    ($schema:ident: $($place:literal = $of:ty,)*) => {$(
        let part = $schema["$defs"].pointer($place).unwrap();
        let of_one = part["oneOf"].as_array().into_iter().flatten().map(|one| &one["const"]);
        let wanted = part["enum"].as_array().into_iter().flatten().chain(of_one).filter_map(Value::as_str);
        assert_eq!(<$of>::WORDS.iter().copied().collect::<BTreeSet<_>>(), wanted.collect(), $place);
    )*};
}

#[test]
fn members_and_words_are_those_of_the_schema() {
    let schema: Value = serde_json::from_str(&text_of("docs/schema.json")).unwrap();
    check_schema! { schema:
        "verify" Verdict, "attest" Attestation, "replay" ListVerdict, "places" Places, "pcrs" Registers, "key" Key, "header" Header,
        "event" Event, "entry" Entry, "fault" Fault, "report_row" Row, "place_row" PlaceRow, "pcr" Register,
        "stray" Stray, "quoted_bank" QuotedBank, "clock" Clock, "declared_algorithm" DeclaredAlgorithm, "specification" Specification,
        "content" Content, "command_data" CommandData, "variable" Variable, "image_data" ImageData, "gpt" Gpt, "partition" Partition,
        "blob" Blob, "tagged" Tagged, "handoff" Handoff, "vendor_table" VendorTable, "load_option" LoadOption, "signature" UefiSignature,
        "certificate" Certificate, "signature_list" UefiSignatureList, "fields" Fields, "claim_data" Claim,
        "image" Image, "command" Command, "ima_policy" ImaPolicy,
        "boot_variable" BootVariable, "alike" Alike, "changed" Changed, "digests" Digests, "measured" Measured,
    }
    check_schema! { schema:
        "/algorithm" = Algorithm, "/boot_aggregate" = BootAggregate, "/report_row/properties/state" = State,
        "/place_row/properties/place" = Place, "/attest/properties/verdict" = Outcome, "/attest/properties/quote" = QuoteState,
        "/attest/properties/signature" = SignatureState, "/attest/properties/expected" = ExpectedState,
        "/key/properties/type" = KeyType, "/key/properties/scheme" = Scheme, "/event/properties/confirmed" = Part,
        "/command_kind" = CommandKind, "/fields/properties/digest_type" = DigestType, "/secure_boot/properties/secure_boot" = SecureBoot,
        "/ima_policy/properties/ima_policy" = PolicyState, "/alike/properties/alike" = AnswerWord,
    }
    let kinds = schema["$defs"].pointer("/fault/properties/kind/enum").unwrap().as_array().unwrap();
    assert!(Kind::WORDS.iter().all(|word| kinds.contains(&(*word).into()))); // (others are no library's)
}

/// Real answers are read, with more members too. They are not if they are cut, lack a member of a verdict, or have another status.
#[test]
fn real_answers_are_read() {
    let schema: Value = serde_json::from_str(&text_of("docs/schema.json")).unwrap();
    for Real { kind, status, line } in table() {
        if kind == "error" {
            let error = reply(REFUSED, &format!("{line}\n")).accepted().unwrap_err();
            assert!(matches!(error, Error::Refused { kind: Kind::List, number: 1, line: found, .. } if line.contains(&found)));
            continue;
        }
        for more in ["{", r#"{"later":1,"#, r#"{"later":{"fault":[null]},"fault":{},"json":"","matches":true,"#] {
            assert_eq!(read(&kind, status, &line.replacen('{', more, 1)), Ok(status == DONE), "{line}");
        }
        let others = [&line[1..], &line[..line.len() - 1], &format!("{line}x"), &format!("[{line}]")];
        assert!(others.iter().all(|text| read(&kind, status, text).is_err()), "{line}");
        if ["verify", "attest", "replay", "places"].contains(&&kind[..]) {
            assert!([DONE + DIFFERS - status, MORE, 7].iter().all(|result| read(&kind, *result, &line).is_err()), "{line}");
            for name in schema["$defs"][&kind]["required"].as_array().unwrap() {
                let mut object: Map<String, Value> = serde_json::from_str(&line).unwrap();
                object.remove(name.as_str().unwrap());
                assert!(read(&kind, status, &serde_json::to_string(&object).unwrap()).is_err(), "{name} {line}");
            }
        }
    }
}

#[test]
fn words_numbers_and_errors_of_a_later_library_are_taken() {
    let line = real(DIFFERS).replace(r#""verdict":"differ"}"#, r#""verdict":"unclear"}"#).replace("\"good\"", "\"odd\"");
    let found: Verdict = reply(DIFFERS, &format!("{line}\n")).judged().unwrap();
    assert_eq!((found.matches, found.verdict.as_str(), found.boot_aggregate.as_str()), (false, "unclear", "odd"));
    assert!(read("verify", DONE, &line).is_err());
    let numbered = |number: &str| read("verify", DIFFERS, &line.replacen(r#""entries":"#, &format!(r#""entries":{number},"was":"#), 1));
    assert_eq!(numbered("18446744073709551615"), Ok(false));
    assert!(["18446744073709551616", "-1", "3.5", "\"3\"", "null"].iter().all(|number| numbered(number).is_err()));
    let found = boot_with(r#"{"image":"unclear"}"#).unwrap();
    assert_eq!(found.images[0].image, Answer::Word(AnswerWord::Other("unclear".to_owned())));
    assert_eq!(boot_with(r#"{"later":{"image":1}}"#).unwrap().images, []);
    assert_eq!((boot_with("x"), boot_with("[]"), Boot::read(b"{\"secure_boot\":\"on\"}\n", false)), (None, None, None));
    let refused = reply(REFUSED, "refused: policy fault 3\n");
    let error = Reply { info: Info { error_kind: 99, error_number: 3, ..refused.info }, ..refused }.accepted().unwrap_err();
    assert_eq!(error.to_string(), "refused: policy fault 3");
    assert!(matches!(error, Error::Refused { kind: Kind::Other(kind), number: 3, place: None, .. } if kind == "99"));
}

#[test]
fn replies_against_the_header_are_errors() {
    assert_eq!(reply(OUT_OF_MEMORY, "").accepted().unwrap_err(), Error::OutOfMemory);
    for (result, text) in [(c::IMA_VERIFY_MISUSED, ""), (9, ""), (REFUSED, "refused: list fault 1"), (REFUSED, "{\"fault\":{}}\n")] {
        assert!(matches!(reply(result, text).accepted(), Err(Error::Unexpected { .. })), "{result} {text}");
    }
    // (a match without a state leaves a session as it was)
    let mut session = Session::by_quotes(b"");
    for (next, is_read) in [("", false), ("x", false), ("x\n\nbytes 7\n", true)] {
        let reply = Reply { next: next.into(), ..reply(DONE, &format!("{}\n", real(DONE))) };
        assert_eq!((session.take::<Verdict>(reply).is_ok(), session.state().is_some()), (is_read, is_read));
    }
    assert_eq!(session.offset(), 7);
}

#[test]
fn call_is_made_again_with_as_much_capacity_as_it_needs() {
    let (text, mut capacities) = (b"sha256 10 00\n".repeat(100), Vec::new());
    let found = ask(Out::with(vec![0; 10]), |out| {
        capacities.push(out.text.len());
        out.info.size = text.len();
        if out.text.len() < text.len() {
            return TOO_SHORT;
        }
        out.text.copy_from_slice(&text);
        DONE
    });
    assert_eq!((found.unwrap().lines().unwrap(), capacities), (text, vec![10, 1300]));
    // (a size that no text has, or for which there is no memory)
    for (result, size, next_size) in [(DONE, 11, 0), (DONE, 1, 11), (TOO_SHORT, 5, 0), (TOO_SHORT, usize::MAX - 1, 0)] {
        let found = ask(Out::with(vec![0; 10]), |out| {
            (out.info.size, out.next_size) = (size, next_size);
            result
        });
        assert!(matches!(found, Err(Error::Unexpected { .. } | Error::OutOfMemory)), "{result} {size} {next_size}");
    }
}
