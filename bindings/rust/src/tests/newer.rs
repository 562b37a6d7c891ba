//! What the crate reads of a newer library, if `IMA_VERIFY_SHIM` says that one is loaded: each object has one more member (`member`), and
//! with `differ` each verdict that matches has one more reason to differ.

use super::*;

#[test]
fn newer_library_is_read() {
    let Ok(shim) = std::env::var("IMA_VERIFY_SHIM") else { return };
    let (sample, matches) = (Sample::new(), shim == "member");
    let (Sample { log, list, expected, .. }, evidence) = (&sample, Evidence::Expected(&sample.expected));
    let wanted = if matches { Outcome::Match } else { Outcome::Differ };
    let found = verify(log, list, expected, PCRS).unwrap();
    assert_eq!((found.matches, &found.verdict, found.entries), (matches, &wanted, 99));
    assert!(found.registers.iter().all(|row| row.state == State::Match) && found.json.contains("\"novel\""));
    let found = attest(log, list, &sample.quote()).unwrap();
    assert_eq!((found.matches, &found.verdict, found.quote, found.signature), (matches, &wanted, QuoteState::Match, SignatureState::Valid));
    let mut session = Session::new(log, expected, PCRS);
    assert_eq!((session.more(list).unwrap().matches, session.state().is_some()), (matches, matches));
    assert_eq!(entries(list).map(Result::unwrap).count(), 99);
    assert_eq!(confirmed_events(log, evidence).unwrap().map(Result::unwrap).count(), 24);
    assert_eq!(boot(log, evidence, None).unwrap().secure_boot, SecureBoot::Off);
    assert_eq!((registers(log).unwrap().registers.len(), read_key(&file("samples/keys/ak-p256.pub")).unwrap().bits), (9, 256));
    check_refused(verify(log, sample.cut(), expected, PCRS), Kind::List, 1, Some(98));
}
