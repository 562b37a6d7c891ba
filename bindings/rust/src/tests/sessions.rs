//! Sessions on the sample's list as it grows.

use super::*;

#[test]
fn only_a_match_moves_a_session() {
    let sample = Sample::new();
    let Sample { log, list, expected, .. } = &sample;
    let mut session = Session::new(log, expected, PCRS);
    assert!(!session.more(&list[..list.len() - LAST]).unwrap().matches);
    check_refused(session.more(sample.cut()), Kind::List, 1, Some(98));
    assert_eq!((session.state(), session.offset()), (None, 0));
    assert_eq!(session.more(list), verify(log, list, expected, PCRS));
    assert_eq!(session.offset(), list.len() as u64);
    // (numbers of entries are those of the whole list)
    let mut later = Session::new(log, expected, PCRS).resume(session.state().unwrap());
    check_refused(later.more(b"x"), Kind::List, 1, Some(99));
    let found = later.more(&sample.longer()[list.len()..]).unwrap();
    assert_eq!((found.matches, found.entries, &found.registers[10].state), (false, 100, &State::Differ));
    assert!(later.state() == session.state() && later.more(b"").unwrap().matches);
}

#[test]
fn prefix_is_what_the_pcrs_confirm() {
    let (Sample { log, list, expected, .. }, sums) = (Sample::new(), file("samples/known/SHA256SUMS"));
    let before = file("samples/known/before-violations.expected");
    let mut session = Session::new(&log, &before, Required::known(PCRS, &[&sums])).prefix();
    let found = session.more(&list).unwrap();
    assert_eq!((found.matches, found.confirmed, found.entries, found.known_from, found.unknown), (true, Some(93), 99, Some(0), vec![]));
    let mut later = Session::new(&log, &expected, PCRS).prefix().resume(session.state().unwrap());
    let found = later.more(&[&list[session.offset() as usize..], b"x"].concat()).unwrap();
    let fault = found.unconfirmed.unwrap();
    assert_eq!((found.matches, found.confirmed, fault.kind, fault.number, fault.entry), (true, Some(99), Kind::List, Some(1), Some(99)));
    // (what the state covers is not looked up again)
    let found = Session::new(&log, &before, Required::known(PCRS, &[])).resume(session.state().unwrap()).more(b"").unwrap();
    assert_eq!((found.matches, found.known_from, found.unknown), (true, Some(93), vec![]));
}

#[test]
fn quotes_move_a_session_in_their_boot() {
    let (sample, mut session) = (Sample::new(), Session::by_quotes(&Sample::new().log).prefix());
    let found = session.attest(&sample.longer(), &sample.signed(Signing::NotChecked)).unwrap();
    assert_eq!((found.matches, found.verdict, found.confirmed, session.state()), (false, Outcome::SignatureNotChecked, Some(99), None));
    let found = session.attest(&sample.longer(), &sample.quote()).unwrap();
    assert_eq!((found.matches, found.confirmed, found.entries, session.offset()), (true, Some(99), 100, sample.list.len() as u64));
    let found = session.attest(b"", &sample.quote()).unwrap();
    assert_eq!((found.matches, found.entries), (true, 99));
    check_refused(session.more(b""), Kind::Argument, 0, None);
    let mut message = sample.message.clone();
    message[8 + 34 + 2 + 20 + 8 + 3] ^= 1; // (the quote's count of resets)
    let another = Quote { message: &message, ..sample.signed(Signing::ByCaller) };
    check_refused(session.clone().attest(b"", &another), Kind::Checkpoint, 4, None);
    check_refused(session.resume(b"").attest(b"", &sample.quote()), Kind::Checkpoint, 1, None);
}
