//! Verdicts on the sample, by expected PCRs and by a quote.

use super::*;

#[test]
fn sample_matches_and_other_lists_differ() {
    let sample = Sample::new();
    let Sample { log, list, expected, .. } = &sample;
    for require in [NOTHING_REQUIRED, PCRS, "sha256:10,sha256:0-7"] {
        let found = verify(log, list, expected, require).unwrap();
        assert_eq!((found.matches, found.verdict, found.events, found.entries, found.compared), (true, Outcome::Match, 24, 99, 24));
        assert!(found.registers.iter().all(|row| row.state == State::Match && row.expected.is_some() && row.value.is_none()));
        let found = verify(log, &sample.longer(), expected, require).unwrap();
        let others: Vec<_> = found.registers.iter().filter(|row| row.state != State::Match).map(|row| (row.register, &row.state)).collect();
        assert_eq!((found.matches, found.entries, others), (false, 100, vec![(10, &State::Differ)]));
    }
    let places = locate(log, &sample.longer(), expected, PCRS).unwrap();
    assert_eq!((places.located, &places.registers[10].place, places.registers[10].number), (true, &Place::Entry, Some(98)));
    let tenth = expected.split_inclusive(|byte| *byte == b'\n').nth(10).unwrap();
    let found = replay(list, tenth, "sha256:10").unwrap();
    assert_eq!((found.matches, found.entries, found.compared, found.registers.len()), (true, 99, 1, 1));
    assert_eq!(crate::expected(&file("samples/real-boot/tpm2_pcrread.txt"), None).unwrap(), *expected);
    let rows = registers(log).unwrap().registers;
    let text: String = rows.iter().map(|row| format!("{} {} {}\n", row.bank, row.register, row.value)).collect();
    assert_eq!((text, list_registers(list).unwrap().registers.len()), (text_of("samples/real-boot/registers.txt"), 4));
}

#[test]
fn verdicts_on_nothing_and_on_a_list_of_another_pcr_differ() {
    let Sample { log, mut list, expected, .. } = Sample::new();
    let found = verify(&log, &list, b"", NOTHING_REQUIRED).unwrap();
    assert_eq!((found.matches, found.verdict, found.compared), (false, Outcome::Differ, 0));
    assert!(!replay(&list, b"", NOTHING_REQUIRED).unwrap().matches && !locate(&log, &list, b"", NOTHING_REQUIRED).unwrap().located);
    let last = list.len() - LAST;
    list[last] = 11; // (the last entry's PCR)
    let found = verify(&log, &list, &expected, PCRS).unwrap();
    assert_eq!((found.matches, found.extends), (false, vec![Stray { event: None, entry: Some(98), register: 11 }]));
}

#[test]
fn entries_of_no_known_file_are_given() {
    let (sample, sums) = (Sample::new(), file("samples/known/SHA256SUMS"));
    let Sample { log, list, expected, .. } = &sample;
    let half = sums.len() / 2 + sums[sums.len() / 2..].iter().position(|byte| *byte == b'\n').unwrap();
    let known: &[&[u8]] = &[&sums[..half], b"", &sums[half + 1..]]; // (a line feed ends each text)
    let (required, wanted) = (Required::known(PCRS, known), [93, 94, 97]); // (the violations)
    let found = verify(log, list, expected, required).unwrap();
    assert_eq!((found.matches, found.known_from, &found.unknown[..]), (false, Some(0), &wanted[..]));
    assert_eq!(replay(list, expected, required).unwrap().unknown, wanted);
    assert_eq!(Session::new(log, expected, required).more(list).unwrap().unknown, wanted);
    assert_eq!(Session::new(log, expected, required).attest(list, &sample.quote()).unwrap().unknown, wanted);
    let found = attest(log, list, &sample.quote().known(known)).unwrap();
    assert_eq!((found.matches, found.quote, &found.unknown[..]), (false, QuoteState::Match, &wanted[..]));
    assert_eq!(verify(log, list, expected, Required::known(PCRS, &[])).unwrap().unknown.len(), 98);
}

/// A list whose boot aggregate is of PCRs 0 to 7 alone; PCR 10 after it; and the digest of the quote of these PCRs.
const OLDER: &str = "0a000000089fcd578cd04e0e1e51891481f98ba8211b8ee406000000696d612d6e673f000000280000007368613235363a00\
                     83fbd31c9fa207f89c0204636df1a676c75b871e87534e42a24ccfc0177674170f000000626f6f745f61676772656761746500";
const TENTH: &str = "6be0b6b45f4f65155cb41622a4a22adced650f43f8b8ff46d15aa80c1fec1a69";
const QUOTED: &str = "9041284f12bd87819184a3d451aff552207578c1cd913744ff077b42a1dfbae1";

#[test]
fn boot_aggregate_of_an_older_kernel_is_taken_if_asked_for() {
    let bytes_in =
        |digits: &str| -> Vec<u8> { (0..digits.len()).step_by(2).map(|at| u8::from_str_radix(&digits[at..at + 2], 16).unwrap()).collect() };
    let (sample, list) = (Sample::new(), &bytes_in(OLDER)[..]);
    let log = &sample.log;
    let lines: Vec<_> = sample.expected.split_inclusive(|byte| *byte == b'\n').take(10).collect();
    let expected = &[lines.concat(), format!("sha256 10 {TENTH}\n").into_bytes()].concat();
    let message = &[&sample.message[..sample.message.len() - 32], &bytes_in(QUOTED)].concat();
    let (required, quote) = (Required::from(PCRS), Quote::new(Signing::ByCaller, message, Nonce::Hex(&sample.nonce), PCRS));
    for (required, quote, is_taken, word) in
        [(required, quote, false, BootAggregate::Wrong), (required.old_kernel(), quote.old_kernel(), true, BootAggregate::OldKernel)]
    {
        for found in [verify(log, list, expected, required), Session::new(log, expected, required).more(list)] {
            let found = found.unwrap();
            assert_eq!((found.matches, found.boot_aggregate), (is_taken, word.clone()));
        }
        for found in [attest(log, list, &quote), Session::by_quotes(log).attest(list, &quote)] {
            let found = found.unwrap();
            assert_eq!((found.matches, found.boot_aggregate), (is_taken, word.clone()));
        }
        let evidence = Evidence::Quote { list, quote };
        assert_eq!(boot(log, evidence, None).unwrap().quote_differs, !is_taken);
        assert_eq!(confirmed_events(log, evidence).unwrap().quote_differs(), !is_taken);
    }
    assert_eq!(verify(log, list, expected, Required::from(NOTHING_REQUIRED).old_kernel()).unwrap().boot_aggregate, BootAggregate::Wrong);
    check_refused(replay(list, expected, required.old_kernel()), Kind::Argument, 0, None);
}

#[test]
fn sample_is_attested_by_its_key_or_the_callers_word() {
    let sample = Sample::new();
    for (signing, matches, signature) in [
        (sample.quote().signing, true, SignatureState::Valid),
        (Signing::ByCaller, true, SignatureState::Checked),
        (Signing::NotChecked, false, SignatureState::NotChecked),
    ] {
        let found = attest(&sample.log, &sample.list, &sample.signed(signing)).unwrap();
        assert_eq!((found.matches, found.signature, found.quote), (matches, signature, QuoteState::Match));
        assert_eq!((found.events, found.entries, found.firmware), (24, 99, 2312897626142815798));
        assert_eq!(found.clock, Clock { milliseconds: 626, resets: 1, restarts: 0, safe: true });
        assert_eq!(found.quoted, [QuotedBank { bank: Algorithm::Sha256, registers: (0..=10).collect() }]);
        let found = attest(&sample.log, &sample.longer(), &sample.signed(signing)).unwrap();
        assert_eq!((found.matches, found.quote), (false, QuoteState::Differ));
    }
    let [area, message, signature] = ["pub", "msg", "tpmt"].map(|kind| file(&format!("samples/signed/p384.{kind}")));
    let nonce = Nonce::Hex("5A0F1D3C7B2E48690123456789abcdef00112233\n");
    for key in [&area[..], read_key(&area).unwrap().pem.as_bytes()] {
        let quote = Quote::new(Signing::ByKey { key, signature: &signature }, &message, nonce, PCRS);
        assert!(attest(&sample.log, &sample.list, &quote).unwrap().matches);
    }
    assert_eq!(read_endorsement_key(&file("samples/keys/ek-p256.pub")).unwrap().hash, None);
}

#[test]
fn nonces_are_bytes_or_digits_and_other_quotes_are_refused() {
    let sample = Sample::new();
    let (quote, digits) = (sample.quote(), sample.nonce.trim());
    let Bytes(spelled) = digits.to_owned().try_into().unwrap();
    for nonce in [Nonce::Bytes(&spelled), Nonce::Hex(digits)] {
        assert!(attest(&sample.log, &sample.list, &Quote { nonce, ..quote }).unwrap().matches);
    }
    let with_nonce = |nonce| Quote { nonce, ..quote };
    let by = |key, signature| Quote { signing: Signing::ByKey { key, signature }, ..quote };
    for (quote, kind, number) in [
        (with_nonce(Nonce::Bytes(digits.as_bytes())), Kind::Quote, 11),
        (with_nonce(Nonce::Bytes(&spelled[..15])), Kind::Argument, 0),
        (with_nonce(Nonce::Hex(&digits[1..])), Kind::Argument, 0),
        (with_nonce(Nonce::Hex("")), Kind::Argument, 0),
        (Quote { require: "sha256:0-11", ..quote }, Kind::Quote, 12),
        (by(&sample.key, &[0; 256]), Kind::Signature, 7),
        (by(&sample.key, b""), Kind::Signature, 1),
        (by(b"", &sample.signature), Kind::Key, 1),
        (by(b"", b""), Kind::Key, 1),
    ] {
        check_refused(attest(&sample.log, &sample.list, &quote), kind, number, None);
    }
}

#[test]
fn inputs_are_refused_with_their_kind_number_and_place() {
    let sample = Sample::new();
    let (Sample { log, list, expected, .. }, cut) = (&sample, sample.cut());
    check_refused(verify(log, list, expected, &"sha256:0-9".to_owned()), Kind::Argument, 0, None);
    check_refused(verify(log, list, expected, Required::known(PCRS, &[b"", b"x"])), Kind::Known, 2, Some(1));
    check_refused(verify(log, cut, expected, PCRS), Kind::List, 1, Some(98));
    check_refused(verify(&log[..31], list, expected, PCRS), Kind::Log, 1, Some(0));
    check_refused(locate(log, list, b"x", PCRS), Kind::Expected, 1, Some(1));
    check_refused(replay(&[&list[..4], &[1], &list[5..]].concat(), expected, PCRS), Kind::Replay, 1, Some(0));
    check_refused(crate::expected(b"", None), Kind::Expected, 6, None);
    check_refused(crate::expected(b"", Some("24")), Kind::Argument, 0, None);
    check_refused(read_endorsement_key(&file("samples/keys/ak-p256.pub")), Kind::Key, 21, None);
    fn crosses_threads<T: Send + Sync + 'static>() {}
    crosses_threads::<(Session, Entries<'static>, Events<'static>, Required<'static>, Evidence<'static>, Error, Boot)>();
}
