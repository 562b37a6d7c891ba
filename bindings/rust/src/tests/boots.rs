//! What the samples booted, and what PCRs confirm of their events.

use super::*;

/// The events that are confirmed, by their numbers, and the answer on a boot.
fn confirmed(log: &[u8], evidence: Evidence<'_>) -> (Vec<u64>, Boot) {
    let (events, boot) = (confirmed_events(log, evidence).unwrap(), boot(log, evidence, None).unwrap());
    assert_eq!(events.quote_differs(), boot.quote_differs);
    let events = events.map(Result::unwrap).filter(|event| *event.confirmed.as_ref().unwrap() != Part::None);
    (events.map(|event| event.event).collect(), boot)
}

#[test]
fn boots_are_what_pcrs_confirm() {
    let [log, expected, before] =
        ["systemd-boot.log", "systemd-boot.expected", "secure-boot.log"].map(|name| file(&format!("samples/ovmf-boot/{name}")));
    let found = boot(&log, Evidence::Expected(&expected), Some(&before)).unwrap();
    assert_eq!((found.secure_boot, found.ima_policy.ima_policy, found.ima_policy.event), (SecureBoot::Off, PolicyState::Asked, Some(25)));
    let images: Vec<_> = found.images.iter().filter_map(|image| image.image.given()).collect();
    let commands: Vec<_> = found.commands.iter().map(|command| (command.register, command.command.given())).collect();
    assert_eq!((images, &commands[..2]), (vec![&23, &24], &[(8, None), (12, Some(&25))][..]));
    let variable = found.boot_variables[0].content.as_ref().unwrap().variable.as_ref().unwrap();
    assert_eq!((variable.name.as_deref(), variable.order.as_ref().unwrap().len()), (Some("BootOrder"), 3));
    let (alike, changed) = (&found.alike[0], &found.changed[0]);
    assert_eq!((alike.register, alike.bank.as_ref(), alike.alike.given()), (0, Some(&Algorithm::Sha256), Some(&1)));
    assert_eq!((changed.register, changed.now, changed.before, changed.claimed.blob.is_some()), (0, Some(2), None, true));
    let found = boot(&log, Evidence::Expected(b""), None).unwrap();
    assert_eq!((found.secure_boot, found.firmware_version), (SecureBoot::Unknown, Answer::Word(AnswerWord::Unknown)));
    assert_eq!((found.alike, found.changed, found.json.lines().count()), (vec![], vec![], 7));
    let evidence = Evidence::Expected(&expected);
    assert_eq!(boot(Log::hcrtm(&log), evidence, None), boot(&log, evidence, None));
}

#[test]
fn quotes_confirm_what_expected_pcrs_do() {
    let sample = Sample::new();
    let (log, list, quote) = (&sample.log[..], &sample.list[..], sample.quote());
    let (wanted, cut, longer) = (confirmed(log, Evidence::Expected(&sample.expected)), &log[..log.len() - 1], sample.longer());
    let unmeasured = [2, 3, 10, 21, 22];
    assert_eq!(wanted.0, (1..=24).filter(|number| !unmeasured.contains(number)).collect::<Vec<_>>());
    assert_eq!((confirmed(log, Evidence::Quote { list, quote }), &wanted.1.secure_boot), (wanted.clone(), &SecureBoot::Off));
    for (list, quote) in [(&longer[..], quote), (list, sample.signed(Signing::NotChecked))] {
        let (events, found) = confirmed(log, Evidence::Quote { list, quote });
        assert_eq!((events, found.quote_differs, found.secure_boot), (vec![], true, SecureBoot::Unknown));
    }
    for (log, evidence, kind, number, place) in [
        (cut, Evidence::Expected(&sample.expected), Kind::Log, 1, Some(24)),
        (log, Evidence::Expected(b"x"), Kind::Expected, 1, Some(1)),
        (log, Evidence::Quote { list: sample.cut(), quote }, Kind::List, 1, Some(98)),
        (log, Evidence::Quote { list, quote: quote.known(&[]) }, Kind::Argument, 0, None),
        (log, Evidence::Quote { list, quote: Quote { nonce: Nonce::Bytes(&[0; 20]), ..quote } }, Kind::Quote, 11, None),
    ] {
        check_refused(boot(log, evidence, None), kind.clone(), number, place);
        check_refused(confirmed_events(log, evidence), kind, number, place);
    }
    check_refused(boot(log, Evidence::Expected(b""), Some(cut)), Kind::Log, 1, Some(24));
}
