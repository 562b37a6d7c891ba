//! Entries and events, one after another.

use super::answers::reply;
use super::*;
use crate::library::{Listed, Out, Position, CAPACITY, DIFFERS, DONE, MORE};
use crate::lines::Lines;

/// The items before an error, and the error, after which there is nothing.
fn all<T>(mut items: impl Iterator<Item = Result<T, Error>>) -> (Vec<T>, Result<(), Error>) {
    let mut end = Ok(());
    let found = items.by_ref().map_while(|item| item.map_err(|error| end = Err(error)).ok()).collect();
    assert!(items.next().is_none());
    (found, end)
}

#[test]
fn entries_of_the_sample_are_the_kernels_text() {
    let (list, mut lines) = (Sample::new().list, Vec::new());
    for (number, entry) in all(entries(&list)).0.into_iter().enumerate() {
        let (algorithm, digest) = (entry.algorithm.as_ref().unwrap(), entry.digest.as_ref().unwrap());
        let start = format!("{:2} {} {} {algorithm}:{digest} ", entry.register, entry.template_digest, entry.template.as_ref().unwrap());
        lines.extend([start.as_bytes(), entry.path_bytes().unwrap(), b"\n"].concat());
        assert_eq!((entry.entry, entry.genuine, entry.violation), (number as u64, true, matches!(number, 93 | 94 | 97)));
    }
    assert!(lines == file("samples/real-boot/ima.ascii") && lines == show(&list).unwrap());
    let many = list.repeat(20); // (more than one piece)
    assert!(show(&many).unwrap() == lines.repeat(20) && lines.len() * 20 > 2 * CAPACITY);
    assert_eq!((all(entries(&many)).0.len(), all(entries(&[])).0.len()), (20 * 99, 0));
}

#[test]
fn damaged_inputs_give_what_comes_before_the_error() {
    let sample = Sample::new();
    let (found, end) = all(entries(sample.cut()));
    assert_eq!(found, all(entries(&sample.list)).0[..98]);
    check_refused(end, Kind::List, 1, Some(98));
    let (whole, listing) = (events(&sample.log).unwrap(), events(&sample.log[..sample.log.len() - 1]).unwrap());
    assert_eq!(listing.header().algorithms, [DeclaredAlgorithm { name: Some(Algorithm::Sha256), id: 11, size: 32 }]);
    let (found, end) = all(listing);
    assert_eq!(found, all(whole).0[..23]);
    check_refused(end, Kind::Log, 1, Some(24));
    check_refused(events(&[]), Kind::Log, 1, Some(0));
    check_refused(show(sample.cut()), Kind::List, 1, Some(98));
}

#[test]
fn inputs_in_other_forms_are_converted() {
    let Sample { log, list, .. } = Sample::new();
    assert_eq!(convert_list(&file("samples/real-boot/ima.ascii")), Ok(list.clone()));
    let padded = [&log[..], &[0xff; 70_000]].concat();
    assert_eq!((convert_log(&padded), convert_log(&log)), (Ok((log.clone(), 70_000)), Ok((log, 0))));
    check_refused(convert_list(b"x"), Kind::TextList, 1, Some(1));
    check_refused(convert_log(&list), Kind::LogForm, 13, None);
}

/// The event of an H-CRTM tells where PCR 0 began, as an event of the locality does.
#[test]
fn event_of_an_hcrtm_is_looked_at() {
    let sample = Sample::new();
    let log = [&sample.log[..], &[0, 0, 0, 0, 0x10, 0, 0, 0x80, 1, 0, 0, 0, 11, 0], &[0; 36]].concat();
    let told = [&log[..], &[0, 0, 0, 0, 3, 0, 0, 0, 0, 0, 0, 0, 17, 0, 0, 0], b"StartupLocality\0\x04"].concat();
    let (hcrtm, list, expected) = (Log::hcrtm(&log), &sample.list[..], &sample.expected[..]);
    assert_eq!((registers(hcrtm), registers(&log) == registers(&told)), (registers(&told), false));
    assert_eq!(verify(hcrtm, list, expected, PCRS), verify(&told, list, expected, PCRS));
    assert_eq!(locate(hcrtm, list, expected, PCRS), locate(&told, list, expected, PCRS));
    assert_eq!(attest(hcrtm, list, &sample.quote()), attest(&told, list, &sample.quote()));
    assert_eq!(Session::new(hcrtm, expected, PCRS).more(list), Session::new(&told, expected, PCRS).more(list));
}

/// A library that gives the pieces of a script, one after another.
fn scripted(script: &Listed<'_>, at: &mut Position, out: &mut Out) -> i32 {
    let (result, text) = serde_json::from_slice::<Vec<(i32, String)>>(script.bytes).unwrap().swap_remove(at.number);
    at.number += 1;
    out.text[..text.len()].copy_from_slice(text.as_bytes());
    out.info = reply(result, &text).info;
    result
}

#[test]
fn listings_that_are_cut_end_in_an_error() {
    let entry = &format!("{}\n", all(entries(&Sample::new().list)).0[0].json)[..];
    let end = "{\"entries\":2}\n";
    for (pieces, count, is_whole) in [
        (&[(MORE, entry), (MORE, entry), (DONE, end)][..], 2, true),
        (&[(MORE, entry), (DONE, "")], 1, false),
        (&[(MORE, "")], 0, false),
        (&[(MORE, entry), (DONE, end)], 1, false),
        (&[(DONE, entry.trim_end())], 0, false),
        (&[(MORE, entry), (MORE, entry), (DIFFERS, end)], 2, false),
        (&[(MORE, entry), (DONE, "{\"entry\":2}\n")], 1, false),
    ] {
        let script = serde_json::to_vec(&pieces).unwrap();
        let (found, end) = all(Entries(Lines::of(&script, None, scripted)));
        assert_eq!((found.len(), end.is_ok()), (count, is_whole), "{pieces:?} {end:?}");
    }
}
