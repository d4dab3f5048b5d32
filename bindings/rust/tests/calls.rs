//! The examples of the repository, and what the calls answer, through the archive. (How much a set may hold is in `limits.rs`.)
use gtid_resume::{
    list, read_varlen_uint, rewrite, Entry, GtidEvent, Offered, PreviousGtidsEvent, Refusal,
    ResumeSet, ANONYMOUS_GTID_EVENT, GTID_EVENT, HIGHEST_GNO, MAX_BODY, PREVIOUS_GTIDS_EVENT,
};
use std::fs;
use std::path::Path;

mod common;
use common::{apart, put_intervals, put_tag, take, with_tags};

fn gtid(uuid: u8, gno: u64) -> Vec<u8> {
    let mut body = vec![0];
    body.extend([uuid; 16]);
    body.extend(gno.to_le_bytes());
    body
}

fn previous(entries: &[(u8, &[(u64, u64)])]) -> Vec<u8> {
    let mut body = (entries.len() as u64).to_le_bytes().to_vec();
    for (uuid, intervals) in entries {
        body.extend([*uuid; 16]);
        put_intervals(&mut body, intervals);
    }
    body
}

type Tagged<'a> = (u8, &'a [u8], &'a [(u64, u64)]);

fn tagged_previous(entries: &[Tagged]) -> Vec<u8> {
    let mut body = with_tags(entries.len() as u64).to_le_bytes().to_vec();
    for (uuid, tag, intervals) in entries {
        body.extend([*uuid; 16]);
        put_tag(&mut body, tag);
        put_intervals(&mut body, intervals);
    }
    body
}

/// The entries of a body that is used up to this place, against those that were put in.
fn assert_entries(body: &[u8], used: usize, entries: &[Tagged]) {
    let (previous, said) = PreviousGtidsEvent::read(body).unwrap();
    assert_eq!(
        (previous.len(), previous.is_empty(), said),
        (entries.len(), entries.is_empty(), used)
    );
    assert_same(previous.sids(), entries);
}

fn assert_same<'a>(entries: impl ExactSizeIterator<Item = Entry<'a>>, wanted: &[Tagged]) {
    assert_eq!(entries.len(), wanted.len());
    for (entry, (sid, tag, intervals)) in entries.zip(wanted) {
        assert_eq!((entry.uuid(), entry.tag()), (&[*sid; 16], *tag));
        assert_eq!(entry.intervals().len(), intervals.len());
        assert!(entry.intervals().eq(intervals.iter().copied()));
    }
}

#[test]
fn examples_list_as_they_say() {
    let folder = Path::new(env!("CARGO_MANIFEST_DIR")).join("../../examples");
    let mut seen = 0;
    for entry in fs::read_dir(folder).unwrap() {
        let path = entry.unwrap().path();
        if path.extension() == Some("bin".as_ref()) {
            let event = fs::read(&path).unwrap();
            let text = fs::read_to_string(path.with_extension("txt")).unwrap();
            assert_eq!(list(event[0], &event[1..]), text, "{}", path.display());
            seen += 1;
        }
    }
    assert_eq!(seen, 6);
}

#[test]
fn a_gap_is_closed() {
    let mut set = ResumeSet::take_in(&previous(&[(1, &[(1, 6), (7, 8)])])).unwrap();
    assert_eq!(set.counts(), (1, 2));
    assert_eq!(take(&mut set, GTID_EVENT, &gtid(1, 6)), Ok(Offered::Taken));
    assert_eq!(
        set,
        ResumeSet::take_in(&previous(&[(1, &[(1, 8)])])).unwrap()
    );
}

#[test]
fn a_run_fed_again_ends_in_the_same_bytes() {
    let opening = previous(&[(9, &[(5, 7)]), (3, &[(1, 2)])]);
    let events: Vec<_> = [(3, 9), (3, 2), (7, 1), (9, 7), (3, 9)]
        .map(|(uuid, gno)| gtid(uuid, gno))
        .into();
    let mut whole = ResumeSet::take_in(&opening).unwrap();
    for event in &events {
        assert!(take(&mut whole, GTID_EVENT, event).is_ok());
    }
    for stop in 0..=events.len() {
        let mut set = ResumeSet::take_in(&opening).unwrap();
        for event in &events[..stop] {
            assert!(take(&mut set, GTID_EVENT, event).is_ok());
        }
        let mut again = ResumeSet::from_bytes(set.as_bytes().to_vec()).unwrap();
        for event in &events {
            assert!(take(&mut again, GTID_EVENT, event).is_ok());
        }
        assert_eq!(again.as_bytes(), whole.as_bytes());
    }
}

#[test]
fn an_offer_that_is_dropped_changes_nothing() {
    let mut set = ResumeSet::take_in(&previous(&[(1, &[(1, 6)])])).unwrap();
    let before = set.clone();
    let offer = set.offer(GTID_EVENT, &gtid(1, 6)).unwrap();
    assert_eq!(offer.answer(), Offered::Taken);
    let next = offer.next_bytes().to_vec();
    drop(offer);
    assert_eq!(set, before);
    // and is answered alike the next time
    assert_eq!(take(&mut set, GTID_EVENT, &gtid(1, 6)), Ok(Offered::Taken));
    assert_eq!(set.as_bytes(), next);
}

#[test]
fn only_a_new_id_changes_the_set() {
    let mut set = ResumeSet::take_in(&previous(&[(1, &[(1, 6)])])).unwrap();
    for (event_type, answer) in [
        (GTID_EVENT, Offered::AlreadyThere),
        (ANONYMOUS_GTID_EVENT, Offered::NoId),
    ] {
        let before = set.clone();
        let offer = set.offer(event_type, &gtid(1, 5)).unwrap();
        assert_eq!(
            (offer.answer(), offer.next_bytes()),
            (answer, before.as_bytes())
        );
        offer.commit();
        assert_eq!(set, before);
    }
}

/// The number after the highest ends an interval, and events carry it.
#[test]
fn no_set_goes_past_the_highest_number() {
    let beyond = HIGHEST_GNO + 1;
    let mut set = ResumeSet::take_in(&previous(&[(1, &[(1, beyond)])])).unwrap();
    assert!(set.contains(&[1; 16], b"", HIGHEST_GNO) && !set.contains(&[1; 16], b"", beyond));
    let longer = previous(&[(1, &[(1, beyond + 1)])]);
    assert_eq!(ResumeSet::take_in(&longer), Err(Refusal::BadGno));
    assert_eq!(list(PREVIOUS_GTIDS_EVENT, &longer), "refused 15\n");
    assert_eq!(ResumeSet::from_bytes(longer), Err(Refusal::NotASet));
    for event in [
        GtidEvent::new([1; 16], beyond),
        GtidEvent::new_tagged([1; 16], b"a", beyond).unwrap(),
    ] {
        let body = event.write().unwrap();
        let read = GtidEvent::read(event.event_type(), &body).unwrap();
        assert_eq!((&read.event, read.used), (&event, body.len()));
        assert!(list(event.event_type(), &body).ends_with(&format!(":{beyond}\n")));
        assert_eq!(
            take(&mut set, event.event_type(), &body),
            Err(Refusal::BadGno)
        );
    }
}

const PLAIN: [Tagged; 3] = [
    (9, b"", &[(5, 7), (1, 2)]),
    (3, b"", &[]),
    (9, b"", &[(0, u64::MAX)]),
];
const TAGS: [Tagged; 4] = [
    (2, b"", &[(1, 2)]),
    (2, b"a_tag_of_thirty_two_bytes____007", &[]),
    (1, b"depot_7", &[(8, 9), (4, 4)]),
    (1, b"", &[]),
];

#[test]
fn entries_come_out_as_they_went_in() {
    let plain = previous(&PLAIN.map(|(uuid, _, intervals)| (uuid, intervals)));
    assert_entries(&plain, plain.len(), &PLAIN);
    let tagged = tagged_previous(&TAGS);
    assert_entries(&tagged, tagged.len(), &TAGS);
    assert_entries(&[0; 8], 8, &[]);
    assert_entries(&tagged_previous(&[]), 8, &[]);
    // a tag's length in its two-byte form
    let mut longer = tagged_previous(&[(1, b"a", &[(1, 2)])]);
    longer.splice(24..25, [5, 0]);
    assert_entries(&longer, longer.len(), &[(1, b"a", &[(1, 2)])]);
    // as many intervals as fit, and as many entries: behind the header, a uuid and a count, and then 16 bytes for each interval
    let gaps = apart((MAX_BODY as u64 - 8 - 24) / 16, 1);
    assert_entries(&previous(&[(1, &gaps)]), MAX_BODY, &[(1, b"", &gaps)]);
    const BARE: usize = (MAX_BODY - 8) / 24;
    let bare: [Tagged; BARE] = [(1, b"", &[]); BARE];
    assert_entries(
        &previous(&bare.map(|(uuid, _, intervals)| (uuid, intervals))),
        8 + 24 * BARE,
        &bare,
    );
}

#[test]
fn a_set_hands_out_its_entries_in_order() {
    let opening = tagged_previous(&[
        (9, b"", &[(5, 7), (1, 2), (2, 5)]),
        (3, b"b", &[(8, 9), (1, 2)]),
        (3, b"", &[]),
        (3, b"a", &[(4, 5)]),
    ]);
    let set = ResumeSet::take_in(&opening).unwrap();
    assert_same(
        set.entries(),
        &[
            (3, b"a", &[(4, 5)]),
            (3, b"b", &[(1, 2), (8, 9)]),
            (9, b"", &[(1, 7)]),
        ],
    );
    assert_eq!(ResumeSet::empty().entries().len(), 0);
}

#[test]
fn bytes_behind_a_body_are_left() {
    let mut body = tagged_previous(&TAGS);
    let used = body.len();
    body.extend([0xff; 40]);
    assert_entries(&body, used, &TAGS);
    assert_entries(&[0; MAX_BODY], 8, &[]);
}

#[test]
fn every_cut_of_a_body_is_refused() {
    for body in [
        previous(&[(9, PLAIN[0].2), (3, &[])]),
        tagged_previous(&TAGS),
    ] {
        for cut in 0..body.len() {
            let refused = PreviousGtidsEvent::read(&body[..cut]).unwrap_err();
            assert_eq!(refused, Refusal::Ended, "{cut}");
        }
    }
}

#[test]
fn integers_have_nine_forms() {
    for ones in 0..=8 {
        // the value 1 with so many trailing ones before it, and bytes of the next item
        let mut bytes = vec![0; 12];
        bytes[0] = ((1u16 << ones) - 1) as u8;
        match ones {
            7 | 8 => bytes[1] = 1,
            _ => bytes[0] |= 2 << ones,
        }
        assert_eq!(read_varlen_uint(&bytes), Ok((1, ones + 1)));
        for cut in 0..=ones {
            assert_eq!(read_varlen_uint(&bytes[..cut]), Err(Refusal::Ended));
        }
    }
    assert_eq!(read_varlen_uint(&[0xff; 9]), Ok((u64::MAX, 9)));
}

/// Why a body is refused.
fn refusal_of(body: &[u8]) -> Refusal {
    PreviousGtidsEvent::read(body).unwrap_err()
}

#[test]
fn bodies_are_refused() {
    let too_long = [0; MAX_BODY + 1];
    assert_eq!(refusal_of(&too_long), Refusal::TooLong);
    assert_eq!(ResumeSet::take_in(&too_long), Err(Refusal::TooLong));
    assert_eq!(refusal_of(&[0; 7]), Refusal::Ended);
    assert_eq!(rewrite(&[0; 4]), Err(Refusal::Ended));
    assert_eq!(read_varlen_uint(&[]), Err(Refusal::Ended));
    let upper = tagged_previous(&[(1, b"UPPER", &[])]);
    assert_eq!(refusal_of(&upper), Refusal::BadTag);
    // the broken tag comes before the end that is missing
    let digit = tagged_previous(&[(1, b"7", &[]), (1, b"a", &[])]);
    assert_eq!(refusal_of(&digit[..33]), Refusal::BadTag);
    let without_number = previous(&[(1, &[(5, 5)])]);
    assert_eq!(ResumeSet::take_in(&without_number), Err(Refusal::BadGno));
    let unserved = GtidEvent::read(PREVIOUS_GTIDS_EVENT, &[]);
    assert_eq!(unserved, Err(Refusal::WrongType));
}
