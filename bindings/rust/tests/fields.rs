//! Which fields of a tagged event are there, and what an offer and the listing say of an event without its id.
use gtid_resume::{
    list, Field, Fields, GtidEvent, GtidRead, Offered, Refusal, ResumeSet, ANONYMOUS_GTID_EVENT,
    GTID_EVENT, GTID_TAGGED_LOG_EVENT, HIGHEST_GNO,
};

mod common;
use common::take;

/// In the order of their ids.
const FIELDS: [Field; 12] = [
    Field::GtidFlags,
    Field::Uuid,
    Field::Gno,
    Field::Tag,
    Field::LastCommitted,
    Field::SequenceNumber,
    Field::ImmediateCommitTimestamp,
    Field::OriginalCommitTimestamp,
    Field::TransactionLength,
    Field::ImmediateServerVersion,
    Field::OriginalServerVersion,
    Field::CommitGroupTicket,
];

/// A variable-length integer in its one-byte form.
fn item(value: usize) -> u8 {
    assert!(value < 128);
    2 * value as u8
}

/// A signed one that isn't negative.
fn signed(value: usize) -> u8 {
    item(2 * value)
}

/// A field as it stands in an event: its id, and a value. The numbers are 10 to 21.
fn sent(id: usize) -> Vec<u8> {
    let mut bytes = vec![item(id)];
    match id {
        1 => bytes.extend([item(7); 16]),
        2 | 4 | 5 => bytes.push(signed(10 + id)),
        3 => bytes.extend([&[item(5)][..], b"depot"].concat()),
        _ => bytes.push(item(10 + id)),
    }
    bytes
}

/// A gno, whatever its value.
fn sent_gno(gno: u64) -> Vec<u8> {
    let mut bytes = vec![item(2), 0xff];
    bytes.extend((2 * gno).to_le_bytes());
    bytes
}

/// A field that isn't known, and may be ignored: its length isn't known either.
fn unknown() -> Vec<u8> {
    vec![item(12), 0xff, 0xff]
}

/// The body of a tagged event: version byte, whole size, last non-ignorable id 0, and these fields.
fn body(fields: &[Vec<u8>]) -> Vec<u8> {
    let fields = fields.concat();
    [&[2, item(3 + fields.len()), item(0)], &fields[..]].concat()
}

fn read(body: &[u8]) -> Result<GtidRead, Refusal> {
    GtidEvent::read(GTID_TAGGED_LOG_EVENT, body)
}

fn present(fields: &[Vec<u8>]) -> Fields {
    let body = body(fields);
    let read = read(&body).unwrap();
    assert_eq!(read.used, body.len());
    read.present
}

/// What an offer to a set comes to. One that is refused leaves the set as it was.
fn offered(set: &mut ResumeSet, body: &[u8]) -> Result<Offered, Refusal> {
    let before = set.clone();
    let answer = take(set, GTID_TAGGED_LOG_EVENT, body);
    assert!(answer.is_ok() || *set == before);
    answer
}

/// The answers of an offer to the empty set and of the listing.
fn answers(fields: &[Vec<u8>]) -> (Result<Offered, Refusal>, String) {
    let body = body(fields);
    let offered = offered(&mut ResumeSet::empty(), &body);
    (offered, list(GTID_TAGGED_LOG_EVENT, &body))
}

fn refused(refusal: Refusal) -> (Result<Offered, Refusal>, String) {
    (Err(refusal), format!("refused {}\n", refusal.number()))
}

fn listed(gno: u64) -> String {
    format!("gtid 07070707-0707-0707-0707-070707070707:depot:{gno}\n")
}

#[test]
fn fields_have_their_ids() {
    assert_eq!(Field::ALL, FIELDS);
    for (id, field) in FIELDS.into_iter().enumerate() {
        assert_eq!(usize::from(field.id()), id);
        assert_eq!(present(&[sent(3), sent(id)]).bits(), 1 << 3 | 1 << id);
    }
}

#[test]
fn fields_are_a_set() {
    for bits in 0..1 << 12 {
        let has = |field: &Field| bits >> field.id() & 1 == 1;
        let there: Vec<_> = FIELDS.into_iter().filter(has).collect();
        let fields = Fields::from_iter(there.iter().rev().copied());
        assert_eq!((fields.bits(), fields.len()), (bits, there.len()));
        assert_eq!(fields.is_empty(), there.is_empty());
        assert!(FIELDS.iter().all(|one| fields.contains(*one) == has(one)));
        assert_eq!(fields.iter().len(), there.len());
        assert_eq!(Vec::from_iter(fields), there);
    }
    assert_eq!(Fields::default(), Fields::from_iter([]));
    let shown = format!("{:?}", Fields::from_iter([Field::Tag, Field::Uuid]));
    assert_eq!(shown, "{Uuid, Tag}");
}

#[test]
fn every_subset_of_the_fields_is_told() {
    for subset in 0..1 << 12 {
        let has = |id: &usize| subset >> id & 1 == 1;
        let fields: Vec<_> = (0..12).filter(has).map(sent).collect();
        let falling: Vec<_> = fields.iter().rev().cloned().collect();
        for order in [&fields, &falling] {
            let answer = read(&body(order)).map(|read| read.present.bits());
            assert_eq!(answer, has(&3).then_some(subset).ok_or(Refusal::NoTag));
        }
        let expected = match (has(&3), has(&1) && has(&2)) {
            (false, _) => refused(Refusal::NoTag),
            (true, false) => refused(Refusal::AbsentId),
            (true, true) => (Ok(Offered::Taken), listed(12)),
        };
        assert_eq!(answers(&fields), expected, "{subset:012b}");
    }
}

#[test]
fn a_repeated_field_counts_once() {
    for id in 0..12 {
        let fields = [sent(3), sent(id), sent(id), sent(3)];
        assert_eq!(present(&fields), present(&fields[..2]));
    }
    let twice: Vec<_> = (0..12).chain(0..12).map(sent).collect();
    assert_eq!(present(&twice).len(), 12);
}

#[test]
fn what_is_behind_an_unknown_field_is_absent() {
    let order = [3, 11, 2, 9, 0, 10, 1, 4, 8, 5, 7, 6];
    for before in 0..=12 {
        let mut fields = Vec::from(order.map(sent));
        fields.insert(before, unknown());
        if before == 0 {
            assert_eq!(read(&body(&fields)), Err(Refusal::NoTag));
            continue;
        }
        let bits = order[..before].iter().fold(0, |bits, id| bits | 1 << id);
        assert_eq!(present(&fields).bits(), bits);
        // the gno is the third field, the uuid the seventh
        let expected = match before {
            7.. => (Ok(Offered::Taken), listed(12)),
            _ => refused(Refusal::AbsentId),
        };
        assert_eq!(answers(&fields), expected);
    }
}

#[test]
fn an_original_that_was_not_sent_is_absent() {
    let read = read(&body(&[sent(3), sent(6), sent(9)])).unwrap();
    let event = read.event;
    assert_eq!(event.immediate_commit_timestamp, 16);
    assert_eq!(event.original_commit_timestamp, 16);
    assert_eq!(event.immediate_server_version, 19);
    assert_eq!(event.original_server_version, 19);
    assert!(!read.present.contains(Field::OriginalCommitTimestamp));
    assert!(!read.present.contains(Field::OriginalServerVersion));
    // nor is an immediate one where its original was
    let originals = present(&[sent(3), sent(7), sent(10)]);
    assert!(!originals.contains(Field::ImmediateCommitTimestamp));
    assert!(!originals.contains(Field::ImmediateServerVersion));
}

#[test]
fn a_gno_that_was_sent_as_0_is_another_refusal() {
    let (uuid, tag) = (sent(1), sent(3));
    for zero in [vec![item(2), signed(0)], sent_gno(0)] {
        let sent_as_0 = [uuid.clone(), zero.clone(), tag.clone()];
        assert_eq!(answers(&sent_as_0), (Err(Refusal::BadGno), listed(0)));
        let behind = [uuid.clone(), tag.clone(), unknown(), zero];
        assert_eq!(answers(&behind), refused(Refusal::AbsentId));
    }
    assert_eq!(answers(&[uuid, tag]), refused(Refusal::AbsentId));
}

#[test]
fn without_a_uuid_no_gno_is_judged() {
    for gno in [0, 1, HIGHEST_GNO, HIGHEST_GNO + 1] {
        let fields = [sent(3), sent_gno(gno)];
        assert_eq!(answers(&fields), refused(Refusal::AbsentId));
        let with_uuid = [sent(1), sent(3), sent_gno(gno)];
        let offered = match gno {
            1..=HIGHEST_GNO => Ok(Offered::Taken),
            _ => Err(Refusal::BadGno),
        };
        assert_eq!(answers(&with_uuid), (offered, listed(gno)));
    }
    assert_eq!(answers(&[sent(3)]), refused(Refusal::AbsentId));
}

/// Zeros stand in the record for a uuid that wasn't sent; the id that they would make is another.
#[test]
fn an_event_without_a_uuid_is_not_already_there() {
    let mut set = ResumeSet::empty();
    let zeros = GtidEvent::new_tagged([0; 16], b"depot", 12).unwrap();
    let whole = zeros.write().unwrap();
    assert_eq!(offered(&mut set, &whole), Ok(Offered::Taken));
    assert_eq!(offered(&mut set, &whole), Ok(Offered::AlreadyThere));
    let without = body(&[sent(2), sent(3)]);
    let read = read(&without).unwrap();
    assert_eq!(read.event.gtid(), zeros.gtid());
    assert_eq!(offered(&mut set, &without), Err(Refusal::AbsentId));
}

/// The event's own refusals, as a number of a later field that is negative.
#[test]
fn an_event_is_refused_before_its_id() {
    for (fault, refusal) in [
        (vec![item(0), 1, 4], Refusal::TooLarge),
        (vec![item(4), item(1)], Refusal::Negative),
        (vec![item(3), item(1), b'7'], Refusal::BadTag),
        (vec![item(8)], Refusal::Ended),
    ] {
        let fields = [sent(3), fault];
        assert_eq!(read(&body(&fields)), Err(refusal));
        assert_eq!(answers(&fields), refused(refusal));
    }
}

#[test]
fn untagged_events_have_none_and_miss_none() {
    let event = GtidEvent::new([0; 16], 0)
        .with_immediate_commit_timestamp(1)
        .with_original_commit_timestamp(2)
        .with_immediate_server_version(1)
        .with_original_server_version(2);
    let whole = event.write().unwrap();
    let mut set = ResumeSet::empty();
    for len in 25..=whole.len() {
        let body = &whole[..len];
        for event_type in [GTID_EVENT, ANONYMOUS_GTID_EVENT] {
            match GtidEvent::read(event_type, body) {
                Ok(read) => assert!(read.present.is_empty()),
                Err(refusal) => {
                    assert_eq!(refusal, Refusal::Ended);
                    assert_eq!(take(&mut set, event_type, body), Err(refusal));
                    continue;
                }
            }
            let (offered, text) = match event_type {
                GTID_EVENT => (Err(Refusal::BadGno), format!("gtid {}\n", event.gtid())),
                _ => (Ok(Offered::NoId), "anonymous\n".to_string()),
            };
            assert_eq!(take(&mut set, event_type, body), offered);
            assert_eq!(list(event_type, body), text);
        }
    }
}

#[test]
fn what_the_writer_leaves_out_is_absent() {
    let event = GtidEvent::new_tagged([7; 16], b"depot", 12).unwrap();
    let written = |event: &GtidEvent| read(&event.write().unwrap()).unwrap();
    let few = written(&event);
    assert_eq!((&few.event, few.present.bits()), (&event, 0b0011_0111_1111));
    let event = event
        .with_original_commit_timestamp(1)
        .with_original_server_version(1)
        .with_commit_group_ticket(1);
    let all = written(&event);
    assert_eq!((&all.event, all.present.bits()), (&event, 0b1111_1111_1111));
}

/// The record of an event without its id is written with zeros, which are sent then.
#[test]
fn an_event_without_its_id_is_read_and_written() {
    let short = body(&[sent(3), unknown()]);
    let record = read(&short).unwrap();
    assert_eq!(record.present, Fields::from_iter([Field::Tag]));
    assert_eq!((record.event.sid, record.event.gno), ([0; 16], 0));

    let mut fields = vec![vec![item(0), 0]];
    fields.push([&[item(1)][..], &[0; 16]].concat());
    fields.push(vec![item(2), 0]);
    fields.push(sent(3));
    fields.extend([4, 5, 6, 8].map(|id| vec![item(id), 0]));
    // 999,999 in three bytes: two trailing ones
    let version = (GtidEvent::UNDEFINED_SERVER_VERSION << 3 | 0b011).to_le_bytes();
    fields.push([&[item(9)][..], &version[..3]].concat());
    let written = record.event.write().unwrap();
    assert_eq!(written, body(&fields));

    let again = read(&written).unwrap();
    assert_eq!(again.event, record.event);
    assert!(again.present.contains(Field::Uuid) && again.present.contains(Field::Gno));
    let mut set = ResumeSet::empty();
    assert_eq!(offered(&mut set, &short), Err(Refusal::AbsentId));
    assert_eq!(offered(&mut set, &written), Err(Refusal::BadGno));
}
