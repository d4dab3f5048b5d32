//! Records: steps, ids, what can be written, and how refusals speak.
use gtid_resume::{
    list, Gtid, GtidEvent, Refusal, ResumeSet, GTID_EVENT, GTID_TAGGED_LOG_EVENT, LONGEST_EVENT,
    MAX_TAG, PREVIOUS_GTIDS_EVENT,
};
use std::fs;
use std::io;
use std::path::Path;

fn example(name: &str) -> Vec<u8> {
    let folder = Path::new(env!("CARGO_MANIFEST_DIR")).join("../../examples");
    fs::read(folder.join(name)).unwrap()
}

#[test]
fn records_come_back() {
    let tagged = example("tagged.bin");
    let read = GtidEvent::read(GTID_TAGGED_LOG_EVENT, &tagged[1..]).unwrap();
    let (event, used) = (read.event, read.used);
    assert_eq!(
        (event.tag.as_slice(), event.gno, used),
        (&b"depot_7"[..], 41, tagged.len() - 1)
    );
    assert_eq!(event.write().unwrap(), tagged[1..]);
}

#[test]
fn a_checksum_that_was_left_in_reads_as_a_server_version() {
    let trap = example("checksum-left-in.bin");
    let read = GtidEvent::read(GTID_EVENT, &trap[1..]).unwrap();
    assert_eq!(read.event.immediate_server_version, 1_630_334_338);
}

#[test]
fn ids_show_as_in_the_listing() {
    for event in [
        GtidEvent::new([0x0f; 16], 0),
        GtidEvent::new([0xab; 16], u64::MAX),
        GtidEvent::new_tagged([0; 16], b"depot_7", 41).unwrap(),
    ] {
        let text = list(event.event_type(), &event.write().unwrap());
        assert_eq!(text, format!("gtid {}\n", event.gtid()));
    }
}

#[test]
fn ids_have_the_order_of_a_set() {
    let id = |sid: u8, tag, gno| Gtid {
        sid: [sid; 16],
        tag,
        gno,
    };
    let mut ids = [
        id(2, b"", 1),
        id(1, b"ab", 1),
        id(1, b"a", 2),
        id(1, b"a", 1),
        id(1, b"", 9),
    ];
    ids.sort();
    ids[..]
        .windows(2)
        .for_each(|pair| assert!(pair[0] < pair[1]));
    assert_eq!((ids[0], ids[4]), (id(1, b"", 9), id(2, b"", 1)));
}

#[test]
fn new_records_are_as_the_rules_say() {
    let untagged = GtidEvent::new([7; 16], 5);
    assert_eq!(untagged.lc_typecode, Some(2));
    let tagged = GtidEvent::new_tagged([7; 16], b"a", 5).unwrap();
    assert_eq!(tagged.lc_typecode, None);
    for event in [untagged, tagged] {
        assert_eq!((event.sid, event.gno, event.flags), ([7; 16], 5, 0));
        assert_eq!((event.last_committed, event.sequence_number), (0, 0));
        assert_eq!(event.immediate_commit_timestamp, 0);
        assert_eq!(event.original_commit_timestamp, 0);
        assert_eq!((event.tx_length, event.commit_group_ticket), (0, 0));
        let undefined = GtidEvent::UNDEFINED_SERVER_VERSION;
        assert_eq!(versions(&event), (undefined, undefined));
        let read = GtidEvent::read(event.event_type(), &event.write().unwrap()).unwrap();
        assert_eq!(read.event, event);
    }
}

fn versions(event: &GtidEvent) -> (u32, u32) {
    (
        event.immediate_server_version,
        event.original_server_version,
    )
}

#[test]
fn a_new_record_without_its_typecode_is_25_bytes() {
    let event = GtidEvent::new([7; 16], 5).without_lc_typecode();
    let body = event.write().unwrap();
    assert_eq!(body, [&[0][..], &[7; 16], &5u64.to_le_bytes()].concat());
    let read = GtidEvent::read(GTID_EVENT, &body).unwrap();
    assert_eq!((read.event, read.used), (event, 25));
}

#[test]
fn a_record_of_which_no_version_was_sent_has_those_of_a_new_one() {
    let new = versions(&GtidEvent::new([7; 16], 5));
    let read = |event_type, body: &[u8]| GtidEvent::read(event_type, body).unwrap().event;
    assert_eq!(versions(&read(GTID_EVENT, &[0; 25])), new);
    let whole = GtidEvent::new([7; 16], 5).write().unwrap();
    let cut = &whole[..whole.len() - 4];
    assert_eq!(versions(&read(GTID_EVENT, cut)), new);
    // version byte, size 6, last non-ignorable id, and the tag alone
    let tagged = [2, 12, 0, 6, 2, b'a'];
    assert_eq!(versions(&read(GTID_TAGGED_LOG_EVENT, &tagged)), new);
}

#[test]
fn a_tag_keeps_versions_that_were_set_to_zero() {
    let event = GtidEvent::new([7; 16], 5)
        .with_immediate_server_version(0)
        .with_original_server_version(0);
    assert_eq!(versions(&event), (0, 0));
    assert_eq!(versions(&event.with_tag(b"a").unwrap()), (0, 0));
}

#[test]
fn a_tag_is_judged_by_the_archive() {
    let event = || GtidEvent::new([7; 16], 1);
    for tag in [&b"a"[..], b"_", b"a_tag_of_thirty_two_bytes____007"] {
        assert_eq!(event().with_tag(tag).unwrap().tag, tag);
    }
    let long = [b'a'; 300];
    for tag in [
        &b""[..],
        b"7a",
        b"UPPER",
        b"a b",
        b"a\0",
        b"\xc3\xa4",
        &long[..MAX_TAG + 1],
        &long[..255],
        &long[..256],
        &long,
    ] {
        assert_eq!(event().with_tag(tag), Err(Refusal::BadTag));
        assert_eq!(GtidEvent::new_tagged([7; 16], tag, 1), Err(Refusal::BadTag));
    }
}

#[test]
fn a_tag_keeps_the_typecode() {
    let event = GtidEvent::new([7; 16], 1).with_tag(b"a").unwrap();
    assert!(event.is_tagged());
    assert_eq!(event.lc_typecode, Some(2));
    assert_eq!(event.write(), Err(Refusal::NotWritable));
    let event = event.without_lc_typecode();
    assert_eq!(event.event_type(), GTID_TAGGED_LOG_EVENT);
    assert!(event.write().is_ok());
    assert_eq!(event.with_lc_typecode().write(), Err(Refusal::NotWritable));
}

#[test]
fn a_tag_put_in_past_the_steps_is_not_written() {
    let mut event = GtidEvent::new([7; 16], 1).without_lc_typecode();
    for tag in [&[b'a'; 40][..], b"UPPER"] {
        event.tag = tag.to_vec();
        assert_eq!(event.write(), Err(Refusal::NotWritable));
    }
}

/// Every number has its greatest value, so that no record takes more bytes.
#[test]
fn the_longest_record_is_as_long_as_it_is_said() {
    let signed = i64::MAX as u64;
    let tagged = GtidEvent::new_tagged([255; 16], &[b'a'; MAX_TAG], signed)
        .unwrap()
        .with_flags(255)
        .with_last_committed(signed)
        .with_sequence_number(signed)
        .with_immediate_commit_timestamp(u64::MAX)
        .with_original_commit_timestamp(u64::MAX - 1)
        .with_tx_length(u64::MAX)
        .with_immediate_server_version(u32::MAX)
        .with_original_server_version(u32::MAX - 1)
        .with_commit_group_ticket(u64::MAX);
    assert_eq!(tagged.write().unwrap().len(), LONGEST_EVENT);
    let untagged = GtidEvent::new([255; 16], u64::MAX)
        .with_immediate_commit_timestamp(1)
        .with_original_commit_timestamp((1 << 56) - 1)
        .with_tx_length(u64::MAX)
        .with_immediate_server_version(1)
        .with_original_server_version(u32::MAX);
    assert_eq!(untagged.write().unwrap().len(), 73);
}

const ALL: [Refusal; 20] = [
    Refusal::Ended,
    Refusal::TooLarge,
    Refusal::Negative,
    Refusal::WrongVersion,
    Refusal::UnknownField,
    Refusal::BadTag,
    Refusal::NoTag,
    Refusal::WrongType,
    Refusal::SmallPayload,
    Refusal::BadLead,
    Refusal::TooLong,
    Refusal::NotWritable,
    Refusal::NoRoom,
    Refusal::NotASet,
    Refusal::BadGno,
    Refusal::Full,
    Refusal::Crowded,
    Refusal::BadFile,
    Refusal::AbsentId,
    Refusal::Diverged,
];

#[test]
fn refusals_tell_name_number_and_words() {
    let refusal = GtidEvent::read(PREVIOUS_GTIDS_EVENT, &[]).unwrap_err();
    assert_eq!(refusal, Refusal::WrongType);
    assert_eq!(
        format!("{refusal:?}"),
        "WrongType (refusal 8: an event type that this call doesn't serve)"
    );
    for refusal in ALL.into_iter().chain([Refusal::Unknown(200)]) {
        let front = format!("refusal {}: ", refusal.number());
        assert!(refusal.to_string().starts_with(&front));
    }
    assert_eq!(Refusal::Unknown(200).number(), 200);
}

/// The archive's source is the place that says them: each is a case there, and 13, an output that is too short, a constant.
#[test]
fn refusals_have_the_names_and_numbers_of_the_source() {
    let folder = Path::new(env!("CARGO_MANIFEST_DIR")).join("../../crates/misc/src");
    let source = fs::read_to_string(folder.join("refusal.rt")).unwrap();
    for refusal in ALL {
        let number = refusal.number();
        let shown = format!("{refusal:?}");
        let line = match shown.split(' ').next().unwrap() {
            "NoRoom" => format!("\npub const NO_ROOM: u8 = {number};\n"),
            name => format!("\n    {name} = {number},\n"),
        };
        assert!(source.contains(&line), "{line}");
    }
    let (_, cases) = source.split_once("\npub enum Refusal {\n").unwrap();
    let (cases, _) = cases.split_once("\n}\n").unwrap();
    assert_eq!(
        cases.lines().count() + source.matches("pub const ").count(),
        ALL.len()
    );
}

#[test]
fn refusals_become_errors_of_io() {
    for (refusal, kind) in [
        (Refusal::Ended, io::ErrorKind::InvalidData),
        (Refusal::WrongType, io::ErrorKind::InvalidInput),
        (Refusal::NotWritable, io::ErrorKind::InvalidInput),
        (Refusal::NotASet, io::ErrorKind::InvalidData),
        (Refusal::Full, io::ErrorKind::Other),
        (Refusal::Crowded, io::ErrorKind::Other),
        (Refusal::BadFile, io::ErrorKind::InvalidData),
        (Refusal::AbsentId, io::ErrorKind::InvalidData),
        (Refusal::Diverged, io::ErrorKind::Other),
    ] {
        let error = io::Error::from(refusal);
        assert_eq!(error.kind(), kind);
        assert_eq!(error.to_string(), refusal.to_string());
        assert_eq!(error.get_ref().unwrap().downcast_ref(), Some(&refusal));
    }
    assert!(ResumeSet::take_in(&[]).map_err(io::Error::from).is_err());
}
