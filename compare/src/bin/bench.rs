//! What the repository's archive costs beside the given files of mysql_common 0.38.2, on the same inputs.
//!
//!     bench list                  what can be counted, for the script compare/bench
//!     bench SIDE WHAT TURNS       does WHAT so many times; run it under callgrind with two numbers of turns
//!     bench stack                 how deep each call of the archive goes into the stack
//!
//! Before the turns the answers are checked: both sides give the same, or ours gives what is written out here by hand.
//! Outputs are lent again and again, and not cleared between turns.

#[cfg(not(archive))]
compile_error!("GTID_ARCHIVE: the path of libabi.a");

use std::{
    env,
    hint::black_box,
    process::ExitCode,
    ptr::{self, null_mut},
};
use theirs::{
    binlog::{
        BinlogCtx,
        events::{gtid_event::GtidEvent, previous_gtids_event::PreviousGtidsEvent},
    },
    io::ParseBuf,
    misc::{read_varlen_uint, write_varlen_uint},
    numbers::{
        ALREADY_THERE, BINLOG_READER_LEN, BINLOG_WORK, EVENT_HEADER_LEN, GTID_EVENT,
        GTID_TAGGED_LOG_EVENT, HIGHEST_GNO, JOINED, LONGEST_EVENT, LONGEST_REPORT, LONGEST_SET,
        LONGEST_TEXT, MAX_BODY, MAX_ENTRIES, MAX_INTERVALS, MAX_OF_ENTRY, MAX_SETS, MORE_WANTED,
        PREVIOUS_GTIDS_EVENT, RECORD_LEN, REPORT_LEN, TAKEN,
        refusal::{CROWDED, DIVERGED, FULL, NOT_A_SET, TOO_LONG},
    },
    proto::{MyDeserialize, MySerialize},
};

#[path = "../linked.rs"]
mod linked;

/// The archive's calls over slices. SAFETY, for all of them: every piece is alive, as long as told, and apart from the
/// others, and so are the numbers; no pointer of a slice is null. gtid.h asks no more.
mod ours {
    use super::{BINLOG_READER_LEN, linked};

    pub struct Answer {
        pub refusal: u8,
        pub number: usize,
        pub kind: u8,
    }

    /// Of a call that hands out one number.
    #[inline(always)]
    fn answered(call: impl FnOnce(*mut usize) -> u8) -> Answer {
        let mut number = 0;
        let refusal = call(&raw mut number);
        Answer {
            refusal,
            number,
            kind: 0,
        }
    }

    macro_rules! over_output {
        ($name:ident, $call:ident) => {
            #[inline(always)]
            pub fn $name(input: &[u8], out: &mut [u8]) -> Answer {
                answered(|number| unsafe {
                    linked::$call(
                        input.as_ptr(),
                        input.len(),
                        out.as_mut_ptr(),
                        out.len(),
                        number,
                    )
                })
            }
        };
    }

    over_output!(take_in, gtid_take_in);
    over_output!(rewrite, gtid_rewrite);
    over_output!(list, gtid_list);
    over_output!(write, gtid_write);
    over_output!(report_write, gtid_report_write);

    macro_rules! over_two_sets {
        ($name:ident, $call:ident) => {
            #[inline(always)]
            pub fn $name(first: &[u8], second: &[u8], out: &mut [u8]) -> Answer {
                answered(|number| unsafe {
                    linked::$call(
                        first.as_ptr(),
                        first.len(),
                        second.as_ptr(),
                        second.len(),
                        out.as_mut_ptr(),
                        out.len(),
                        number,
                    )
                })
            }
        };
    }

    over_two_sets!(either, gtid_either);
    over_two_sets!(both, gtid_both);
    over_two_sets!(without, gtid_without);

    #[inline(always)]
    pub fn read(event_type: u8, body: &[u8], record: &mut [u8]) -> Answer {
        answered(|used| unsafe {
            linked::gtid_read(
                event_type,
                body.as_ptr(),
                body.len(),
                record.as_mut_ptr(),
                record.len(),
                used,
            )
        })
    }

    /// The refusal, the bytes used, and the fields that are there.
    #[inline(always)]
    pub fn read_present(event_type: u8, body: &[u8], record: &mut [u8]) -> (u8, usize, u16) {
        let (mut used, mut present) = (0, 0);
        let refusal = unsafe {
            linked::gtid_read_present(
                event_type,
                body.as_ptr(),
                body.len(),
                record.as_mut_ptr(),
                record.len(),
                &raw mut used,
                &raw mut present,
            )
        };
        (refusal, used, present)
    }

    /// The refusal, the value, and the bytes used.
    #[inline(always)]
    pub fn read_uint(bytes: &[u8]) -> (u8, u64, usize) {
        let (mut value, mut used) = (0, 0);
        let refusal = unsafe {
            linked::gtid_read_varlen_uint(
                bytes.as_ptr(),
                bytes.len(),
                &raw mut value,
                &raw mut used,
            )
        };
        (refusal, value, used)
    }

    /// The refusal, the number of entries, and the bytes used.
    #[inline(always)]
    pub fn read_previous(body: &[u8]) -> (u8, u64, usize) {
        let (mut entries, mut used) = (0, 0);
        let refusal = unsafe {
            linked::gtid_read_previous(body.as_ptr(), body.len(), &raw mut entries, &raw mut used)
        };
        (refusal, entries, used)
    }

    /// The refusal, where the intervals begin, and where the entry ends.
    #[inline(always)]
    pub fn read_entry(body: &[u8], at: usize) -> (u8, usize, usize) {
        let (mut tag_len, mut intervals, mut first, mut next) = (0, 0, 0, 0);
        let refusal = unsafe {
            linked::gtid_read_entry(
                body.as_ptr(),
                body.len(),
                at,
                &raw mut tag_len,
                &raw mut intervals,
                &raw mut first,
                &raw mut next,
            )
        };
        (refusal, first, next)
    }

    #[inline(always)]
    pub fn offer(set: &[u8], event_type: u8, body: &[u8], out: &mut [u8]) -> Answer {
        let (mut kind, mut number) = (0, 0);
        let refusal = unsafe {
            linked::gtid_offer(
                set.as_ptr(),
                set.len(),
                event_type,
                body.as_ptr(),
                body.len(),
                out.as_mut_ptr(),
                out.len(),
                &raw mut kind,
                &raw mut number,
            )
        };
        Answer {
            refusal,
            number,
            kind,
        }
    }

    #[inline(always)]
    pub fn check_set(set: &[u8]) -> (u8, u64, u64) {
        let (mut entries, mut intervals) = (0, 0);
        let refusal = unsafe {
            linked::gtid_check_set(
                set.as_ptr(),
                set.len(),
                &raw mut entries,
                &raw mut intervals,
            )
        };
        (refusal, entries, intervals)
    }

    #[inline(always)]
    pub fn contains(set: &[u8], uuid: &[u8], tag: &[u8], gno: u64) -> (u8, u8) {
        let mut present = 0;
        let refusal = unsafe {
            linked::gtid_contains(
                set.as_ptr(),
                set.len(),
                uuid.as_ptr(),
                uuid.len(),
                tag.as_ptr(),
                tag.len(),
                gno,
                &raw mut present,
            )
        };
        (refusal, present)
    }

    /// The refusal, and what is told of two sets.
    macro_rules! of_two_sets {
        ($name:ident, $call:ident) => {
            #[inline(always)]
            pub fn $name(first: &[u8], second: &[u8]) -> (u8, u8) {
                let mut told = 0;
                let refusal = unsafe {
                    linked::$call(
                        first.as_ptr(),
                        first.len(),
                        second.as_ptr(),
                        second.len(),
                        &raw mut told,
                    )
                };
                (refusal, told)
            }
        };
    }

    of_two_sets!(within, gtid_within);
    of_two_sets!(head, gtid_head);

    /// The refusal, and how many entries, intervals and ids the set has, the ids in two words.
    #[inline(always)]
    pub fn report_add(report: &mut [u8], set: &[u8]) -> (u8, [u64; 4]) {
        let (mut entries, mut intervals, mut high, mut low) = (0, 0, 0, 0);
        let refusal = unsafe {
            linked::gtid_report_add(
                report.as_mut_ptr(),
                report.len(),
                set.as_ptr(),
                set.len(),
                &raw mut entries,
                &raw mut intervals,
                &raw mut high,
                &raw mut low,
            )
        };
        (refusal, [entries, intervals, high, low])
    }

    /// A binlog reader, with what its last call said.
    pub type Reader = [u8; BINLOG_READER_LEN];

    /// What it is lent with each call.
    pub struct Lent {
        pub work: Vec<u8>,
        pub set: Vec<u8>,
        pub spare: Vec<u8>,
    }

    pub fn binlog_begin(set: &[u8], checksums: bool, reader: &mut Reader) -> u8 {
        let checksums = u8::from(checksums);
        unsafe {
            linked::gtid_binlog_begin(
                set.as_ptr(),
                set.len(),
                checksums,
                reader.as_mut_ptr(),
                reader.len(),
            )
        }
    }

    #[inline(always)]
    pub fn binlog_step(reader: &mut Reader, chunk: &[u8], lent: &mut Lent) -> u8 {
        unsafe {
            linked::gtid_binlog_step(
                reader.as_mut_ptr(),
                reader.len(),
                chunk.as_ptr(),
                chunk.len(),
                lent.work.as_mut_ptr(),
                lent.work.len(),
                lent.set.as_mut_ptr(),
                lent.set.len(),
                lent.spare.as_mut_ptr(),
                lent.spare.len(),
            )
        }
    }

    /// The refusal, and the same numbers over all sets.
    #[inline(always)]
    pub fn report_sum(report: &[u8]) -> (u8, [u64; 4]) {
        let (mut entries, mut intervals, mut high, mut low) = (0, 0, 0, 0);
        let refusal = unsafe {
            linked::gtid_report_sum(
                report.as_ptr(),
                report.len(),
                &raw mut entries,
                &raw mut intervals,
                &raw mut high,
                &raw mut low,
            )
        };
        (refusal, [entries, intervals, high, low])
    }
}

// ---- what is counted ----

/// A word for it, what it is, and the smaller number of turns; the other is twice that.
#[rustfmt::skip]
const TABLE: [(&str, &str, u64); 99] = [
    ("varint-1", "read 64 variable-length integers of 1 byte", 1000),
    ("varint-2", "read 64 variable-length integers of 2 bytes", 1000),
    ("varint-3", "read 64 variable-length integers of 3 bytes", 1000),
    ("varint-4", "read 64 variable-length integers of 4 bytes", 1000),
    ("varint-5", "read 64 variable-length integers of 5 bytes", 1000),
    ("varint-6", "read 64 variable-length integers of 6 bytes", 1000),
    ("varint-7", "read 64 variable-length integers of 7 bytes", 1000),
    ("varint-8", "read 64 variable-length integers of 8 bytes", 1000),
    ("varint-9", "read 64 variable-length integers of 9 bytes", 1000),
    ("alone-2", "read 64 variable-length integers of 2 bytes, each alone in its slice", 1000),
    ("alone-5", "read 64 variable-length integers of 5 bytes, each alone in its slice", 1000),
    ("alone-8", "read 64 variable-length integers of 8 bytes, each alone in its slice", 1000),
    ("read-untagged", "read an untagged record (type 33), all fields", 1000),
    ("read-short", "read an untagged record of 25 bytes", 1000),
    ("read-tagged", "read a tagged record (type 42), all fields, tag of 10 bytes", 1000),
    ("read-tagged-32", "the same, tag of 32 bytes", 1000),
    ("read-present", "the same, tag of 10 bytes; ours also tells which fields are there", 1000),
    ("write-untagged", "write the untagged record", 1000),
    ("write-short", "write the untagged record of 25 bytes", 1000),
    ("write-tagged", "write the tagged record, tag of 10 bytes", 1000),
    ("write-tagged-32", "the same, tag of 32 bytes", 1000),
    ("previous-1", "read Previous-GTIDs, 1 interval", 1000),
    ("previous-64", "read Previous-GTIDs, 64 intervals of one uuid", 100),
    ("previous-2048", "read Previous-GTIDs, 2,048 intervals of one uuid", 10),
    ("previous-uuids", "read Previous-GTIDs, 256 uuids, 1 interval each", 10),
    ("previous-tags", "read Previous-GTIDs, 256 tags of 32 bytes, 1 interval each", 10),
    ("rewrite-1", "rewrite Previous-GTIDs, 1 interval", 1000),
    ("rewrite-64", "rewrite Previous-GTIDs, 64 intervals of one uuid", 100),
    ("rewrite-2048", "rewrite Previous-GTIDs, 2,048 intervals of one uuid", 10),
    ("rewrite-uuids", "rewrite Previous-GTIDs, 256 uuids, 1 interval each", 10),
    ("rewrite-tags", "rewrite Previous-GTIDs, 256 tags of 32 bytes, 1 interval each", 10),
    ("offer-1", "offer, 1 interval", 1000),
    ("offer-64", "offer, 64 intervals of one uuid", 100),
    ("offer-512", "offer, 512 intervals of one uuid", 10),
    ("offer-1023", "offer, 1,023 intervals of one uuid", 10),
    ("offer-first", "the same, the id before all others", 10),
    ("offer-there", "the same, the last id, already there", 10),
    ("offer-2559", "offer, 2,559 intervals of three uuids, 853 each", 10),
    ("offer-64-uuids", "offer, 64 uuids, 1 interval each", 10),
    ("offer-255-uuids", "offer, 255 uuids, 1 interval each", 10),
    ("offer-255-tagged", "offer, 255 uuids with 32-byte tags, 1 interval each", 10),
    ("offer-383-tagged", "offer, 383 uuids with 32-byte tags, 1 interval each", 10),
    ("offer-tags", "offer, 256 tags of one uuid that differ in their last bytes only, 1 interval each", 10),
    ("offer-tags-8", "the same, 8 intervals each, the id lengthens the last one", 10),
    ("offer-384-tags", "offer, 384 such tags, 1 interval each", 10),
    ("offer-longest", "the same, 2,560 intervals, 6 or 7 each: the longest set; the id lengthens the last one", 10),
    ("take-in-set", "take in, a set of 2,048 intervals of two uuids, 1,024 each", 10),
    ("take-in-longest", "take in, the longest set", 10),
    ("take-in-worst", "take in, one uuid, 4,094 intervals, the highest first and then rising (refused with 17)", 1),
    ("take-in-covered", "the same, the last one covering them all: 1 remains", 1),
    ("take-in-merged", "take in, two uuids, 2,046 intervals each, the highest first and then rising, every second one touching the one before it: 1,024 of each remain", 1),
    ("take-in-falling", "take in, one uuid, 4,094 intervals, falling (refused with 17)", 1),
    ("take-in-uuids", "take in, 1,638 uuids with an interval each, falling (refused with 16)", 1),
    ("take-in-tags", "take in, 897 tags of one uuid with an interval each, falling (refused with 16)", 1),
    ("check-set-1", "check_set, 1 interval", 1000),
    ("check-set-1024", "check_set, 1,024 intervals of one uuid", 10),
    ("check-set", "check_set, 2,048 intervals of two uuids, 1,024 each", 10),
    ("check-set-2560", "check_set, 2,560 intervals of three uuids, 1,024 of the first two", 10),
    ("check-set-longest", "check_set, the longest set", 10),
    ("check-set-cut", "check_set, the longest set without its last byte (refused with 14)", 10),
    ("contains", "contains, 2,048 intervals of two uuids, 1,024 each, the last id", 10),
    ("list-33", "list, type 33, an untagged record, all fields", 1000),
    ("list-42", "list, type 42, a tagged record, all fields, tag of 10 bytes", 1000),
    ("list-35", "list, type 35, a set of 2,048 intervals of two uuids, 1,024 each", 10),
    ("list-35-longest", "list, type 35, the longest set", 10),
    ("either-2560", "either, 2,560 intervals of three uuids, and as many that begin within them and end behind them: 2,560", 10),
    ("both-2560", "both, the same two sets: 2,560", 10),
    ("without-2560", "without, the same two sets: 2,560", 10),
    ("within-2560", "within, the first of them in the result of either: yes", 10),
    ("within-no", "within, the first of them in the second: no, the first id is missing", 10),
    ("head-first", "head, the result of either and the first of them: the first", 10),
    ("head-second", "head, the same the other way round: the second", 10),
    ("head-last", "head, 2,560 intervals of three uuids and the same but for the last one: the second, which has it", 10),
    ("head-neither", "head, the same with a last one of its own in each: 22", 10),
    ("head-apart", "head, the sets of the first row: 22, at the first ids", 10),
    ("head-longest", "head, the longest set and itself: the first", 10),
    ("either-uuids", "either, 192 uuids and 192 others between them, 1 interval each", 10),
    ("either-384", "either, 384 uuids and the same uuids with other intervals, 1 each: 2 each", 10),
    ("either-tags", "either, 384 tags of one uuid and the same tags with other intervals, 1 each: 2 each", 10),
    ("either-longest", "either, the longest set and itself", 10),
    ("report-add-1", "report_add, 1 interval", 1000),
    ("report-add-1024", "report_add, 1,024 intervals of one uuid", 10),
    ("report-add-longest", "report_add, the longest set", 10),
    ("report-add-cut", "report_add, the longest set without its last byte (refused with 14)", 10),
    ("report-add-65th", "report_add, the longest set as the 65th (refused with 11)", 1000),
    ("report-sum-1", "report_sum, a report over 1 set", 1000),
    ("report-sum-64", "report_sum, a report over 64 sets", 1000),
    ("report-write-1", "report_write, a report over 1 set", 1000),
    ("report-write-64", "report_write, a report over 64 sets", 100),
    ("report-write-longest", "the same, every number with its most digits: the longest text", 100),
    ("binlog-skip", "binlog_step, 1,000 events of 100 bytes, all skipped", 10),
    ("binlog-skip-long", "the same, of 10,000 bytes", 10),
    ("binlog-offer-1", "binlog_step, an event that is offered, 1 interval", 1000),
    ("binlog-offer-1023", "the same, 1,023 intervals of one uuid", 10),
    ("binlog-offer-there", "the same, an id that is there", 10),
    ("binlog-offer-bytes", "an event that is offered, 1 interval, a step for each of its bytes", 100),
    ("binlog-join-1", "binlog_step, a type 35 that is joined, 1 interval", 1000),
    ("binlog-join-longest", "the same, the longest set and itself", 10),
    ("binlog-join-merged", "the same, two uuids in falling order and the empty set", 10),
];

type Turns = Box<dyn FnMut(u64)>;

/// One thing that can be counted, checked.
struct Made {
    /// The bytes of its input; for an offer and for a report's set those of the set, for two sets those of both, for a report's text those of
    /// the text.
    bytes: usize,
    ours: Turns,
    theirs: Option<Turns>,
}

fn turns(mut once: impl FnMut() + 'static) -> Turns {
    Box::new(move |count| {
        for _ in 0..count {
            once();
        }
    })
}

fn made(what: &str) -> Option<Made> {
    Some(match what {
        "varint-1" => integers(1),
        "varint-2" => integers(2),
        "varint-3" => integers(3),
        "varint-4" => integers(4),
        "varint-5" => integers(5),
        "varint-6" => integers(6),
        "varint-7" => integers(7),
        "varint-8" => integers(8),
        "varint-9" => integers(9),
        "alone-2" => integers_alone(2),
        "alone-5" => integers_alone(5),
        "alone-8" => integers_alone(8),
        "read-untagged" => reading(GTID_EVENT, untagged()),
        "read-short" => reading(GTID_EVENT, short()),
        "read-tagged" => reading(GTID_TAGGED_LOG_EVENT, tagged(b"billing_eu")),
        "read-tagged-32" => reading(GTID_TAGGED_LOG_EVENT, tagged(&long_tag(7))),
        "read-present" => reading_present(tagged(b"billing_eu")),
        "read-present-32" => reading_present(tagged(&long_tag(7))),
        "write-untagged" => writing(GTID_EVENT, untagged()),
        "write-short" => writing(GTID_EVENT, short()),
        "write-tagged" => writing(GTID_TAGGED_LOG_EVENT, tagged(b"billing_eu")),
        "write-tagged-32" => writing(GTID_TAGGED_LOG_EVENT, tagged(&long_tag(7))),
        "previous-1" => previous(one_uuid(1)),
        "previous-64" => previous(one_uuid(64)),
        "previous-2048" => previous(one_uuid(2048)),
        "previous-uuids" => previous(uuids(256, false)),
        "previous-tags" => previous(tags(256, 1)),
        "body-2048" => whole_body(&one_uuid(2048)),
        "body-uuids" => whole_body(&uuids(256, false)),
        "body-tags" => whole_body(&tags(256, 1)),
        "entry-2048" => first_entry(&one_uuid(2048)),
        "entry-tags" => first_entry(&tags(256, 1)),
        "rewrite-1" => rewriting(one_uuid(1)),
        "rewrite-64" => rewriting(one_uuid(64)),
        "rewrite-2048" => rewriting(one_uuid(2048)),
        "rewrite-uuids" => rewriting(uuids(256, false)),
        "rewrite-tags" => rewriting(tags(256, 1)),
        "offer-1" => offering(one_uuid(1), 0, apart(1)),
        "offer-64" => offering(one_uuid(64), 0, apart(64)),
        "offer-512" => offering(one_uuid(512), 0, apart(512)),
        "offer-1023" => offering(one_uuid(OF_ENTRY - 1), 0, apart(OF_ENTRY - 1)),
        "offer-first" => offering(one_uuid(OF_ENTRY - 1), 0, 1),
        "offer-there" => offering(one_uuid(OF_ENTRY - 1), 0, interval(OF_ENTRY - 2).0),
        "offer-2559" => offering(several(&[853, 853, 853].map(intervals)), 2, apart(853)),
        "offer-64-uuids" => offering(uuids(64, false), 63, apart(1)),
        "offer-255-uuids" => offering(uuids(255, false), 254, apart(1)),
        "offer-255-tagged" => offering(uuids(255, true), 254, apart(1)),
        "offer-383-tagged" => offering(uuids(MAX_ENTRIES - 1, true), MAX_ENTRIES - 2, apart(1)),
        "offer-tags" => offering(tags(256, 1), 255, apart(1)),
        "offer-tags-8" => offering(tags(256, 8), 255, interval(7).1),
        "offer-384-tags" => offering(tags(MAX_ENTRIES, 1), MAX_ENTRIES - 1, apart(1)),
        "offer-longest" => offering(longest(), MAX_ENTRIES - 1, interval(5).1),
        "take-in-set" => taking_in(&two_uuids(), Ok(body(&two_uuids()))),
        "take-in-longest" => taking_in(&longest(), Ok(body(&longest()))),
        "take-in-worst" => taking_in(&worst(), Err(CROWDED)),
        "take-in-covered" => taking_in(&covered(), Ok(body(&all_of_covered()))),
        "take-in-merged" => taking_in(&touching(), Ok(body(&merged()))),
        "take-in-falling" => taking_in(&falling(), Err(CROWDED)),
        "take-in-uuids" => taking_in(&reversed(uuids(1638, false)), Err(FULL)),
        "take-in-tags" => taking_in(&reversed(tags(897, 1)), Err(FULL)),
        "check-set-1" => checking(&one_uuid(1)),
        "check-set-1024" => checking(&one_uuid(OF_ENTRY)),
        "check-set" => checking(&two_uuids()),
        "check-set-2560" => checking(&several(&MOST_OF_THREE.map(intervals))),
        "check-set-longest" => checking(&longest()),
        "check-set-cut" => checking_none(cut(&longest())),
        "contains" => containing(&two_uuids()),
        "list-35" => listing(
            PREVIOUS_GTIDS_EVENT,
            &body(&two_uuids()),
            &text(&two_uuids()),
        ),
        "list-35-longest" => listing(PREVIOUS_GTIDS_EVENT, &body(&longest()), &text(&longest())),
        "either-2560" => of_two(ours::either, &tens(11, 16), &tens(14, 19), &tens(11, 19)),
        "both-2560" => of_two(ours::both, &tens(11, 16), &tens(14, 19), &tens(14, 16)),
        "without-2560" => of_two(ours::without, &tens(11, 16), &tens(14, 19), &tens(11, 14)),
        "within-2560" => lying_within(&tens(11, 16), &tens(11, 19), 1),
        "within-no" => lying_within(&tens(11, 16), &tens(14, 19), 0),
        "head-first" => choosing(&tens(11, 19), &tens(11, 16), (0, 1)),
        "head-second" => choosing(&tens(11, 16), &tens(11, 19), (0, 2)),
        "head-last" => choosing(&but_last(&[]), &but_last(&[LAST]), (0, 2)),
        "head-neither" => choosing(&but_last(&[LAST]), &but_last(&[BEHIND]), (DIVERGED, 0)),
        "head-apart" => choosing(&tens(11, 16), &tens(14, 19), (DIVERGED, 0)),
        "head-longest" => choosing(&longest(), &longest(), (0, 1)),
        "either-uuids" => of_two(
            ours::either,
            &every_second(0),
            &every_second(1),
            &uuids(MAX_ENTRIES, false),
        ),
        "either-384" => of_two(
            ours::either,
            &uuids(MAX_ENTRIES, false),
            &each_with(uuids(MAX_ENTRIES, false), vec![interval(1)]),
            &each_with(uuids(MAX_ENTRIES, false), intervals(2)),
        ),
        "either-tags" => of_two(
            ours::either,
            &tags(MAX_ENTRIES, 1),
            &each_with(tags(MAX_ENTRIES, 1), vec![interval(1)]),
            &tags(MAX_ENTRIES, 2),
        ),
        "either-longest" => of_two(ours::either, &longest(), &longest(), &longest()),
        "both-longest" => of_two(ours::both, &longest(), &longest(), &longest()),
        "without-longest" => of_two(ours::without, &longest(), &longest(), &[]),
        "within-longest" => lying_within(&longest(), &longest(), 1),
        "report-add-1" => adding(0, body(&one_uuid(1)), (0, [1, 1, 0, 5])),
        "report-add-1024" => adding(
            0,
            body(&one_uuid(OF_ENTRY)),
            (0, [1, OF_ENTRY, 0, 5 * OF_ENTRY]),
        ),
        "report-add-longest" => adding(
            0,
            body(&longest()),
            (0, [ENTRIES, INTERVALS, 0, 5 * INTERVALS]),
        ),
        "report-add-cut" => adding(0, cut(&longest()), (NOT_A_SET, [0; 4])),
        "report-add-65th" => adding(MAX_SETS, body(&longest()), (TOO_LONG, [0; 4])),
        "report-sum-1" => summing(over(1), [1, 1, 0, 5]),
        "report-sum-64" => summing(over(MAX_SETS), [SETS, SETS, 0, SETS * 5]),
        "report-write-1" => reporting(over(1), &report_text(1, [1, 1, 0, 5], [1, 1, 0, 5])),
        "report-write-64" => reporting(
            over(MAX_SETS),
            &report_text(MAX_SETS, [1, 1, 0, 5], [SETS, SETS, 0, SETS * 5]),
        ),
        "report-write-longest" => reporting(over_great(), &report_text(MAX_SETS, GREAT, GREAT_SUM)),
        "binlog-skip" => skipping(100),
        "binlog-skip-long" => skipping(10_000),
        "binlog-offer-1" => walked_offer(one_uuid(1), apart(1), usize::MAX),
        "binlog-offer-1023" => {
            walked_offer(one_uuid(OF_ENTRY - 1), apart(OF_ENTRY - 1), usize::MAX)
        }
        "binlog-offer-there" => {
            walked_offer(one_uuid(OF_ENTRY - 1), interval(OF_ENTRY - 2).0, usize::MAX)
        }
        "binlog-offer-bytes" => walked_offer(one_uuid(1), apart(1), 1),
        "binlog-join-1" => walked_join(&one_uuid(1), &one_uuid(1), &one_uuid(1)),
        "binlog-join-longest" => walked_join(&longest(), &longest(), &longest()),
        "binlog-join-merged" => walked_join(&reversed(uuids(2, false)), &[], &uuids(2, false)),
        "list-35-merged" => listing(PREVIOUS_GTIDS_EVENT, &body(&touching()), &text(&merged())),
        "list-35-tags" => listing(
            PREVIOUS_GTIDS_EVENT,
            &body(&reversed(tags(256, 2))),
            &text(&tags(256, 2)),
        ),
        "list-33" => listing(
            GTID_EVENT,
            &untagged(),
            "gtid 3e11fa47-71ca-11e1-9e33-c80aa9429562:1234567\n",
        ),
        "list-42" => listing(
            GTID_TAGGED_LOG_EVENT,
            &tagged(b"billing_eu"),
            "gtid 3e11fa47-71ca-11e1-9e33-c80aa9429562:billing_eu:1234567\n",
        ),
        _ => return None,
    })
}

/// 64 integers of so many bytes each, from the least that needs so many on, all over the range; and their bytes, one after another.
fn values_of(len: u32) -> (Vec<u64>, Vec<u8>) {
    let least = if len == 1 { 0 } else { 1 << (7 * (len - 1)) };
    let greatest = if len == 9 {
        u64::MAX
    } else {
        (1 << (7 * len)) - 1
    };
    let values: Vec<u64> = (0..64)
        .map(|place| least + place * ((greatest - least) / 63))
        .collect();
    let mut bytes = Vec::new();
    values
        .iter()
        .for_each(|value| write_varlen_uint(&mut bytes, *value));
    assert_eq!(bytes.len(), 64 * len as usize);
    (values, bytes)
}

/// They are read one after another, until no bytes are left.
fn integers(len: u32) -> Made {
    let (values, bytes) = values_of(len);
    let mut buf = ParseBuf(&bytes);
    for (place, value) in values.iter().enumerate() {
        let rest = &bytes[place * len as usize..];
        assert_eq!(ours::read_uint(rest), (0, *value, len as usize));
        assert_eq!(read_varlen_uint(&mut buf).expect("an integer"), *value);
    }

    let again = bytes.clone();
    Made {
        bytes: bytes.len(),
        ours: turns(move || {
            let mut rest = &black_box(&bytes)[..];
            let mut sum = 0;
            while !rest.is_empty() {
                let (refusal, value, used) = ours::read_uint(rest);
                if refusal != 0 {
                    break;
                }
                sum ^= value;
                rest = &rest[used..];
            }
            black_box(sum);
        }),
        theirs: Some(turns(move || {
            let mut buf = ParseBuf(black_box(&again));
            let mut sum = 0;
            while !buf.is_empty() {
                let Ok(value) = read_varlen_uint(&mut buf) else {
                    break;
                };
                sum ^= value;
            }
            black_box(sum);
        })),
    }
}

/// Each is read out of a slice that ends with it.
fn integers_alone(len: u32) -> Made {
    let (values, bytes) = values_of(len);
    let len = len as usize;
    for (item, value) in bytes.chunks_exact(len).zip(values) {
        assert_eq!(ours::read_uint(item), (0, value, len));
        assert_eq!(
            read_varlen_uint(&mut ParseBuf(item)).expect("an integer"),
            value
        );
    }

    let again = bytes.clone();
    Made {
        bytes: bytes.len(),
        ours: turns(move || {
            let mut sum = 0;
            for item in black_box(&bytes).chunks_exact(len) {
                let (refusal, value, _) = ours::read_uint(item);
                if refusal != 0 {
                    break;
                }
                sum ^= value;
            }
            black_box(sum);
        }),
        theirs: Some(turns(move || {
            let mut sum = 0;
            for item in black_box(&again).chunks_exact(len) {
                let Ok(value) = read_varlen_uint(&mut ParseBuf(item)) else {
                    break;
                };
                sum ^= value;
            }
            black_box(sum);
        })),
    }
}

fn reading(event_type: u8, body: Vec<u8>) -> Made {
    let mut record = [0; RECORD_LEN];
    let answer = ours::read(event_type, &body, &mut record);
    let mut buf = ParseBuf(&body);
    let event = GtidEvent::deserialize(BinlogCtx::new(event_type), &mut buf).expect("an event");
    assert_eq!(answer.refusal, 0);
    assert_eq!(answer.number, body.len() - buf.len());
    assert_eq!(record, record_of(&event));

    let again = body.clone();
    Made {
        bytes: body.len(),
        ours: turns(move || {
            let answer = ours::read(event_type, black_box(&body), black_box(&mut record));
            black_box(answer);
        }),
        theirs: Some(turns(move || {
            let mut buf = ParseBuf(black_box(&again));
            let event = GtidEvent::deserialize(BinlogCtx::new(black_box(event_type)), &mut buf);
            black_box(&event);
        })),
    }
}

/// Reading a tagged record, and which fields are there: all of them. The Rust doesn't tell.
fn reading_present(body: Vec<u8>) -> Made {
    let read = reading(GTID_TAGGED_LOG_EVENT, body.clone());
    let (mut record, mut same) = ([0; RECORD_LEN], [0; RECORD_LEN]);
    ours::read(GTID_TAGGED_LOG_EVENT, &body, &mut same);
    let answer = ours::read_present(GTID_TAGGED_LOG_EVENT, &body, &mut record);
    assert_eq!((answer, record), ((0, body.len(), 0x0fff), same));

    Made {
        ours: turns(move || {
            let (body, record) = (black_box(&body), black_box(&mut record));
            black_box(ours::read_present(GTID_TAGGED_LOG_EVENT, body, record));
        }),
        ..read
    }
}

fn writing(event_type: u8, body: Vec<u8>) -> Made {
    let mut buf = ParseBuf(&body);
    let event = GtidEvent::deserialize(BinlogCtx::new(event_type), &mut buf).expect("an event");
    let record = record_of(&event);
    let mut out = vec![0; LONGEST_EVENT];
    let answer = ours::write(&record, &mut out);
    let mut theirs = Vec::with_capacity(LONGEST_EVENT);
    event.serialize(&mut theirs);
    assert_eq!(answer.refusal, 0);
    assert_eq!(&out[..answer.number], theirs);
    assert_eq!(theirs, body);

    Made {
        bytes: body.len(),
        ours: turns(move || {
            let answer = ours::write(black_box(&record), black_box(&mut out));
            black_box(answer);
        }),
        theirs: Some(turns(move || {
            theirs.clear();
            black_box(&event).serialize(black_box(&mut theirs));
        })),
    }
}

/// The sum of all starts and ends of a Previous-GTIDs body, which is read entry by entry.
fn sum_by_ours(body: &[u8]) -> Option<u64> {
    let (refusal, entries, _) = ours::read_previous(body);
    if refusal != 0 {
        return None;
    }
    let (mut at, mut sum) = (8, 0_u64);
    for _ in 0..entries {
        let (refusal, first, next) = ours::read_entry(body, at);
        if refusal != 0 {
            return None;
        }
        for number in body[first..next].as_chunks().0 {
            sum = sum.wrapping_add(u64::from_le_bytes(*number));
        }
        at = next;
    }
    Some(sum)
}

fn sum_by_theirs(body: &[u8]) -> Option<u64> {
    let mut buf = ParseBuf(body);
    let event =
        PreviousGtidsEvent::deserialize(BinlogCtx::new(PREVIOUS_GTIDS_EVENT), &mut buf).ok()?;
    let mut sum = 0_u64;
    for sid in event.sids() {
        for interval in sid.intervals() {
            sum = sum.wrapping_add(interval.start).wrapping_add(interval.end);
        }
    }
    Some(sum)
}

fn previous(entries: Vec<Entry>) -> Made {
    let body = body(&entries);
    let all = entries.iter().flat_map(|entry| &entry.intervals);
    let sum = Some(all.map(|(start, end)| start + end).sum());
    assert_eq!(sum_by_ours(&body), sum);
    assert_eq!(sum_by_theirs(&body), sum);

    let again = body.clone();
    Made {
        bytes: body.len(),
        ours: turns(move || {
            black_box(sum_by_ours(black_box(&body)));
        }),
        theirs: Some(turns(move || {
            black_box(sum_by_theirs(black_box(&again)));
        })),
    }
}

/// One call for a whole body, for the stack.
fn whole_body(entries: &[Entry]) -> Made {
    let body = body(entries);
    let expected = (0, entries.len() as u64, body.len());
    assert_eq!(ours::read_previous(&body), expected);

    Made {
        bytes: body.len(),
        ours: turns(move || {
            black_box(ours::read_previous(black_box(&body)));
        }),
        theirs: None,
    }
}

/// One call for the first entry, for the stack.
fn first_entry(entries: &[Entry]) -> Made {
    let next = body(&entries[..1]).len();
    let first = next - 16 * entries[0].intervals.len();
    let body = body(entries);
    assert_eq!(ours::read_entry(&body, 8), (0, first, next));

    Made {
        bytes: body.len(),
        ours: turns(move || {
            black_box(ours::read_entry(black_box(&body), black_box(8)));
        }),
        theirs: None,
    }
}

fn rewriting(entries: Vec<Entry>) -> Made {
    let body = body(&entries);
    let mut out = vec![0; MAX_BODY];
    let answer = ours::rewrite(&body, &mut out);
    let mut theirs = Vec::with_capacity(MAX_BODY);
    PreviousGtidsEvent::deserialize(BinlogCtx::new(PREVIOUS_GTIDS_EVENT), &mut ParseBuf(&body))
        .expect("an event")
        .serialize(&mut theirs);
    assert_eq!(answer.refusal, 0);
    assert_eq!(&out[..answer.number], theirs);
    assert_eq!(theirs, body);

    let again = body.clone();
    Made {
        bytes: body.len(),
        ours: turns(move || {
            let answer = ours::rewrite(black_box(&body), black_box(&mut out));
            black_box(answer);
        }),
        theirs: Some(turns(move || {
            let mut buf = ParseBuf(black_box(&again));
            let event =
                PreviousGtidsEvent::deserialize(BinlogCtx::new(PREVIOUS_GTIDS_EVENT), &mut buf);
            theirs.clear();
            if let Ok(event) = event {
                event.serialize(black_box(&mut theirs));
            }
        })),
    }
}

/// Offers an id of an entry that is there: it stands apart from all intervals, or lengthens one, or is there already.
fn offering(entries: Vec<Entry>, place: usize, gno: u64) -> Made {
    let set = body(&entries);
    let (event_type, event) = event_for(&entries[place], gno);
    let mut after = entries;
    let there = !with(&mut after[place].intervals, gno);
    let after = body(&after);
    let mut out = vec![0; LONGEST_SET];
    let answer = ours::offer(&set, event_type, &event, &mut out);
    let kind = if there { ALREADY_THERE } else { TAKEN };
    assert_eq!((answer.refusal, answer.kind), (0, kind));
    assert_eq!(&out[..answer.number], after);

    Made {
        bytes: set.len(),
        ours: turns(move || {
            let (set, event) = (black_box(&set), black_box(&event));
            let answer = ours::offer(set, event_type, event, black_box(&mut out));
            black_box(answer);
        }),
        theirs: None,
    }
}

fn taking_in(entries: &[Entry], expected: Result<Vec<u8>, u8>) -> Made {
    let body = body(entries);
    let mut out = vec![0; LONGEST_SET];
    let answer = ours::take_in(&body, &mut out);
    match expected {
        Ok(set) => {
            assert_eq!(answer.refusal, 0);
            assert_eq!(&out[..answer.number], set);
        }
        Err(refusal) => assert_eq!((answer.refusal, answer.number), (refusal, 0)),
    }

    Made {
        bytes: body.len(),
        ours: turns(move || {
            let answer = ours::take_in(black_box(&body), black_box(&mut out));
            black_box(answer);
        }),
        theirs: None,
    }
}

fn checking(entries: &[Entry]) -> Made {
    let set = body(entries);
    let intervals: usize = entries.iter().map(|entry| entry.intervals.len()).sum();
    let expected = (0, entries.len() as u64, intervals as u64);
    assert_eq!(ours::check_set(&set), expected);

    Made {
        bytes: set.len(),
        ours: turns(move || {
            black_box(ours::check_set(black_box(&set)));
        }),
        theirs: None,
    }
}

/// Checking what is no set.
fn checking_none(set: Vec<u8>) -> Made {
    assert_eq!(ours::check_set(&set), (NOT_A_SET, 0, 0));

    Made {
        bytes: set.len(),
        ours: turns(move || {
            black_box(ours::check_set(black_box(&set)));
        }),
        theirs: None,
    }
}

fn containing(entries: &[Entry]) -> Made {
    let set = body(entries);
    let last = entries.last().expect("an entry").clone();
    let gno = last.intervals.last().expect("an interval").0;
    assert_eq!(ours::contains(&set, &last.uuid, &last.tag, gno), (0, 1));
    assert_eq!(ours::contains(&set, &last.uuid, &last.tag, 1), (0, 0));

    Made {
        bytes: set.len(),
        ours: turns(move || {
            let (set, id) = (black_box(&set), black_box(&last));
            black_box(ours::contains(set, &id.uuid, &id.tag, black_box(gno)));
        }),
        theirs: None,
    }
}

/// A set made of two.
fn of_two(
    call: impl Fn(&[u8], &[u8], &mut [u8]) -> ours::Answer + 'static,
    first: &[Entry],
    second: &[Entry],
    expected: &[Entry],
) -> Made {
    let (first, second) = (body(first), body(second));
    let mut out = vec![0; LONGEST_SET];
    let answer = call(&first, &second, &mut out);
    assert_eq!(answer.refusal, 0);
    assert_eq!(&out[..answer.number], body(expected));

    Made {
        bytes: first.len() + second.len(),
        ours: turns(move || {
            let (first, second) = (black_box(&first), black_box(&second));
            black_box(call(first, second, black_box(&mut out)));
        }),
        theirs: None,
    }
}

fn lying_within(first: &[Entry], second: &[Entry], expected: u8) -> Made {
    let (first, second) = (body(first), body(second));
    assert_eq!(ours::within(&first, &second), (0, expected));

    Made {
        bytes: first.len() + second.len(),
        ours: turns(move || {
            black_box(ours::within(black_box(&first), black_box(&second)));
        }),
        theirs: None,
    }
}

fn choosing(first: &[Entry], second: &[Entry], expected: (u8, u8)) -> Made {
    let (first, second) = (body(first), body(second));
    assert_eq!(ours::head(&first, &second), expected);

    Made {
        bytes: first.len() + second.len(),
        ours: turns(move || {
            black_box(ours::head(black_box(&first), black_box(&second)));
        }),
        theirs: None,
    }
}

/// Adds a set to a report over so many others. The eight bytes at its front tell how many there are: before each turn they are put back, so
/// that the set is added at the same place again, and not to a full report.
fn adding(others: usize, set: Vec<u8>, expected: (u8, [u64; 4])) -> Made {
    let mut report = over(others);
    let front: [u8; 8] = report[..8].try_into().expect("eight bytes");
    assert_eq!(ours::report_add(&mut report, &set), expected);
    let after = report.clone();
    report[..8].copy_from_slice(&front);
    assert_eq!(ours::report_add(&mut report, &set), expected);
    assert_eq!(report, after);

    Made {
        bytes: set.len(),
        ours: turns(move || {
            let (report, set) = (black_box(&mut report), black_box(&set));
            report[..8].copy_from_slice(&front);
            black_box(ours::report_add(report, set));
        }),
        theirs: None,
    }
}

fn summing(report: Vec<u8>, expected: [u64; 4]) -> Made {
    assert_eq!(ours::report_sum(&report), (0, expected));

    Made {
        bytes: report.len(),
        ours: turns(move || {
            black_box(ours::report_sum(black_box(&report)));
        }),
        theirs: None,
    }
}

fn reporting(report: Vec<u8>, expected: &str) -> Made {
    let mut out = vec![0; LONGEST_REPORT];
    let answer = ours::report_write(&report, &mut out);
    assert_eq!(answer.refusal, 0);
    assert_eq!(String::from_utf8_lossy(&out[..answer.number]), expected);

    Made {
        bytes: answer.number,
        ours: turns(move || {
            let answer = ours::report_write(black_box(&report), black_box(&mut out));
            black_box(answer);
        }),
        theirs: None,
    }
}

/// An event of a binlog without checksums: a header, in which the type and the size are told, and a body.
fn in_file(event_type: u8, body: &[u8]) -> Vec<u8> {
    let mut event = vec![0; EVENT_HEADER_LEN];
    event[4] = event_type;
    event[9..13].copy_from_slice(&((EVENT_HEADER_LEN + body.len()) as u32).to_le_bytes());
    event.extend(body);
    event
}

/// Walks events behind the opening of a file, in pieces of so many bytes, a step for each; the last step says what is expected. Before each
/// turn the reader is put back between two events, and its set as it was.
fn walking(events: Vec<u8>, piece: usize, set: Vec<u8>, said: u8, after: &[u8]) -> Made {
    let mut lent = ours::Lent {
        work: vec![0; BINLOG_WORK],
        set: vec![0; LONGEST_SET],
        spare: vec![0; LONGEST_SET],
    };
    let mut between = [0; BINLOG_READER_LEN];
    assert_eq!(ours::binlog_begin(&set, false, &mut between), 0);
    assert_eq!(ours::binlog_step(&mut between, b"\xfebin", &mut lent), 0);
    let mut reader = between;
    lent.set[..set.len()].copy_from_slice(&set);
    for chunk in events.chunks(piece) {
        assert_eq!(ours::binlog_step(&mut reader, chunk, &mut lent), 0);
        assert_eq!(reader[32..40], (chunk.len() as u64).to_le_bytes(), "used");
    }
    assert_eq!(reader[3], said);
    assert_eq!(&lent.set[..after.len()], after);

    Made {
        bytes: if said == MORE_WANTED {
            events.len()
        } else {
            set.len()
        },
        ours: turns(move || {
            let mut reader = *black_box(&between);
            lent.set[..set.len()].copy_from_slice(&set);
            for chunk in black_box(&events).chunks(piece) {
                black_box(ours::binlog_step(black_box(&mut reader), chunk, &mut lent));
            }
        }),
        theirs: None,
    }
}

fn skipping(size: usize) -> Made {
    let set = body(&one_uuid(1));
    let events = in_file(2, &vec![0; size - EVENT_HEADER_LEN]).repeat(1000);
    walking(events, usize::MAX, set.clone(), MORE_WANTED, &set)
}

fn walked_offer(entries: Vec<Entry>, gno: u64, piece: usize) -> Made {
    let set = body(&entries);
    let (event_type, event) = event_for(&entries[0], gno);
    let mut after = entries;
    let there = !with(&mut after[0].intervals, gno);
    let said = if there { ALREADY_THERE } else { TAKEN };
    walking(in_file(event_type, &event), piece, set, said, &body(&after))
}

fn walked_join(joined: &[Entry], before: &[Entry], after: &[Entry]) -> Made {
    let events = in_file(PREVIOUS_GTIDS_EVENT, &body(joined));
    walking(events, usize::MAX, body(before), JOINED, &body(after))
}

fn listing(event_type: u8, body: &[u8], expected: &str) -> Made {
    let mut input = vec![event_type];
    input.extend(body);
    let mut out = vec![0; LONGEST_TEXT];
    let answer = ours::list(&input, &mut out);
    assert_eq!(answer.refusal, 0);
    assert_eq!(String::from_utf8_lossy(&out[..answer.number]), expected);

    Made {
        bytes: input.len(),
        ours: turns(move || {
            let answer = ours::list(black_box(&input), black_box(&mut out));
            black_box(answer);
        }),
        theirs: None,
    }
}

// ---- inputs ----

/// The limits, as a set and a report count them.
const ENTRIES: u64 = MAX_ENTRIES as u64;
const INTERVALS: u64 = MAX_INTERVALS as u64;
const OF_ENTRY: u64 = MAX_OF_ENTRY as u64;
const SETS: u64 = MAX_SETS as u64;

/// As many intervals as a set may have, of three uuids, two of which have as many as they may; the last, and one behind it.
const MOST_OF_THREE: [u64; 3] = [OF_ENTRY, OF_ENTRY, INTERVALS - 2 * OF_ENTRY];
const LAST: (u64, u64) = interval(MOST_OF_THREE[2] - 1);
const BEHIND: (u64, u64) = interval(MOST_OF_THREE[2]);

const UUID: [u8; 16] = [
    0x3e, 0x11, 0xfa, 0x47, 0x71, 0xca, 0x11, 0xe1, 0x9e, 0x33, 0xc8, 0x0a, 0xa9, 0x42, 0x95, 0x62,
];
const GNO: u64 = 1_234_567;
const IMMEDIATE: u64 = 1_700_000_000_654_321;
const ORIGINAL: u64 = 1_700_000_000_123_456;

/// Both timestamps, a transaction length of three bytes, both versions: 67 bytes.
fn untagged() -> Vec<u8> {
    let mut body = short();
    body.push(2);
    body.extend(41_u64.to_le_bytes());
    body.extend(42_u64.to_le_bytes());
    body.extend(&(IMMEDIATE | 1 << 55).to_le_bytes()[..7]);
    body.extend(&ORIGINAL.to_le_bytes()[..7]);
    body.extend([0xfc, 0x39, 0x05]);
    body.extend((80_034_u32 | 1 << 31).to_le_bytes());
    body.extend(80_400_u32.to_le_bytes());
    body
}

/// Nothing after the gno.
fn short() -> Vec<u8> {
    let mut body = vec![1];
    body.extend(UUID);
    body.extend(GNO.to_le_bytes());
    body
}

/// All twelve fields, as the Rust writes them.
fn tagged(tag: &[u8]) -> Vec<u8> {
    let tag = String::from_utf8(tag.to_vec()).expect("a tag");
    let tag = theirs::packets::Tag::new(tag).expect("a tag");
    let event = GtidEvent::new_tagged(UUID, tag, GNO)
        .with_flags(1.into())
        .with_last_committed(41)
        .with_sequence_number(42)
        .with_immediate_commit_timestamp(IMMEDIATE)
        .with_original_commit_timestamp(ORIGINAL)
        .with_tx_length(1337)
        .with_immediate_server_version(80_034)
        .with_original_server_version(80_400)
        .with_commit_group_ticket(99);
    let mut body = Vec::new();
    event.serialize(&mut body);
    body
}

/// The record as gtid.h has its bytes.
fn record_of(event: &GtidEvent) -> [u8; RECORD_LEN] {
    let tag = event.tag().map_or(&[][..], |tag| tag.as_str().as_bytes());
    let mut record = vec![event.flags_raw()];
    record.extend(event.sid());
    record.extend(event.gno().to_le_bytes());
    record.push(tag.len() as u8);
    record.extend(tag);
    record.resize(58, 0);
    record.push(u8::from(event.lc_typecode().is_some()));
    record.push(event.lc_typecode().unwrap_or(0));
    record.extend(event.last_committed().to_le_bytes());
    record.extend(event.sequence_number().to_le_bytes());
    record.extend(event.immediate_commit_timestamp().to_le_bytes());
    record.extend(event.original_commit_timestamp().to_le_bytes());
    record.extend(event.tx_length().to_le_bytes());
    record.extend(event.immediate_server_version().to_le_bytes());
    record.extend(event.original_server_version().to_le_bytes());
    record.extend(event.commit_group_ticket().to_le_bytes());
    record.try_into().expect("all places are filled")
}

#[derive(Clone)]
struct Entry {
    uuid: [u8; 16],
    /// Empty for none.
    tag: Vec<u8>,
    intervals: Vec<(u64, u64)>,
}

/// Five ids of every ten: 11 to 15, 21 to 25 and so on.
const fn interval(place: u64) -> (u64, u64) {
    (11 + 10 * place, 16 + 10 * place)
}

fn intervals(count: u64) -> Vec<(u64, u64)> {
    (0..count).map(interval).collect()
}

/// An id that stands apart from all of so many intervals, behind them.
fn apart(count: u64) -> u64 {
    interval(count).0
}

fn entry(tag: &[u8], intervals: Vec<(u64, u64)>) -> Entry {
    Entry {
        uuid: UUID,
        tag: tag.to_vec(),
        intervals,
    }
}

fn one_uuid(count: u64) -> Vec<Entry> {
    vec![entry(b"", intervals(count))]
}

/// An entry whose uuid differs from the others in two bytes in the middle.
fn numbered(number: u16, tag: &[u8], intervals: Vec<(u64, u64)>) -> Entry {
    let mut entry = entry(tag, intervals);
    entry.uuid[6..8].copy_from_slice(&number.to_be_bytes());
    entry
}

/// Uuids with a tag of 32 bytes or none, an interval each.
fn uuids(count: usize, with_tag: bool) -> Vec<Entry> {
    let one = |number| match with_tag {
        true => numbered(number, &long_tag(number), intervals(1)),
        false => numbered(number, b"", intervals(1)),
    };
    (0..count as u16).map(one).collect()
}

/// A uuid for each of these lists of intervals.
fn several(lists: &[Vec<(u64, u64)>]) -> Vec<Entry> {
    let one = |(number, list): (u16, &Vec<_>)| numbered(number, b"", list.clone());
    (0..).zip(lists).map(one).collect()
}

/// Two uuids with as many intervals as one may have.
fn two_uuids() -> Vec<Entry> {
    several(&[OF_ENTRY; 2].map(intervals))
}

/// 32 bytes; only the last three tell the numbers apart.
fn long_tag(number: u16) -> Vec<u8> {
    format!("a_tag_of_thirty_two_bytes____{number:03}").into_bytes()
}

/// So many tags of one uuid, with `count` intervals each.
fn tags(tags: usize, count: u64) -> Vec<Entry> {
    (0..tags as u16)
        .map(|number| entry(&long_tag(number), intervals(count)))
        .collect()
}

/// As many entries and intervals as a set may have, and the longest tags.
fn longest() -> Vec<Entry> {
    let mut entries = tags(MAX_ENTRIES, 6);
    for entry in &mut entries[..MAX_INTERVALS % MAX_ENTRIES] {
        entry.intervals.push(interval(6));
    }
    assert_eq!(body(&entries).len(), LONGEST_SET);
    entries
}

/// A set without its last byte.
fn cut(entries: &[Entry]) -> Vec<u8> {
    let mut set = body(entries);
    set.pop();
    set
}

/// A report over a set that is added so many times.
fn report_over(count: usize, set: &[u8]) -> Vec<u8> {
    let mut report = vec![0; REPORT_LEN];
    for _ in 0..count {
        assert_eq!(ours::report_add(&mut report, set).0, 0);
    }
    report
}

/// A report over so many sets of one interval.
fn over(count: usize) -> Vec<u8> {
    report_over(count, &body(&one_uuid(1)))
}

/// A report over 64 sets with 384 entries each, of five intervals: every number has its most digits.
fn over_great() -> Vec<u8> {
    let five = vec![(1, 2), (11, 12), (21, 22), (31, 32), (41, HIGHEST_GNO + 1)];
    report_over(MAX_SETS, &body(&each_with(uuids(MAX_ENTRIES, false), five)))
}

/// The numbers of each set, and of all. An entry has 2^63 - 38 ids: 384 of them have 192 * 2^64 - 14,592, and 64 * 384 of them
/// 12,288 * 2^64 - 933,888.
const GREAT: [u64; 4] = [ENTRIES, 5 * ENTRIES, 191, (38 * ENTRIES).wrapping_neg()];
const GREAT_SUM: [u64; 4] = [
    SETS * ENTRIES,
    SETS * 5 * ENTRIES,
    12_287,
    (SETS * 38 * ENTRIES).wrapping_neg(),
];

fn report_text(sets: usize, each: [u64; 4], sum: [u64; 4]) -> String {
    let line = |word: &str, [entries, intervals, high, low]: [u64; 4]| {
        format!("{word} {entries} {intervals} {high} {low}\n")
    };
    line("set", each).repeat(sets) + &line("sum", sum)
}

fn reversed(mut entries: Vec<Entry>) -> Vec<Entry> {
    entries.reverse();
    entries
}

/// As many intervals of one uuid as a body holds, and of each of two uuids: a header, and for each uuid a count, too.
const MOST: u64 = (MAX_BODY as u64 - 8 - 24) / 16;
const MOST_OF_TWO: u64 = (MAX_BODY as u64 - 8 - 2 * 24) / 2 / 16;

/// An interval of the highest place, and then those of the others, rising.
fn highest_first(count: u64, one: fn(u64) -> (u64, u64)) -> Vec<(u64, u64)> {
    let mut all = vec![one(count)];
    all.extend((0..count - 1).map(one));
    all
}

fn worst() -> Vec<Entry> {
    vec![entry(b"", highest_first(MOST, interval))]
}

/// The worst one, but the last interval covers all the others.
fn covered() -> Vec<Entry> {
    let mut all = highest_first(MOST, interval);
    all[MOST as usize - 1] = over_all();
    vec![entry(b"", all)]
}

fn all_of_covered() -> Vec<Entry> {
    vec![entry(b"", vec![over_all()])]
}

fn over_all() -> (u64, u64) {
    (interval(0).0, interval(MOST).1)
}

/// Those with an odd place touch the one before: but for the highest, 2,045 intervals are 1,023 pairs, of which the last is a single one.
fn touching() -> Vec<Entry> {
    let one = |place: u64| match (place % 2, interval(place)) {
        (1, (start, end)) => (start - 5, end),
        (_, apart) => apart,
    };
    let all = highest_first(MOST_OF_TWO, one);
    several(&[all.clone(), all])
}

/// What is left of the touching ones.
fn merged() -> Vec<Entry> {
    let pair = |number: u64| (interval(2 * number).0, interval(2 * number + 1).1);
    let mut all: Vec<_> = (0..MOST_OF_TWO / 2 - 1).map(pair).collect();
    all.push(interval(MOST_OF_TWO - 2));
    all.push(interval(MOST_OF_TWO));
    several(&[all.clone(), all])
}

fn falling() -> Vec<Entry> {
    vec![entry(b"", (0..MOST).rev().map(interval).collect())]
}

/// Three uuids with 2,560 intervals: of every ten ids those from a first one on, up to an end that isn't reached. With 11 to 15 in one set
/// and 14 to 18 in the other an interval of either begins or ends by turns.
fn tens(first: u64, end: u64) -> Vec<Entry> {
    let one = |place: u64| (first + 10 * place, end + 10 * place);
    several(&MOST_OF_THREE.map(|count| (0..count).map(one).collect()))
}

/// 2,559 intervals of three uuids, and these behind the last.
fn but_last(more: &[(u64, u64)]) -> Vec<Entry> {
    let mut lists = MOST_OF_THREE.map(intervals);
    lists[2].pop();
    lists[2].extend(more);
    several(&lists)
}

/// Of 384 uuids the first, the third and so on, or the others.
fn every_second(place: usize) -> Vec<Entry> {
    uuids(MAX_ENTRIES, false)
        .into_iter()
        .skip(place)
        .step_by(2)
        .collect()
}

/// The same keys, each with these intervals.
fn each_with(mut entries: Vec<Entry>, intervals: Vec<(u64, u64)>) -> Vec<Entry> {
    for entry in &mut entries {
        entry.intervals.clone_from(&intervals);
    }
    entries
}

/// The entries as a Previous-GTIDs body; tags have fewer than 128 bytes.
fn body(entries: &[Entry]) -> Vec<u8> {
    let tagged = entries.iter().any(|entry| !entry.tag.is_empty());
    let count = entries.len() as u64;
    let header = if tagged {
        1 << 56 | count << 8 | 1
    } else {
        count
    };
    let mut body = header.to_le_bytes().to_vec();
    for entry in entries {
        body.extend(entry.uuid);
        if tagged {
            body.push(2 * entry.tag.len() as u8);
            body.extend(&entry.tag);
        }
        body.extend((entry.intervals.len() as u64).to_le_bytes());
        for (start, end) in &entry.intervals {
            body.extend(start.to_le_bytes());
            body.extend(end.to_le_bytes());
        }
    }
    body
}

/// Adds a number to rising intervals, for the few ways that are used here; whether it wasn't there.
fn with(intervals: &mut Vec<(u64, u64)>, gno: u64) -> bool {
    if intervals.iter().any(|one| one.0 <= gno && gno < one.1) {
        return false;
    }
    match intervals.iter_mut().find(|one| one.1 == gno) {
        Some(one) => one.1 += 1,
        None => intervals.push((gno, gno + 1)),
    }
    intervals.sort();
    true
}

/// The event with an id of the entry, with all fields.
fn event_for(entry: &Entry, gno: u64) -> (u8, Vec<u8>) {
    let (event_type, base) = match entry.tag.is_empty() {
        true => (GTID_EVENT, untagged()),
        false => (GTID_TAGGED_LOG_EVENT, tagged(&entry.tag)),
    };
    let event = GtidEvent::deserialize(BinlogCtx::new(event_type), &mut ParseBuf(&base))
        .expect("an event")
        .with_sid(entry.uuid)
        .with_gno(gno);
    let mut body = Vec::new();
    event.serialize(&mut body);
    (event_type, body)
}

/// The listing of a set in which no interval is a single id.
fn text(entries: &[Entry]) -> String {
    let intervals: usize = entries.iter().map(|entry| entry.intervals.len()).sum();
    let mut text = format!(
        "previous-gtids entries {} intervals {intervals}\n",
        entries.len()
    );
    for entry in entries {
        for (place, byte) in entry.uuid.iter().enumerate() {
            if [4, 6, 8, 10].contains(&place) {
                text.push('-');
            }
            text += &format!("{byte:02x}");
        }
        if !entry.tag.is_empty() {
            text += &format!(":{}", String::from_utf8_lossy(&entry.tag));
        }
        for (start, end) in &entry.intervals {
            text += &format!(":{start}-{}", end - 1);
        }
        text.push('\n');
    }
    text
}

// ---- the stack ----

/// A thread on memory of our own, filled with a pattern before it starts (pthreads of the C library, x86-64 Linux).
mod painted {
    use super::{null_mut, ptr};
    use std::ffi::{c_int, c_void};

    /// At least as large and as aligned as the C library's.
    #[repr(C, align(16))]
    struct Attributes([u8; 128]);

    unsafe extern "C" {
        fn pthread_attr_init(attributes: *mut Attributes) -> c_int;
        fn pthread_attr_setstack(
            attributes: *mut Attributes,
            stack: *mut c_void,
            len: usize,
        ) -> c_int;
        fn pthread_attr_destroy(attributes: *mut Attributes) -> c_int;
        fn pthread_create(
            thread: *mut usize,
            attributes: *const Attributes,
            start: extern "C" fn(*mut c_void) -> *mut c_void,
            argument: *mut c_void,
        ) -> c_int;
        fn pthread_join(thread: usize, result: *mut *mut c_void) -> c_int;
    }

    const LEN: usize = 1 << 20;
    const PATTERN: u8 = 0xa5;

    struct Argument<'a> {
        call: &'a mut (dyn FnMut() + Send),
        stack: *const u8,
        used: usize,
    }

    /// Makes the call, and looks at once how far down the pattern has gone.
    extern "C" fn start(argument: *mut c_void) -> *mut c_void {
        // SAFETY: deepest() lends it until this thread has ended.
        let argument = unsafe { &mut *argument.cast::<Argument<'_>>() };
        let here = 0_u8;
        (argument.call)();
        let mut lowest = argument.stack;
        // SAFETY: the memory of the stack, which is alive; the search ends below this function's own frame.
        while lowest < &raw const here && unsafe { ptr::read_volatile(lowest) } == PATTERN {
            lowest = lowest.wrapping_add(1);
        }
        argument.used = (&raw const here).addr() - lowest.addr();
        null_mut()
    }

    /// How many bytes of stack a call uses, below the function that makes it.
    pub fn deepest(call: &mut (dyn FnMut() + Send)) -> usize {
        let mut memory = vec![PATTERN; LEN + 4096];
        let stack = memory.as_mut_ptr();
        let stack = stack.wrapping_add(stack.align_offset(4096));
        let mut argument = Argument {
            call,
            stack,
            used: 0,
        };
        let mut attributes = Attributes([0; 128]);
        let mut thread = 0;
        // SAFETY: the memory and the argument outlive the thread, which is waited for.
        unsafe {
            assert_eq!(pthread_attr_init(&raw mut attributes), 0);
            assert_eq!(
                pthread_attr_setstack(&raw mut attributes, stack.cast(), LEN),
                0
            );
            let argument = (&raw mut argument).cast();
            assert_eq!(
                pthread_create(&raw mut thread, &raw const attributes, start, argument),
                0
            );
            assert_eq!(pthread_join(thread, null_mut()), 0);
            pthread_attr_destroy(&raw mut attributes);
        }
        drop(memory);
        argument.used
    }
}

/// The most bytes of stack that a call used on some inputs, and on which.
fn most(inputs: &[&str]) -> (usize, String) {
    let used = inputs.iter().map(|what| {
        let mut ours = Sent(made(what).expect("a word of the table").ours);
        let used = painted::deepest(&mut move || ours.once());
        (used, (*what).to_owned())
    });
    used.max().expect("an input")
}

/// A closure with bytes of its own, which may go to another thread.
struct Sent(Turns);

// SAFETY: the closures own what they use, and one thread at a time has them.
unsafe impl Send for Sent {}

impl Sent {
    fn once(&mut self) {
        (self.0)(1);
    }
}

#[rustfmt::skip]
fn stack() {
    let rows: [(&str, &[&str]); 21] = [
        ("gtid_read_varlen_uint", &["varint-1", "varint-7", "varint-9"]),
        ("gtid_read", &["read-untagged", "read-short", "read-tagged", "read-tagged-32"]),
        ("gtid_read_present", &["read-present", "read-present-32"]),
        ("gtid_write", &["write-untagged", "write-short", "write-tagged", "write-tagged-32"]),
        ("gtid_read_previous", &["body-2048", "body-uuids", "body-tags"]),
        ("gtid_read_entry", &["entry-2048", "entry-tags"]),
        ("gtid_rewrite", &["rewrite-1", "rewrite-2048", "rewrite-uuids", "rewrite-tags"]),
        ("gtid_check_set", &["check-set-1", "check-set", "check-set-2560", "check-set-longest", "check-set-cut"]),
        ("gtid_contains", &["contains"]),
        ("gtid_offer", &["offer-1", "offer-1023", "offer-first", "offer-there", "offer-2559", "offer-383-tagged", "offer-longest"]),
        ("gtid_take_in", &["take-in-set", "take-in-longest", "take-in-worst", "take-in-covered", "take-in-merged", "take-in-uuids", "take-in-tags"]),
        ("gtid_either", &["either-2560", "either-uuids", "either-384", "either-tags", "either-longest"]),
        ("gtid_both", &["both-2560", "both-longest"]),
        ("gtid_without", &["without-2560", "without-longest"]),
        ("gtid_within", &["within-2560", "within-no", "within-longest"]),
        ("gtid_head", &["head-first", "head-second", "head-last", "head-neither", "head-apart", "head-longest"]),
        ("gtid_report_add", &["report-add-1", "report-add-1024", "report-add-longest", "report-add-cut", "report-add-65th"]),
        ("gtid_report_sum", &["report-sum-1", "report-sum-64"]),
        ("gtid_report_write", &["report-write-1", "report-write-64", "report-write-longest"]),
        ("gtid_binlog_step", &["binlog-skip", "binlog-offer-1", "binlog-offer-1023", "binlog-join-1", "binlog-join-longest", "binlog-join-merged"]),
        ("gtid_list", &["list-35", "list-35-longest", "list-35-merged", "list-35-tags", "list-33", "list-42"]),
    ];
    println!("| call | bytes of stack | on the input |");
    println!("|---|---|---|");
    println!("| none (an empty function) | {} | |", painted::deepest(&mut || ()));
    for (call, inputs) in rows {
        let (used, what) = most(inputs);
        println!("| {call} | {used} | {what} |");
    }
}

fn main() -> ExitCode {
    let words: Vec<String> = env::args().skip(1).collect();
    let words: Vec<&str> = words.iter().map(String::as_str).collect();
    match words[..] {
        ["list"] => {
            for (what, text, turns) in TABLE {
                let made = made(what).expect("a word of the table");
                let sides = if made.theirs.is_some() {
                    "both"
                } else {
                    "ours"
                };
                println!("{what} {sides} {} {turns} {text}", made.bytes);
            }
        }
        ["stack"] => stack(),
        [side @ ("ours" | "theirs"), what, count] => {
            let (Some(made), Ok(count)) = (made(what), count.parse()) else {
                return ExitCode::from(2);
            };
            let run = match side {
                "ours" => Some(made.ours),
                _ => made.theirs,
            };
            let Some(mut run) = run else {
                return ExitCode::from(2);
            };
            run(count);
        }
        _ => {
            eprintln!("bench list | bench stack | bench ours|theirs WHAT TURNS");
            return ExitCode::from(2);
        }
    }
    ExitCode::SUCCESS
}
