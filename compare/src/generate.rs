//! The cases: a fixed part first (short integers exhaustively, and edges), then random ones without end.

use crate::{
    case::{Case, Input, Kind, bare},
    random::Random,
};
use theirs::{
    answers::{self, Fields, Step, Told},
    numbers::{
        ANONYMOUS_GTID_EVENT, GTID_EVENT, GTID_TAGGED_LOG_EVENT, MAX_BODY, MAX_TAG,
        PREVIOUS_GTIDS_EVENT,
    },
};

const READERS: [Kind; 4] = [
    Kind::ReadUint,
    Kind::ReadInt,
    Kind::ReadLenenc,
    Kind::ReadLenencSecond,
];
const WRITERS: [Kind; 4] = [
    Kind::WriteUint,
    Kind::WriteInt,
    Kind::WriteLenenc,
    Kind::WriteLenencSecond,
];
const SIZES: [Kind; 3] = [Kind::UintSize, Kind::LenencSize, Kind::PayloadSize];
const EVENTS: [Kind; 5] = [
    Kind::ReadRecord,
    Kind::ReadRecord,
    Kind::RewriteRecord,
    Kind::RewriteRecord,
    Kind::LengthOfRead,
];

/// The types that are served, and one more.
const TYPES: [u8; 5] = [
    15,
    GTID_EVENT,
    ANONYMOUS_GTID_EVENT,
    PREVIOUS_GTIDS_EVENT,
    GTID_TAGGED_LOG_EVENT,
];

/// An output that holds every written record.
const ROOM: usize = 200;

/// The longest body that probe takes.
const LONGEST: usize = 140_000;

/// Every case of the fixed part, one after another, to `put`.
pub fn fixed(random: &mut Random, put: &mut dyn FnMut(Case)) {
    for kind in READERS {
        put(Case::bytes(kind, 0, Vec::new(), 0));
        for first in 0..=255 {
            put(Case::bytes(kind, 0, vec![first], 0));
            for second in 0..=255 {
                put(Case::bytes(kind, 0, vec![first, second], 0));
            }
            for len in 3..=10 {
                for tail in [0x00, 0xff] {
                    let mut bytes = vec![tail; len];
                    bytes[0] = first;
                    put(Case::bytes(kind, 0, bytes, 0));
                }
                for _ in 0..4 {
                    let mut bytes = random.bytes(len);
                    bytes[0] = first;
                    put(Case::bytes(kind, 0, bytes, 0));
                }
            }
        }
    }
    let edges = (0..64).flat_map(|bit| [(1u64 << bit).wrapping_sub(1), 1 << bit, (1 << bit) + 1]);
    let others = [250, 251, 252, u64::MAX - 1, u64::MAX];
    let numbers: Vec<u64> = (0..=65_537).chain(edges).chain(others).collect();
    for number in numbers {
        for kind in WRITERS {
            put(Case::number(kind, number, 9));
            if number > 65_535 || number % 256 == 0 {
                (0..9).for_each(|out_len| put(Case::number(kind, number, out_len)));
            }
        }
        put(Case::number(Kind::UintSize, number, 0));
        put(Case::number(Kind::LenencSize, number, 0));
        if number < 1 << 32 {
            put(Case::number(Kind::PayloadSize, number, 0));
        }
    }
    // Every type of event over a body that is none of them, a bare untagged one, and the rules' tagged one.
    let tagged = answers::write_record(&Fields {
        tag: b"a".to_vec(),
        typecode: None,
        gno: 1,
        sequence_number: 1,
        immediate_version: 0,
        original_version: 0,
        ..bare()
    });
    let Told::Ok(tagged) = tagged else {
        unreachable!("the rules' own example")
    };
    for event_type in 0..=255 {
        for body in [Vec::new(), vec![0; 25], tagged.clone()] {
            for kind in EVENTS {
                put(Case::bytes(kind, event_type, body.clone(), ROOM));
            }
        }
    }
    // Every length up to 90 of untagged bodies of equal bytes; every cut of the tagged one.
    for event_type in [GTID_EVENT, ANONYMOUS_GTID_EVENT] {
        for len in 0..90 {
            for fill in [0x00, 0x02, 0x7f, 0x80, 0xfa, 0xfb, 0xfc, 0xfd, 0xfe, 0xff] {
                let mut body = vec![fill; len];
                if len > 25 {
                    body[25] = 2;
                }
                put(Case::bytes(
                    Kind::ReadRecord,
                    event_type,
                    body.clone(),
                    ROOM,
                ));
                put(Case::bytes(Kind::RewriteRecord, event_type, body, ROOM));
            }
        }
    }
    for len in 0..tagged.len() {
        put(Case::bytes(
            Kind::ReadRecord,
            GTID_TAGGED_LOG_EVENT,
            tagged[..len].to_vec(),
            ROOM,
        ));
    }
    // Counts of Previous-GTIDs with nothing after them.
    for top in [0u64, 1, 2, 0xff] {
        for low in [0u64, 1, 0xff] {
            for bit in 0..56 {
                let body = ((top << 56) | (1 << bit) | low).to_le_bytes().to_vec();
                put(Case::bytes(Kind::ReadPrevious, 0, body.clone(), 0));
                put(Case::bytes(Kind::RewritePrevious, 0, body, 100));
            }
        }
    }
    for bit in 0..64 {
        let mut body = 1u64.to_le_bytes().to_vec();
        body.extend_from_slice(&[7; 16]);
        body.extend_from_slice(&(1u64 << bit).to_le_bytes());
        body.extend_from_slice(&random.bytes(160));
        put(Case::bytes(Kind::ReadPrevious, 0, body, 0));
    }
    // Both sides of the greatest body.
    for len in [MAX_BODY - 1, MAX_BODY, MAX_BODY + 1, 70_000, LONGEST] {
        for event_type in TYPES {
            for kind in EVENTS {
                put(Case::bytes(kind, event_type, vec![0; len], ROOM));
            }
        }
        put(Case::bytes(Kind::ReadPrevious, 0, vec![0; len], 0));
        put(Case::bytes(Kind::RewritePrevious, 0, vec![0; len], 100));
    }
}

/// One more random case.
pub fn random(random: &mut Random) -> Case {
    match random.below(100) {
        0..8 => integer(random),
        8..28 => {
            let event_type = if random.once_in(6) {
                ANONYMOUS_GTID_EVENT
            } else {
                GTID_EVENT
            };
            let body = untagged(random);
            event(random, event_type, body)
        }
        28..56 => {
            let body = tagged(random);
            event(random, GTID_TAGGED_LOG_EVENT, body)
        }
        56..58 => {
            let event_type = random.one_of(&[0, 15, 32, 33, 34, 35, 36, 41, 42, 43, 255]);
            let body = random_body(random);
            event(random, event_type, body)
        }
        58..72 => written(random),
        72..78 => built(random),
        _ => {
            let body = previous(random);
            previous_case(random, body)
        }
    }
}

fn integer(random: &mut Random) -> Case {
    let number = random.number();
    match random.below(10) {
        0..5 => {
            let len = random.below(11);
            let mut bytes = random.bytes(len);
            if random.once_in(2) {
                bytes = varlen(random, number);
                bytes.extend_from_slice(&random.next().to_le_bytes()[..random.below(4)]);
            }
            Case::bytes(random.one_of(&READERS), 0, bytes, 0)
        }
        5..8 => {
            let out_len = if random.once_in(4) {
                random.below(9)
            } else {
                9
            };
            Case::number(random.one_of(&WRITERS), number, out_len)
        }
        _ => {
            let kind = random.one_of(&SIZES);
            let number = if kind == Kind::PayloadSize {
                number >> 32
            } else {
                number
            };
            Case::number(kind, number, 0)
        }
    }
}

/// The variable-length form: mostly the shortest, sometimes longer.
fn varlen(random: &mut Random, value: u64) -> Vec<u8> {
    let mut len = (1..=8).find(|n| value < 1 << (7 * n)).unwrap_or(9);
    if random.once_in(6) {
        len += random.below(10 - len);
    }
    if len == 9 {
        let mut out = vec![0xff];
        out.extend_from_slice(&value.to_le_bytes());
        return out;
    }
    let marked = (value << len) | ((1 << (len - 1)) - 1);
    marked.to_le_bytes()[..len].to_vec()
}

/// Twice the number for 0 and above, as the signed form has it; rarely a negative one.
fn signed(random: &mut Random, value: u64) -> Vec<u8> {
    let zigzag = if random.once_in(40) {
        random.number() | 1
    } else {
        value.wrapping_mul(2)
    };
    varlen(random, zigzag)
}

fn lenenc(random: &mut Random) -> Vec<u8> {
    let number = random.number();
    let (lead, len) = match random.below(40) {
        0 => return vec![0xfb],
        1 => return vec![0xff],
        2..10 => return vec![random.below(251) as u8],
        10..20 => (0xfc, 2),
        20..30 => (0xfd, 3),
        _ => (0xfe, 8),
    };
    let mut out = vec![lead];
    out.extend_from_slice(&number.to_le_bytes()[..len]);
    out
}

/// A number in `len` bytes, whose greatest bit is often set.
fn marked(random: &mut Random, len: usize) -> (Vec<u8>, bool) {
    let mut bytes = random.number().to_le_bytes()[..len].to_vec();
    let mark = random.once_in(2);
    bytes[len - 1] = (bytes[len - 1] & 0x7f) | if mark { 0x80 } else { 0 };
    (bytes, mark)
}

fn untagged(random: &mut Random) -> Vec<u8> {
    let mut body = vec![random.byte()];
    body.extend_from_slice(&random.uuid());
    body.extend_from_slice(&random.number().to_le_bytes());
    let mut parts: Vec<Vec<u8>> = Vec::new();
    if random.once_in(12) {
        let len = random.below(20);
        parts.push(random.bytes(len));
    } else {
        parts.push(vec![2]);
        parts.push(random.number().to_le_bytes().to_vec());
        parts.push(random.number().to_le_bytes().to_vec());
        for (len, then_length) in [(7, true), (4, false)] {
            let (number, mark) = marked(random, len);
            parts.push(number.clone());
            if mark {
                let (mut original, _) = marked(random, len);
                if random.once_in(4) {
                    // The same number twice: the writer leaves the second out.
                    original = number;
                    original[len - 1] &= 0x7f;
                }
                parts.push(original);
            }
            if then_length {
                parts.push(lenenc(random));
            }
        }
        if random.once_in(5) {
            let len = random.below(12);
            parts.push(random.bytes(len));
        }
        if random.once_in(4) {
            parts.truncate(random.below(parts.len() + 1));
        }
    }
    body.extend(parts.concat());
    body
}

/// A tag: mostly a valid one.
fn tag(random: &mut Random) -> Vec<u8> {
    const LETTERS: &[u8] = b"abcdefghijklmnopqrstuvwxyz_";
    const ALL: &[u8] = b"abcdefghijklmnopqrstuvwxyz_0123456789";
    let len = if random.once_in(3) {
        random.one_of(&[1, 2, MAX_TAG - 1, MAX_TAG])
    } else {
        1 + random.below(MAX_TAG)
    };
    let mut tag: Vec<u8> = (0..len).map(|_| random.one_of(ALL)).collect();
    tag[0] = random.one_of(LETTERS);
    tag
}

/// A tag that may be broken.
fn any_tag(random: &mut Random) -> Vec<u8> {
    let mut tag = tag(random);
    match random.below(30) {
        0 => tag.clear(),
        1 => tag[0] = b'0' + random.below(10) as u8,
        2 => {
            let place = random.below(tag.len());
            tag[place] = random.byte();
        }
        3 => tag.resize(MAX_TAG + 1 + random.below(3), b'a'),
        4 => tag.extend_from_slice("é".as_bytes()),
        _ => (),
    }
    tag
}

fn field(random: &mut Random, id: u64, out: &mut Vec<u8>) {
    out.extend(varlen(random, id));
    let number = random.number();
    let bytes = match id {
        0 => {
            let value = if random.once_in(20) {
                number
            } else {
                number & 0xff
            };
            varlen(random, value)
        }
        1 => {
            let uuid = random.uuid();
            let broken = if random.once_in(30) {
                random.below(16)
            } else {
                16
            };
            let items = uuid.iter().enumerate();
            let items = items.map(|(place, item)| {
                if place == broken {
                    number
                } else {
                    u64::from(*item)
                }
            });
            let items: Vec<u64> = items.collect();
            items
                .iter()
                .flat_map(|item| varlen(random, *item))
                .collect()
        }
        2 | 4 | 5 => signed(random, number >> 1),
        3 => {
            let tag = any_tag(random);
            let told = if random.once_in(40) {
                number
            } else {
                tag.len() as u64
            };
            let mut bytes = varlen(random, told);
            bytes.extend(tag);
            bytes
        }
        6 | 7 | 8 | 11 => varlen(random, number),
        9 | 10 => {
            let value = if random.once_in(20) {
                number
            } else {
                number >> 32
            };
            varlen(random, value)
        }
        _ => {
            let len = random.below(10);
            random.bytes(len)
        }
    };
    out.extend(bytes);
}

fn tagged(random: &mut Random) -> Vec<u8> {
    if random.once_in(4) {
        let fields = Fields {
            typecode: None,
            tag: tag(random),
            ..record(random)
        };
        if let Told::Ok(bytes) = answers::write_record(&fields) {
            return bytes;
        }
    }
    let mut ids: Vec<u64> = Vec::new();
    for id in 0..12 {
        if !random.once_in(8) {
            ids.push(id);
        }
    }
    if !random.once_in(3) {
        for place in (1..ids.len()).rev() {
            ids.swap(place, random.below(place + 1));
        }
    }
    if random.once_in(4) {
        let again = random.below(12) as u64;
        ids.insert(random.below(ids.len() + 1), again);
    }
    let unknown = random.once_in(4);
    let last = match random.below(6) {
        0 => random.number(),
        1 => 12 + random.below(3) as u64,
        2 => random.below(12) as u64,
        _ => 0,
    };
    if unknown {
        let id = random.one_of(&[
            12,
            13,
            14,
            last,
            last.wrapping_add(1),
            last.wrapping_sub(1),
            u64::MAX,
        ]);
        ids.insert(random.below(ids.len() + 1), id);
    }
    let mut fields = Vec::new();
    for id in ids {
        field(random, id, &mut fields);
    }
    let last = varlen(random, last);
    enveloped(random, &last, &fields)
}

/// Version byte, payload size, the last non-ignorable id and the fields. Mostly the size is right.
fn enveloped(random: &mut Random, last: &[u8], fields: &[u8]) -> Vec<u8> {
    let mut size = Vec::new();
    for _ in 0..4 {
        let told = 1 + size.len() + last.len() + fields.len();
        let off = if random.once_in(60) {
            random.number()
        } else {
            told as u64
        };
        let longer = varlen(random, off);
        if longer.len() >= size.len() {
            size = longer;
        }
    }
    let told = (1 + size.len() + last.len() + fields.len()) as u64;
    let told = if random.once_in(12) {
        (told + random.below(7) as u64).saturating_sub(3)
    } else {
        told
    };
    let len = size.len();
    // In the form of the length that was counted.
    let size = if len == 9 {
        [&[0xff][..], &told.to_le_bytes()].concat()
    } else {
        ((told << len) | ((1 << (len - 1)) - 1)).to_le_bytes()[..len].to_vec()
    };
    let version = if random.once_in(50) { random.byte() } else { 2 };
    let mut body = [&[version][..], &size, last, fields].concat();
    if random.once_in(6) {
        let len = random.below(12);
        body.extend(random.bytes(len));
    }
    body
}

fn random_body(random: &mut Random) -> Vec<u8> {
    match random.below(4) {
        0 => {
            let len = random.below(100);
            random.bytes(len)
        }
        1 => untagged(random),
        2 => tagged(random),
        _ => previous(random),
    }
}

/// A damaged copy: some bytes changed, put in, taken out or cut off.
fn damaged(random: &mut Random, mut body: Vec<u8>) -> Vec<u8> {
    for _ in 0..1 + random.below(3) {
        if body.is_empty() {
            break;
        }
        let place = random.below(body.len());
        let new = if random.once_in(2) {
            random.byte()
        } else {
            random.one_of(&[0, 1, 2, 0x7f, 0x80, 0xfb, 0xfe, 0xff])
        };
        match random.below(6) {
            0 => body.truncate(place),
            1 => body.insert(place, new),
            2 => {
                body.remove(place);
            }
            3 => body[place] ^= 1 << random.below(8),
            _ => body[place] = new,
        }
    }
    body
}

fn event(random: &mut Random, event_type: u8, mut body: Vec<u8>) -> Case {
    if random.once_in(3) {
        body = damaged(random, body);
    }
    if random.once_in(4_000) {
        // Around the greatest length, with bytes that stay unread.
        let fill = random.byte();
        body.resize(
            random.one_of(&[MAX_BODY - 1, MAX_BODY, MAX_BODY + 1, 66_000, LONGEST]),
            fill,
        );
    } else if event_type == GTID_TAGGED_LOG_EVENT && random.once_in(4_000) {
        // The same with the bytes inside the payload, behind an unknown id.
        let mut fields = Vec::new();
        field(random, 3, &mut fields);
        fields.push(24);
        let less = random.one_of(&[6, 5, 4, 3]);
        fields.resize(MAX_BODY - less, 7);
        body = enveloped(random, &[0], &fields);
    }
    let kind = random.one_of(&EVENTS);
    let out_len = match kind {
        Kind::RewriteRecord => out_len(random, || answers::rewrite_record(event_type, &body)),
        _ => 0,
    };
    Case::bytes(kind, event_type, body, out_len)
}

/// Mostly enough; sometimes just enough, one short, or short.
fn out_len(random: &mut Random, write: impl FnOnce() -> Told<Vec<u8>>) -> usize {
    let exact = |told: Told<Vec<u8>>| {
        if let Told::Ok(bytes) = told {
            bytes.len()
        } else {
            10
        }
    };
    match random.below(20) {
        0 => exact(write()),
        1 => exact(write()).saturating_sub(1),
        2 => random.below(80),
        _ => ROOM,
    }
}

/// A record, mostly writable.
fn record(random: &mut Random) -> Fields {
    let wide = random.once_in(8);
    let number = |random: &mut Random, bits: u32| {
        let number = random.number();
        if wide {
            number
        } else {
            number & ((1u64 << bits) - 1)
        }
    };
    let immediate_timestamp = number(random, 55);
    let immediate_version = number(random, 31) as u32;
    let tagged = random.once_in(2);
    let bits = if tagged { 63 } else { 56 };
    Fields {
        flags: random.byte(),
        uuid: random.uuid(),
        gno: number(random, 63),
        tag: if tagged { tag(random) } else { Vec::new() },
        typecode: if tagged { None } else { Some(2) },
        last_committed: number(random, 63),
        sequence_number: number(random, 63),
        immediate_timestamp,
        original_timestamp: if random.once_in(3) {
            immediate_timestamp
        } else {
            number(random, bits)
        },
        tx_length: random.number(),
        immediate_version,
        original_version: if random.once_in(3) {
            immediate_version
        } else {
            random.number() as u32
        },
        ticket: if tagged { random.number() } else { 0 },
    }
}

fn written(random: &mut Random) -> Case {
    let mut fields = record(random);
    match random.below(24) {
        // Without a typecode: all later fields absent, or one or all of them not.
        0..3 => {
            fields = Fields {
                flags: fields.flags,
                uuid: fields.uuid,
                gno: fields.gno,
                ..bare()
            }
        }
        3 => {
            fields = Fields {
                last_committed: fields.last_committed,
                ..bare()
            }
        }
        4 => {
            fields = Fields {
                tx_length: fields.tx_length,
                original_version: fields.original_version,
                ..bare()
            }
        }
        5 => fields.typecode = None,
        6 => fields.typecode = Some(2),
        7 => fields.ticket = random.number(),
        _ => (),
    }
    // (The wide records are outside here and there too.)
    assert!(answers::holds(&fields));
    if random.once_in(3) {
        return Case {
            kind: Kind::RecordLength,
            event_type: 0,
            out_len: 0,
            input: Input::Record(fields),
        };
    }
    let out_len = out_len(random, || answers::write_record(&fields));
    Case {
        kind: Kind::WriteRecord,
        event_type: 0,
        out_len,
        input: Input::Record(fields),
    }
}

fn built(random: &mut Random) -> Case {
    let first = if random.once_in(2) {
        Step::New(random.uuid(), random.number())
    } else {
        Step::NewTagged(random.uuid(), random.number(), any_tag(random))
    };
    let mut steps = vec![first];
    for _ in 0..random.below(12) {
        let number = random.number();
        steps.push(match random.below(14) {
            0 => Step::Tag(any_tag(random)),
            1 => Step::Typecode,
            2 => Step::Flags(number as u8),
            3 => Step::Uuid(random.uuid()),
            4 => Step::Gno(number),
            5 => Step::LastCommitted(number),
            6 => Step::SequenceNumber(number),
            7 => Step::ImmediateTimestamp(number),
            8 => Step::OriginalTimestamp(number),
            9 => Step::TxLength(number),
            10 => Step::Ticket(number),
            11 => Step::ImmediateVersion(number as u32),
            12 => Step::OriginalVersion(number as u32),
            _ => Step::New(random.uuid(), number),
        });
    }
    Case {
        kind: Kind::Build,
        event_type: 0,
        out_len: 0,
        input: Input::Steps(steps),
    }
}

fn previous(random: &mut Random) -> Vec<u8> {
    let tagged = random.once_in(2);
    let mut entries = match random.below(10) {
        0 => 0,
        1 => random.below(40),
        _ => random.below(5),
    };
    let great = random.once_in(4_000);
    if great {
        entries += 20;
    }
    let mut body = Vec::new();
    for _ in 0..entries {
        body.extend_from_slice(&random.uuid());
        if tagged {
            let tag = if random.once_in(3) {
                Vec::new()
            } else {
                any_tag(random)
            };
            let tag = if random.once_in(3) { Vec::new() } else { tag };
            let told = if random.once_in(200) {
                random.number()
            } else {
                tag.len() as u64
            };
            body.extend(varlen(random, told));
            body.extend(tag);
        }
        let intervals = if great {
            random.below(300)
        } else {
            random.below(5)
        };
        body.extend_from_slice(&count(random, intervals).to_le_bytes());
        let mut at = random.number() >> 1;
        for _ in 0..intervals {
            let (start, end) = if random.once_in(10) {
                (random.number(), random.number())
            } else {
                let start = at.wrapping_add(1 + random.below(9) as u64);
                (start, start.wrapping_add(1 + random.below(9) as u64))
            };
            at = end;
            body.extend_from_slice(&start.to_le_bytes());
            body.extend_from_slice(&end.to_le_bytes());
        }
    }
    let told = count(random, entries);
    let header = if tagged {
        let top = if random.once_in(4) {
            u64::from(random.byte())
        } else {
            1
        };
        let bottom = if random.once_in(4) {
            u64::from(random.byte())
        } else {
            1
        };
        (top << 56) | ((told & 0xffff_ffff_ffff) << 8) | bottom
    } else {
        told & 0xff_ffff_ffff_ffff
    };
    let mut whole = header.to_le_bytes().to_vec();
    whole.extend(body);
    if random.once_in(6) {
        let len = random.below(40);
        whole.extend(random.bytes(len));
    }
    if great && random.once_in(2) {
        whole.resize(random.one_of(&[MAX_BODY - 1, MAX_BODY, MAX_BODY + 1]), 3);
    }
    whole
}

/// A count: mostly the right one, sometimes one beside it, rarely any.
fn count(random: &mut Random, right: usize) -> u64 {
    match random.below(60) {
        0 => right as u64 + 1,
        1 => (right as u64).saturating_sub(1),
        2 => random.one_of(&[1 << 20, (1 << 20) + 1, 1 << 30, 1 << 47, 1 << 60]),
        3 if random.once_in(4) => random.number(),
        _ => right as u64,
    }
}

fn previous_case(random: &mut Random, mut body: Vec<u8>) -> Case {
    if random.once_in(4) {
        body = damaged(random, body);
    }
    if random.once_in(2) {
        return Case::bytes(Kind::ReadPrevious, 0, body, 0);
    }
    let out_len = match random.below(10) {
        0 => out_len(random, || answers::rewrite_previous(&body)),
        _ => body.len() + random.below(3),
    };
    Case::bytes(Kind::RewritePrevious, 0, body, out_len)
}
