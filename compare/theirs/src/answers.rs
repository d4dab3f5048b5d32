//! Not of the crate: its functions over bytes, with answers in the terms of docs/RULES.md.
//!
//! An `io::Error` is a refusal, a panic is caught and told as one. Where a body announces more entries or intervals than
//! [`RESERVABLE`] the crate isn't asked: it would reserve room for all of them first.

use crate::{
    binlog::{
        BinlogCtx, BinlogStruct,
        consts::{BinlogVersion, GtidFlags},
        events::{
            gtid_event::{GtidEvent, doors},
            previous_gtids_event::PreviousGtidsEvent,
        },
    },
    io::{BufMutExt, ParseBuf, ReadMysqlExt, WriteMysqlExt},
    misc,
    numbers::{GTID_EVENT, PREVIOUS_GTIDS_EVENT, refusal},
    packets::Tag,
    proto::{MyDeserialize, MySerialize},
};
use std::{
    io,
    panic::{AssertUnwindSafe, catch_unwind},
};

/// The greatest count of entries or intervals that the crate is asked to reserve room for.
pub const RESERVABLE: u64 = 1 << 20;

/// What the crate answers.
#[derive(Debug, Clone, PartialEq, Eq)]
pub enum Told<T> {
    Ok(T),
    Refused(Refusal),
    Panicked,
    /// Not asked.
    Unreservable,
}

impl<T> Told<T> {
    pub fn map<U>(self, change: impl FnOnce(T) -> U) -> Told<U> {
        match self {
            Told::Ok(value) => Told::Ok(change(value)),
            Told::Refused(refusal) => Told::Refused(refusal),
            Told::Panicked => Told::Panicked,
            Told::Unreservable => Told::Unreservable,
        }
    }
}

/// An `io::Error`: its kind, and the rules' number for its text, where the table below has the text.
#[derive(Debug, Clone, Copy, PartialEq, Eq)]
pub struct Refusal {
    pub kind: io::ErrorKind,
    pub number: Option<u8>,
}

/// Parts of the crate's texts, each of which stands for one number of the rules. The table is the comparison's own.
const TEXTS: [(&str, u8); 17] = [
    ("gtid_flags value out of u8 range", refusal::TOO_LARGE),
    ("UUID byte ", refusal::TOO_LARGE),
    ("immediate_server_version out of u32 range", refusal::TOO_LARGE),
    ("original_server_version out of u32 range", refusal::TOO_LARGE),
    ("negative gno value", refusal::NEGATIVE),
    ("negative last_committed value", refusal::NEGATIVE),
    ("negative sequence_number value", refusal::NEGATIVE),
    ("unsupported tagged GTID serialization version", refusal::WRONG_VERSION),
    ("unknown non-ignorable field", refusal::UNKNOWN_FIELD),
    ("invalid UTF-8", refusal::BAD_TAG),
    ("invalid GTID tag", refusal::BAD_TAG),
    ("stand-in: the tag breaks the tag rule", refusal::BAD_TAG),
    ("GTID_TAGGED_LOG_EVENT missing tag field", refusal::NO_TAG),
    ("unexpected event type for GtidEvent", refusal::WRONG_TYPE),
    ("stand-in: unknown event type", refusal::WRONG_TYPE),
    ("payload_size (", refusal::SMALL_PAYLOAD),
    ("Invalid length-encoded integer value", refusal::BAD_LEAD),
];

fn refusal_of(error: io::Error) -> Refusal {
    let kind = error.kind();
    if kind == io::ErrorKind::UnexpectedEof {
        return Refusal {
            kind,
            number: Some(refusal::ENDED),
        };
    }
    let text = error.to_string();
    let number = TEXTS
        .iter()
        .find(|(part, _)| text.starts_with(part))
        .map(|(_, number)| *number);
    Refusal { kind, number }
}

fn asked<T>(ask: impl FnOnce() -> io::Result<T>) -> Told<T> {
    match catch_unwind(AssertUnwindSafe(ask)) {
        Ok(Ok(value)) => Told::Ok(value),
        Ok(Err(error)) => Told::Refused(refusal_of(error)),
        Err(_) => Told::Panicked,
    }
}

// ---- Integers ----

/// A value and the number of bytes used.
pub type Read<T> = Told<(T, usize)>;

fn reading<T>(bytes: &[u8], read: impl FnOnce(&mut ParseBuf<'_>) -> io::Result<T>) -> Read<T> {
    asked(|| {
        let mut buf = ParseBuf(bytes);
        let value = read(&mut buf)?;
        Ok((value, bytes.len() - buf.len()))
    })
}

fn writing(write: impl FnOnce(&mut Vec<u8>) -> io::Result<()>) -> Told<Vec<u8>> {
    asked(|| {
        let mut out = Vec::new();
        write(&mut out)?;
        Ok(out)
    })
}

pub fn read_uint(bytes: &[u8]) -> Read<u64> {
    reading(bytes, misc::read_varlen_uint)
}

pub fn write_uint(value: u64) -> Told<Vec<u8>> {
    writing(|out| {
        misc::write_varlen_uint(out, value);
        Ok(())
    })
}

pub fn uint_size(value: u64) -> Told<u64> {
    asked(|| Ok(misc::varlen_uint_size(value) as u64))
}

pub fn read_int(bytes: &[u8]) -> Read<i64> {
    reading(bytes, doors::read_varlen_int)
}

pub fn write_int(value: i64) -> Told<Vec<u8>> {
    writing(|out| {
        doors::write_varlen_int(out, value);
        Ok(())
    })
}

/// By `checked_eat_lenenc_int`, as the record's reader here does.
pub fn read_lenenc(bytes: &[u8]) -> Read<u64> {
    reading(bytes, |buf| {
        buf.checked_eat_lenenc_int()
            .ok_or_else(misc::unexpected_buf_eof)
    })
}

/// By io.rs's second reader, `read_lenenc_int`.
pub fn read_lenenc_second(bytes: &[u8]) -> Read<u64> {
    reading(bytes, |buf| buf.read_lenenc_int())
}

/// By `put_lenenc_int`.
pub fn write_lenenc(value: u64) -> Told<Vec<u8>> {
    writing(|out| {
        out.put_lenenc_int(value);
        Ok(())
    })
}

/// By io.rs's second writer, `write_lenenc_int`; the length that it tells must be that of the bytes.
pub fn write_lenenc_second(value: u64) -> Told<Vec<u8>> {
    writing(|out| {
        let told = out.write_lenenc_int(value)?;
        assert_eq!(told, out.len() as u64);
        Ok(())
    })
}

pub fn lenenc_size(value: u64) -> Told<u64> {
    asked(|| Ok(misc::lenenc_int_len(value)))
}

/// The payload size of a tagged record with so many field bytes, as its writer asks for it.
pub fn payload_size(field_bytes: u64) -> Told<u64> {
    asked(|| {
        Ok(doors::compute_self_inclusive_payload_size(
            1,
            field_bytes as usize,
            0,
        ))
    })
}

// ---- GTID records ----

/// A record in the rules' terms.
#[derive(Debug, Clone, PartialEq, Eq)]
pub struct Fields {
    pub flags: u8,
    pub uuid: [u8; 16],
    pub gno: u64,
    /// Empty for none.
    pub tag: Vec<u8>,
    pub typecode: Option<u8>,
    pub last_committed: u64,
    pub sequence_number: u64,
    pub immediate_timestamp: u64,
    pub original_timestamp: u64,
    pub tx_length: u64,
    pub immediate_version: u32,
    pub original_version: u32,
    pub ticket: u64,
}

fn fields_of(event: &GtidEvent) -> Fields {
    Fields {
        flags: event.flags_raw(),
        uuid: event.sid(),
        gno: event.gno(),
        tag: event
            .tag()
            .map(|tag| tag.as_str().as_bytes().to_vec())
            .unwrap_or_default(),
        typecode: event.lc_typecode(),
        last_committed: event.last_committed(),
        sequence_number: event.sequence_number(),
        immediate_timestamp: event.immediate_commit_timestamp(),
        original_timestamp: event.original_commit_timestamp(),
        tx_length: event.tx_length(),
        immediate_version: event.immediate_server_version(),
        original_version: event.original_server_version(),
        ticket: event.commit_group_ticket(),
    }
}

fn tag_of(bytes: &[u8]) -> io::Result<Tag<'static>> {
    let text = std::str::from_utf8(bytes)
        .map_err(|_| io::Error::new(io::ErrorKind::InvalidData, "invalid UTF-8"))?;
    Tag::new(text.to_owned()).map_err(|e| io::Error::new(io::ErrorKind::InvalidData, e))
}

/// The crate's event with these fields. No typecode can only come from reading: a body of 25 bytes is read, and the
/// rest is set by the builders. None where the crate's types can't hold the record (a typecode other than 2, a tag that
/// breaks its rule).
fn event_of(fields: &Fields) -> Option<GtidEvent> {
    let mut body = vec![fields.flags];
    body.extend_from_slice(&fields.uuid);
    body.extend_from_slice(&fields.gno.to_le_bytes());
    let mut event = GtidEvent::deserialize(BinlogCtx::new(GTID_EVENT), &mut ParseBuf(&body)).ok()?;
    match fields.typecode {
        None => (),
        Some(GtidEvent::LOGICAL_TIMESTAMP_TYPECODE) => event = event.with_lc_typecode(),
        Some(_) => return None,
    }
    if !fields.tag.is_empty() {
        event = event.with_tag(tag_of(&fields.tag).ok()?);
    }
    event = event
        .with_last_committed(fields.last_committed)
        .with_sequence_number(fields.sequence_number)
        .with_immediate_commit_timestamp(fields.immediate_timestamp)
        .with_original_commit_timestamp(fields.original_timestamp)
        .with_tx_length(fields.tx_length)
        .with_immediate_server_version(fields.immediate_version)
        .with_original_server_version(fields.original_version)
        .with_commit_group_ticket(fields.ticket);
    Some(event)
}

/// Whether the crate's types can hold the record.
pub fn holds(fields: &Fields) -> bool {
    event_of(fields).is_some_and(|event| fields_of(&event) == *fields)
}

fn written(event: &GtidEvent) -> Vec<u8> {
    let mut out = Vec::new();
    event.serialize(&mut out);
    out
}

fn length(event: &GtidEvent) -> u64 {
    BinlogStruct::len(event, BinlogVersion::Version4) as u64
}

#[derive(Debug, Clone, PartialEq, Eq)]
pub struct ReadRecord {
    pub used: usize,
    pub rest: usize,
    pub fields: Fields,
}

fn event_from(event_type: u8, buf: &mut ParseBuf<'_>) -> io::Result<GtidEvent> {
    // The event keeps nothing of the body; the context's lifetime is the body's.
    GtidEvent::deserialize(BinlogCtx::new(event_type), buf)
}

pub fn read_record(event_type: u8, body: &[u8]) -> Told<ReadRecord> {
    asked(|| {
        let mut buf = ParseBuf(body);
        let event = event_from(event_type, &mut buf)?;
        Ok(ReadRecord {
            used: body.len() - buf.len(),
            rest: buf.len(),
            fields: fields_of(&event),
        })
    })
}

/// Reads a record and writes it.
pub fn rewrite_record(event_type: u8, body: &[u8]) -> Told<Vec<u8>> {
    asked(|| Ok(written(&event_from(event_type, &mut ParseBuf(body))?)))
}

/// Reads a record and tells its length.
pub fn length_of_read(event_type: u8, body: &[u8]) -> Told<u64> {
    asked(|| Ok(length(&event_from(event_type, &mut ParseBuf(body))?)))
}

/// Writes a record that the crate's types hold ([`holds`]).
pub fn write_record(fields: &Fields) -> Told<Vec<u8>> {
    asked(|| {
        Ok(written(
            &event_of(fields).expect("a record that the crate can hold"),
        ))
    })
}

/// The length of a record that the crate's types hold ([`holds`]).
pub fn record_length(fields: &Fields) -> Told<u64> {
    asked(|| {
        Ok(length(
            &event_of(fields).expect("a record that the crate can hold"),
        ))
    })
}

/// One step of the crate's builders. (The step that removes the typecode isn't among them: the port adds it.)
#[derive(Debug, Clone, PartialEq, Eq)]
pub enum Step {
    New([u8; 16], u64),
    NewTagged([u8; 16], u64, Vec<u8>),
    Tag(Vec<u8>),
    Typecode,
    Flags(u8),
    Uuid([u8; 16]),
    Gno(u64),
    LastCommitted(u64),
    SequenceNumber(u64),
    ImmediateTimestamp(u64),
    OriginalTimestamp(u64),
    TxLength(u64),
    Ticket(u64),
    ImmediateVersion(u32),
    OriginalVersion(u32),
}

/// The record that the builders make; the first step begins it.
pub fn build(steps: &[Step]) -> Told<Fields> {
    asked(|| {
        let mut event = GtidEvent::new([0; 16], 0);
        for step in steps {
            event = match step {
                Step::New(uuid, gno) => GtidEvent::new(*uuid, *gno),
                Step::NewTagged(uuid, gno, tag) => GtidEvent::new_tagged(*uuid, tag_of(tag)?, *gno),
                Step::Tag(tag) => event.with_tag(tag_of(tag)?),
                Step::Typecode => event.with_lc_typecode(),
                Step::Flags(flags) => event.with_flags(GtidFlags::from(*flags)),
                Step::Uuid(uuid) => event.with_sid(*uuid),
                Step::Gno(gno) => event.with_gno(*gno),
                Step::LastCommitted(number) => event.with_last_committed(*number),
                Step::SequenceNumber(number) => event.with_sequence_number(*number),
                Step::ImmediateTimestamp(time) => event.with_immediate_commit_timestamp(*time),
                Step::OriginalTimestamp(time) => event.with_original_commit_timestamp(*time),
                Step::TxLength(length) => event.with_tx_length(*length),
                Step::Ticket(ticket) => event.with_commit_group_ticket(*ticket),
                Step::ImmediateVersion(version) => event.with_immediate_server_version(*version),
                Step::OriginalVersion(version) => event.with_original_server_version(*version),
            };
        }
        Ok(fields_of(&event))
    })
}

// ---- Previous-GTIDs ----

#[derive(Debug, Clone, PartialEq, Eq)]
pub struct Entry {
    pub uuid: [u8; 16],
    /// Empty for none.
    pub tag: Vec<u8>,
    pub intervals: Vec<(u64, u64)>,
}

#[derive(Debug, Clone, PartialEq, Eq)]
pub struct Previous {
    pub used: usize,
    pub rest: usize,
    pub entries: Vec<Entry>,
}

fn eight(bytes: &[u8]) -> u64 {
    u64::from_le_bytes(bytes.try_into().unwrap())
}

/// Whether the crate would meet a count above [`RESERVABLE`], reading from left to right.
pub fn unreservable(body: &[u8]) -> bool {
    meets_great_count(body).unwrap_or(false)
}

/// None where the crate's reader ends before it meets such a count.
fn meets_great_count(body: &[u8]) -> Option<bool> {
    let mut buf = ParseBuf(body);
    let header = eight(buf.checked_eat(8)?);
    let tagged = header >> 56 != 0;
    let entries = if tagged {
        (header >> 8) & 0xffff_ffff_ffff
    } else {
        header
    };
    if entries > RESERVABLE {
        return Some(true);
    }
    for _ in 0..entries {
        buf.checked_eat(16)?;
        if tagged {
            let tag_len = misc::read_varlen_uint(&mut buf).ok()?;
            let tag = buf.checked_eat(usize::try_from(tag_len).ok()?)?;
            if !tag.is_empty() {
                tag_of(tag).ok()?;
            }
        }
        let intervals = eight(buf.checked_eat(8)?);
        if intervals > RESERVABLE {
            return Some(true);
        }
        buf.checked_eat(16 * intervals as usize)?;
    }
    Some(false)
}

fn previous_from<'a>(buf: &mut ParseBuf<'a>) -> io::Result<PreviousGtidsEvent<'a>> {
    PreviousGtidsEvent::deserialize(BinlogCtx::new(PREVIOUS_GTIDS_EVENT), buf)
}

pub fn read_previous(body: &[u8]) -> Told<Previous> {
    if unreservable(body) {
        return Told::Unreservable;
    }
    asked(|| {
        let mut buf = ParseBuf(body);
        let event = previous_from(&mut buf)?;
        let entries = event.sids().iter().map(|sid| Entry {
            uuid: sid.uuid(),
            tag: sid
                .tag()
                .map(|tag| tag.as_str().as_bytes().to_vec())
                .unwrap_or_default(),
            intervals: sid
                .intervals()
                .iter()
                .map(|interval| (interval.start, interval.end))
                .collect(),
        });
        Ok(Previous {
            used: body.len() - buf.len(),
            rest: buf.len(),
            entries: entries.collect(),
        })
    })
}

/// Reads the entries and writes them.
pub fn rewrite_previous(body: &[u8]) -> Told<Vec<u8>> {
    if unreservable(body) {
        return Told::Unreservable;
    }
    asked(|| {
        let mut out = Vec::new();
        previous_from(&mut ParseBuf(body))?.serialize(&mut out);
        Ok(out)
    })
}
