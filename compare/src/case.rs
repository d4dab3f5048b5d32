//! What is asked: the calls of docs/VECTORS.md, and the function of the crate that answers each.

use crate::words;
use theirs::{
    answers::{self, Fields, Step, Told},
    numbers::UNDEFINED_SERVER_VERSION,
};

/// A row of the table: a call, and for some calls the crate's second function for the same thing.
#[derive(Clone, Copy, PartialEq, Eq, Debug)]
pub enum Kind {
    ReadUint,
    WriteUint,
    ReadInt,
    WriteInt,
    ReadLenenc,
    ReadLenencSecond,
    WriteLenenc,
    WriteLenencSecond,
    UintSize,
    LenencSize,
    PayloadSize,
    ReadRecord,
    RewriteRecord,
    LengthOfRead,
    WriteRecord,
    RecordLength,
    Build,
    ReadPrevious,
    RewritePrevious,
}

use Kind::*;

pub const KINDS: [(Kind, u8, &str); 19] = [
    (ReadUint, 1, "read variable-length unsigned"),
    (WriteUint, 2, "write it"),
    (ReadInt, 3, "read variable-length signed"),
    (WriteInt, 4, "write it"),
    (
        ReadLenenc,
        5,
        "read length-encoded (checked_eat_lenenc_int)",
    ),
    (ReadLenencSecond, 5, "the same (read_lenenc_int)"),
    (WriteLenenc, 6, "write it (put_lenenc_int)"),
    (WriteLenencSecond, 6, "the same (write_lenenc_int)"),
    (UintSize, 7, "size of a variable-length unsigned"),
    (LenencSize, 8, "size of a length-encoded integer"),
    (PayloadSize, 9, "payload size"),
    (ReadRecord, 16, "read a GTID event"),
    (RewriteRecord, 17, "read it and write it"),
    (LengthOfRead, 18, "read it, its length"),
    (WriteRecord, 19, "write a record"),
    (RecordLength, 20, "length of a record"),
    (Build, 21, "build a record step by step"),
    (ReadPrevious, 32, "read a Previous-GTIDs event"),
    (RewritePrevious, 33, "rewrite it"),
];

impl Kind {
    pub fn row(self) -> usize {
        KINDS.iter().position(|(kind, _, _)| *kind == self).unwrap()
    }

    pub fn call(self) -> u8 {
        KINDS[self.row()].1
    }

    pub fn name(self) -> &'static str {
        KINDS[self.row()].2
    }

    /// Whether the call takes an event's body.
    pub fn takes_body(self) -> bool {
        matches!(
            self,
            ReadRecord | RewriteRecord | LengthOfRead | ReadPrevious | RewritePrevious
        )
    }
}

#[derive(Clone, PartialEq, Eq, Debug)]
pub enum Input {
    Number(u64),
    /// The bytes of an integer, or an event's body.
    Bytes(Vec<u8>),
    Record(Fields),
    Steps(Vec<Step>),
}

#[derive(Clone, PartialEq, Eq, Debug)]
pub struct Case {
    pub kind: Kind,
    pub event_type: u8,
    /// The length of the output that is lent. The crate's output grows: it isn't told.
    pub out_len: usize,
    pub input: Input,
}

impl Case {
    pub fn number(kind: Kind, number: u64, out_len: usize) -> Self {
        Self {
            kind,
            event_type: 0,
            out_len,
            input: Input::Number(number),
        }
    }

    pub fn bytes(kind: Kind, event_type: u8, bytes: Vec<u8>, out_len: usize) -> Self {
        Self {
            kind,
            event_type,
            out_len,
            input: Input::Bytes(bytes),
        }
    }

    /// The bytes that are asked about; none where the call takes something else.
    pub fn body(&self) -> &[u8] {
        match &self.input {
            Input::Bytes(bytes) => bytes,
            _ => &[],
        }
    }

    /// Part A of the request.
    pub fn part_a(&self) -> Vec<u8> {
        match &self.input {
            Input::Number(_) => Vec::new(),
            Input::Bytes(bytes) => bytes.clone(),
            Input::Record(fields) => dump(fields),
            Input::Steps(steps) => steps.iter().flat_map(letter_and_argument).collect(),
        }
    }

    /// The whole request, in the form of docs/VECTORS.md.
    pub fn frame(&self, out: &mut Vec<u8>) {
        let a = self.part_a();
        out.extend_from_slice(&[self.kind.call(), self.event_type, 0, 0]);
        out.extend_from_slice(&(a.len() as u32).to_le_bytes());
        out.extend_from_slice(&0u32.to_le_bytes());
        out.extend_from_slice(&(self.out_len as u32).to_le_bytes());
        let number = if let Input::Number(number) = self.input {
            number
        } else {
            0
        };
        out.extend_from_slice(&number.to_le_bytes());
        out.extend_from_slice(&a);
    }

    /// The crate's answer, as the line that docs/VECTORS.md has for it.
    pub fn theirs(&self) -> Told<String> {
        let body = self.body();
        let number = if let Input::Number(number) = self.input {
            number
        } else {
            0
        };
        match (self.kind, &self.input) {
            (ReadUint, _) => answers::read_uint(body).map(words::value_and_used),
            (WriteUint, _) => answers::write_uint(number).map(words::bytes),
            (ReadInt, _) => answers::read_int(body).map(words::value_and_used),
            (WriteInt, _) => answers::write_int(number as i64).map(words::bytes),
            (ReadLenenc, _) => answers::read_lenenc(body).map(words::value_and_used),
            (ReadLenencSecond, _) => answers::read_lenenc_second(body).map(words::value_and_used),
            (WriteLenenc, _) => answers::write_lenenc(number).map(words::bytes),
            (WriteLenencSecond, _) => answers::write_lenenc_second(number).map(words::bytes),
            (UintSize, _) => answers::uint_size(number).map(words::number),
            (LenencSize, _) => answers::lenenc_size(number).map(words::number),
            (PayloadSize, _) => answers::payload_size(number).map(words::number),
            (ReadRecord, _) => answers::read_record(self.event_type, body).map(words::read_record),
            (RewriteRecord, _) => answers::rewrite_record(self.event_type, body).map(words::bytes),
            (LengthOfRead, _) => answers::length_of_read(self.event_type, body).map(words::number),
            (WriteRecord, Input::Record(fields)) => answers::write_record(fields).map(words::bytes),
            (RecordLength, Input::Record(fields)) => {
                answers::record_length(fields).map(words::number)
            }
            (Build, Input::Steps(steps)) => {
                answers::build(steps).map(|fields| format!("ok {}", words::fields(&fields)))
            }
            (ReadPrevious, _) => answers::read_previous(body).map(words::previous),
            (RewritePrevious, _) => answers::rewrite_previous(body).map(words::bytes),
            (WriteRecord | RecordLength | Build, _) => {
                unreachable!("a case without its record or its steps")
            }
        }
    }
}

/// The record that 25 zeros hold.
pub fn bare() -> Fields {
    Fields {
        flags: 0,
        uuid: [0; 16],
        gno: 0,
        tag: Vec::new(),
        typecode: None,
        last_committed: 0,
        sequence_number: 0,
        immediate_timestamp: 0,
        original_timestamp: 0,
        tx_length: 0,
        immediate_version: UNDEFINED_SERVER_VERSION,
        original_version: UNDEFINED_SERVER_VERSION,
        ticket: 0,
    }
}

/// A record as gtid.h has its bytes.
fn dump(fields: &Fields) -> Vec<u8> {
    let mut out = vec![fields.flags];
    out.extend_from_slice(&fields.uuid);
    out.extend_from_slice(&fields.gno.to_le_bytes());
    out.push(fields.tag.len() as u8);
    out.extend_from_slice(&words::tag_field(&fields.tag));
    out.push(u8::from(fields.typecode.is_some()));
    out.push(fields.typecode.unwrap_or(0));
    for number in [
        fields.last_committed,
        fields.sequence_number,
        fields.immediate_timestamp,
        fields.original_timestamp,
        fields.tx_length,
    ] {
        out.extend_from_slice(&number.to_le_bytes());
    }
    out.extend_from_slice(&fields.immediate_version.to_le_bytes());
    out.extend_from_slice(&fields.original_version.to_le_bytes());
    out.extend_from_slice(&fields.ticket.to_le_bytes());
    out
}

fn letter_and_argument(step: &Step) -> Vec<u8> {
    fn with(letter: u8, argument: &[u8]) -> Vec<u8> {
        let mut out = vec![letter];
        out.extend_from_slice(argument);
        out
    }
    match step {
        Step::New(uuid, gno) => {
            let mut out = with(b'n', uuid);
            out.extend_from_slice(&gno.to_le_bytes());
            out
        }
        Step::NewTagged(uuid, gno, tag) => {
            let mut out = with(b't', uuid);
            out.extend_from_slice(&gno.to_le_bytes());
            out.push(tag.len() as u8);
            out.extend_from_slice(tag);
            out
        }
        Step::Tag(tag) => {
            let mut out = with(b'T', &[tag.len() as u8]);
            out.extend_from_slice(tag);
            out
        }
        Step::Typecode => vec![b'c'],
        Step::Flags(flags) => with(b'f', &[*flags]),
        Step::Uuid(uuid) => with(b's', uuid),
        Step::Gno(number) => with(b'g', &number.to_le_bytes()),
        Step::LastCommitted(number) => with(b'l', &number.to_le_bytes()),
        Step::SequenceNumber(number) => with(b'q', &number.to_le_bytes()),
        Step::ImmediateTimestamp(number) => with(b'i', &number.to_le_bytes()),
        Step::OriginalTimestamp(number) => with(b'o', &number.to_le_bytes()),
        Step::TxLength(number) => with(b'x', &number.to_le_bytes()),
        Step::Ticket(number) => with(b'k', &number.to_le_bytes()),
        Step::ImmediateVersion(number) => with(b'v', &number.to_le_bytes()),
        Step::OriginalVersion(number) => with(b'w', &number.to_le_bytes()),
    }
}
