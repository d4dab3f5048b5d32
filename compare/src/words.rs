//! Answers as the words of docs/VECTORS.md.

use std::fmt::{Display, Write};
use theirs::{
    answers::{Fields, Previous, ReadRecord},
    numbers::MAX_TAG,
};

pub fn put_hex(out: &mut String, bytes: &[u8]) {
    const DIGITS: &[u8; 16] = b"0123456789abcdef";
    out.reserve(2 * bytes.len());
    for byte in bytes {
        out.push(DIGITS[usize::from(byte >> 4)] as char);
        out.push(DIGITS[usize::from(byte & 15)] as char);
    }
}

pub fn hex(bytes: &[u8]) -> String {
    let mut out = String::new();
    put_hex(&mut out, bytes);
    out
}

pub fn value_and_used<T: Display>((value, used): (T, usize)) -> String {
    format!("ok {value} {used}")
}

pub fn number(number: u64) -> String {
    format!("ok {number}")
}

pub fn bytes(bytes: Vec<u8>) -> String {
    let mut out = format!("ok {} ", bytes.len());
    put_hex(&mut out, &bytes);
    out
}

/// A tag in a field that holds the longest.
pub fn tag_field(tag: &[u8]) -> [u8; MAX_TAG] {
    let mut field = [0; MAX_TAG];
    field[..tag.len()].copy_from_slice(tag);
    field
}

pub fn fields(fields: &Fields) -> String {
    let mut out = format!("{} ", fields.flags);
    put_hex(&mut out, &fields.uuid);
    let _ = write!(out, " {} {} ", fields.gno, fields.tag.len());
    put_hex(&mut out, &tag_field(&fields.tag));
    match fields.typecode {
        Some(typecode) => {
            let _ = write!(out, " {typecode}");
        }
        None => out.push_str(" -"),
    }
    let _ = write!(
        out,
        " {} {} {} {} {} {} {} {}",
        fields.last_committed,
        fields.sequence_number,
        fields.immediate_timestamp,
        fields.original_timestamp,
        fields.tx_length,
        fields.immediate_version,
        fields.original_version,
        fields.ticket
    );
    out
}

pub fn read_record(read: ReadRecord) -> String {
    format!("ok {} {} {}", read.used, read.rest, fields(&read.fields))
}

pub fn previous(read: Previous) -> String {
    let mut out = format!("ok {} {} {}", read.used, read.rest, read.entries.len());
    for entry in &read.entries {
        out.push(' ');
        put_hex(&mut out, &entry.uuid);
        let _ = write!(out, " {} ", entry.tag.len());
        if entry.tag.is_empty() {
            out.push('-');
        } else {
            put_hex(&mut out, &entry.tag);
        }
        let _ = write!(out, " {}", entry.intervals.len());
        for (start, end) in &entry.intervals {
            let _ = write!(out, " {start} {end}");
        }
    }
    out
}

/// The number of a refusal, from its line; None for any other line, and for 13, which has a second word.
pub fn refused(line: &str) -> Option<u8> {
    line.strip_prefix("refused ")?.parse().ok()
}
