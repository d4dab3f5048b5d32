//! Which of the differences D1 to D12 of docs/DIFFERENCES.md a pair of unequal answers is. Each has a test of its own,
//! on the question and on both answers. Where several fit, the first counts.

use crate::{
    case::{self, Case, Input, Kind},
    words,
};
use std::io::ErrorKind;
use theirs::{
    answers::{self, Fields, Step, Told},
    numbers::{ANONYMOUS_GTID_EVENT, GTID_EVENT, MAX_BODY, UNDEFINED_SERVER_VERSION, refusal},
};

pub const COUNT: usize = 12;

/// Two equal answers: the same line; or two refusals, the crate's of the kind and (where its text is known) of the
/// number that the rules give.
pub fn equal(ours: &str, theirs: &Told<String>) -> bool {
    match theirs {
        Told::Ok(line) => ours == line,
        Told::Refused(told) => words::refused(ours).is_some_and(|number| {
            let kind_fits = match number {
                refusal::ENDED => told.kind == ErrorKind::UnexpectedEof,
                refusal::WRONG_TYPE => {
                    matches!(told.kind, ErrorKind::InvalidData | ErrorKind::Other)
                }
                refusal::TOO_LARGE..=refusal::SMALL_PAYLOAD => told.kind == ErrorKind::InvalidData,
                refusal::BAD_LEAD => told.kind == ErrorKind::Other,
                _ => false,
            };
            kind_fits && told.number == Some(number)
        }),
        Told::Panicked | Told::Unreservable => false,
    }
}

/// The number of the first difference that fits, from 1; None where none fits.
pub fn sort(case: &Case, ours: &str, theirs: &Told<String>) -> Option<usize> {
    const TESTS: [fn(&Case, &str, &Told<String>) -> bool; COUNT] =
        [d1, d2, d3, d4, d5, d6, d7, d8, d9, d10, d11, d12];
    TESTS
        .iter()
        .position(|test| test(case, ours, theirs))
        .map(|place| place + 1)
}

/// A body over 65,536 bytes: 11. The crate has no such limit.
fn d1(case: &Case, ours: &str, _: &Told<String>) -> bool {
    case.kind.takes_body()
        && case.body().len() > MAX_BODY
        && words::refused(ours) == Some(refusal::TOO_LONG)
}

/// The place of the transaction length's lead byte in an untagged body, if there is one.
fn length_place(body: &[u8]) -> Option<usize> {
    if *body.get(25)? != 2 {
        return None;
    }
    let mut place = 42;
    if body.len() >= place + 7 {
        let original_follows = body[place + 6] & 0x80 != 0;
        place += if original_follows { 14 } else { 7 };
    }
    (place < body.len()).then_some(place)
}

/// A length-encoded lead byte FB or FF: 10. The crate's checked reader takes it as 0, in one byte: it answers as if 00
/// stood there.
fn d2(case: &Case, ours: &str, theirs: &Told<String>) -> bool {
    let place = match case.kind {
        Kind::ReadLenenc => Some(0),
        Kind::ReadRecord | Kind::RewriteRecord | Kind::LengthOfRead
            if matches!(case.event_type, GTID_EVENT | ANONYMOUS_GTID_EVENT) =>
        {
            length_place(case.body())
        }
        _ => None,
    };
    let Some(place) = place else { return false };
    if !matches!(case.body().get(place), Some(0xfb | 0xff))
        || words::refused(ours) != Some(refusal::BAD_LEAD)
    {
        return false;
    }
    let mut with_zero = case.body().to_vec();
    with_zero[place] = 0;
    let changed = Case {
        input: Input::Bytes(with_zero),
        ..case.clone()
    };
    changed.theirs() == *theirs
}

/// The record of a call that takes one, if the port refuses it as not writable.
fn refused_record<'a>(case: &'a Case, ours: &str) -> Option<&'a Fields> {
    match &case.input {
        Input::Record(fields) if words::refused(ours) == Some(refusal::NOT_WRITABLE) => {
            Some(fields)
        }
        _ => None,
    }
}

fn same_as_for(case: &Case, theirs: &Told<String>, fields: Fields) -> bool {
    let changed = Case {
        input: Input::Record(fields),
        ..case.clone()
    };
    matches!(theirs, Told::Ok(_)) && changed.theirs() == *theirs
}

/// A tag and a typecode: not writable. The crate answers as if there were no typecode.
fn d3(case: &Case, ours: &str, theirs: &Told<String>) -> bool {
    refused_record(case, ours).is_some_and(|fields| {
        let without = Fields {
            typecode: None,
            ..fields.clone()
        };
        !fields.tag.is_empty() && fields.typecode.is_some() && same_as_for(case, theirs, without)
    })
}

/// Tagged, with a gno, last_committed or sequence_number of 2^63 or more: not writable. The crate panics.
fn d4(case: &Case, ours: &str, theirs: &Told<String>) -> bool {
    refused_record(case, ours).is_some_and(|fields| {
        let numbers = [fields.gno, fields.last_committed, fields.sequence_number];
        !fields.tag.is_empty() && numbers.iter().any(|n| *n >= 1 << 63) && *theirs == Told::Panicked
    })
}

/// Untagged, with a ticket: not writable. The crate answers as if there were none.
fn d5(case: &Case, ours: &str, theirs: &Told<String>) -> bool {
    refused_record(case, ours).is_some_and(|fields| {
        let without = Fields {
            ticket: 0,
            ..fields.clone()
        };
        fields.tag.is_empty() && fields.ticket != 0 && same_as_for(case, theirs, without)
    })
}

/// The record that 25 bytes hold: all later fields at the reader's absent values.
fn of_25_bytes(fields: &Fields) -> Fields {
    Fields {
        flags: fields.flags,
        uuid: fields.uuid,
        gno: fields.gno,
        ..case::bare()
    }
}

/// Untagged without a typecode, a later field not at its absent value: not writable. The crate writes the 25 bytes of
/// the record with them absent; its length is some number.
fn d6(case: &Case, ours: &str, theirs: &Told<String>) -> bool {
    refused_record(case, ours).is_some_and(|fields| {
        let bare = fields.tag.is_empty() && fields.typecode.is_none();
        bare && *fields != of_25_bytes(fields)
            && match case.kind {
                Kind::WriteRecord => same_as_for(case, theirs, of_25_bytes(fields)),
                _ => matches!(theirs, Told::Ok(_)),
            }
    })
}

/// The crate writes the record, but reads another back; of the length only that it is that of the bytes.
fn written_with_loss(case: &Case, theirs: &Told<String>, fields: &Fields) -> bool {
    let Told::Ok(bytes) = answers::write_record(fields) else {
        return false;
    };
    let Told::Ok(back) = answers::read_record(GTID_EVENT, &bytes) else {
        return false;
    };
    let told = match case.kind {
        Kind::WriteRecord => words::bytes(bytes),
        _ => words::number(bytes.len() as u64),
    };
    *theirs == Told::Ok(told) && back.fields != *fields
}

/// Untagged, an immediate timestamp of 2^55 or more, or an original one of 2^56 or more: not writable. The crate writes
/// it with loss.
fn d7(case: &Case, ours: &str, theirs: &Told<String>) -> bool {
    refused_record(case, ours).is_some_and(|fields| {
        let great = fields.immediate_timestamp >= 1 << 55 || fields.original_timestamp >= 1 << 56;
        fields.tag.is_empty()
            && fields.typecode.is_some()
            && great
            && written_with_loss(case, theirs, fields)
    })
}

/// Untagged, an immediate server version of 2^31 or more: not writable. The crate writes it with loss.
fn d8(case: &Case, ours: &str, theirs: &Told<String>) -> bool {
    refused_record(case, ours).is_some_and(|fields| {
        let great = fields.immediate_version >= 1 << 31;
        fields.tag.is_empty()
            && fields.typecode.is_some()
            && great
            && written_with_loss(case, theirs, fields)
    })
}

/// The length of an untagged record without a typecode: 25. The crate says 54, and writes 25 bytes.
fn d9(case: &Case, ours: &str, theirs: &Told<String>) -> bool {
    let fields = match (&case.input, case.kind) {
        (Input::Record(fields), Kind::RecordLength) => fields.clone(),
        (Input::Bytes(body), Kind::LengthOfRead) => {
            match answers::read_record(case.event_type, body) {
                Told::Ok(read) => read.fields,
                _ => return false,
            }
        }
        _ => return false,
    };
    let bare = fields == of_25_bytes(&fields);
    let writes_25 = matches!(answers::write_record(&fields), Told::Ok(bytes) if bytes.len() == 25);
    bare && writes_25 && ours == "ok 25" && *theirs == Told::Ok("ok 54".to_owned())
}

/// An output that is too short: 13 with the needed length, which is that of the bytes that the crate writes.
fn d10(case: &Case, ours: &str, theirs: &Told<String>) -> bool {
    let writes = matches!(
        case.kind,
        Kind::WriteUint
            | Kind::WriteInt
            | Kind::WriteLenenc
            | Kind::WriteLenencSecond
            | Kind::RewriteRecord
            | Kind::WriteRecord
            | Kind::RewritePrevious
    );
    let Told::Ok(line) = theirs else { return false };
    let Some(needed) = line.split(' ').nth(1) else {
        return false;
    };
    writes
        && ours == format!("refused {} {needed}", refusal::NO_ROOM)
        && needed
            .parse()
            .is_ok_and(|needed: usize| case.out_len < needed)
}

/// A count for which the crate would reserve too much room: it wasn't asked. The body can't hold so many: 1, or 6 where
/// a tag is broken before the body ends.
fn d11(case: &Case, ours: &str, theirs: &Told<String>) -> bool {
    let previous = matches!(case.kind, Kind::ReadPrevious | Kind::RewritePrevious);
    previous
        && *theirs == Told::Unreservable
        && matches!(
            words::refused(ours),
            Some(refusal::ENDED | refusal::BAD_TAG)
        )
}

/// The same steps, with both server versions set right after each `new`.
fn with_versions(case: &Case, steps: &[Step], version: u32) -> Case {
    let set = |step: &Step| match step {
        Step::New(..) => vec![
            step.clone(),
            Step::ImmediateVersion(version),
            Step::OriginalVersion(version),
        ],
        _ => vec![step.clone()],
    };
    Case {
        input: Input::Steps(steps.iter().flat_map(set).collect()),
        ..case.clone()
    }
}

/// A record that `new` begins: its server versions are 999,999 until they are set. The crate's are 0.
fn d12(case: &Case, ours: &str, theirs: &Told<String>) -> bool {
    let Input::Steps(steps) = &case.input else {
        return false;
    };
    let begun_with = |version| with_versions(case, steps, version).theirs();
    begun_with(UNDEFINED_SERVER_VERSION) == Told::Ok(ours.to_owned()) && begun_with(0) == *theirs
}
