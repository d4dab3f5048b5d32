//! The repository's side.

use crate::case::Case;
#[cfg(archive)]
use crate::{case::Kind, linked, words};
use std::{
    io::{self, Read, Write},
    process::{Command, Stdio},
    thread,
};
#[cfg(archive)]
use {
    std::hint::black_box,
    theirs::{
        answers::{Entry, Previous},
        numbers::{MAX_TAG, RECORD_LEN, refusal::NO_ROOM},
    },
};

/// Something that answers requests with the lines of docs/VECTORS.md.
pub trait Ours {
    fn name(&self) -> String;

    /// Whether it has the call.
    fn has(&self, case: &Case) -> bool;

    /// One line for each case, in order.
    fn ask(&self, cases: &[Case]) -> io::Result<Vec<String>>;
}

/// The repository's test program, as a child process: a batch of requests goes in, its lines come back.
pub struct Probe {
    pub path: String,
    /// A program that is given the path, where the machine can't run the test program itself.
    pub runner: Option<String>,
}

impl Probe {
    fn command(&self) -> Command {
        let Some(runner) = &self.runner else {
            return Command::new(&self.path);
        };
        let mut command = Command::new(runner);
        command.arg(&self.path);
        command
    }
}

impl Ours for Probe {
    fn name(&self) -> String {
        "the program probe".to_owned()
    }

    fn has(&self, _: &Case) -> bool {
        true
    }

    fn ask(&self, cases: &[Case]) -> io::Result<Vec<String>> {
        let mut requests = Vec::new();
        cases.iter().for_each(|case| case.frame(&mut requests));
        let mut child = self
            .command()
            .stdin(Stdio::piped())
            .stdout(Stdio::piped())
            .spawn()?;
        let mut stdin = child.stdin.take().expect("a pipe");
        let writer = thread::spawn(move || stdin.write_all(&requests));
        let mut text = String::new();
        child
            .stdout
            .take()
            .expect("a pipe")
            .read_to_string(&mut text)?;
        writer.join().expect("the writing thread")?;
        let status = child.wait()?;
        let lines: Vec<String> = text.lines().map(str::to_owned).collect();
        if !status.success() || lines.len() != cases.len() {
            let got = lines.len();
            return Err(io::Error::other(format!(
                "{got} lines for {} requests, {status}",
                cases.len()
            )));
        }
        Ok(lines)
    }
}

/// The repository's archive for C, linked into this program (build.rs).
#[cfg(archive)]
pub struct Archive;

/// What a call of the archive left behind.
#[cfg(archive)]
struct Left {
    refusal: u8,
    /// The number that was handed out: a length, or for the reader the bytes used.
    number: usize,
    out: Vec<u8>,
    /// What must not happen, as marks: an output that changed where nothing is written, a refusal with another part, an
    /// input that changed.
    marks: &'static str,
}

#[cfg(archive)]
impl Archive {
    /// Calls with an input, an output of `out_len` bytes and a number. `written` says from the number how many bytes of
    /// the output were written.
    fn call(
        input: &[u8],
        out_len: usize,
        written: impl FnOnce(usize) -> usize,
        call: impl FnOnce(*const u8, usize, *mut u8, usize, *mut usize) -> u8,
    ) -> Left {
        const UNTOUCHED: u8 = 0xa5;
        let lent = input.to_vec();
        let mut out = vec![UNTOUCHED; out_len];
        let mut number = usize::MAX;
        let refusal = call(
            lent.as_ptr(),
            lent.len(),
            out.as_mut_ptr(),
            out.len(),
            &raw mut number,
        );
        let front = if refusal == 0 { written(number) } else { 0 };
        let marks = if front > out.len() || out[front..].iter().any(|byte| *byte != UNTOUCHED) {
            " dirty"
        } else if refusal != 0 && refusal != NO_ROOM && number != 0 {
            " nonzero"
        } else if lent != input {
            " changed"
        } else {
            ""
        };
        out.truncate(front);
        Left {
            refusal,
            number,
            out,
            marks,
        }
    }

    // SAFETY, for all calls: the pieces are alive, as long as told, and apart, and so are the numbers; no pointer of a Vec
    // or a slice is null. gtid.h asks no more.

    fn read(event_type: u8, body: &[u8]) -> Left {
        Self::call(
            body,
            RECORD_LEN,
            |_| RECORD_LEN,
            |body, len, out, out_len, used| unsafe {
                linked::gtid_read(event_type, body, len, out, out_len, used)
            },
        )
    }

    fn write(record: &[u8], out_len: usize) -> Left {
        Self::call(
            record,
            out_len,
            |len| len,
            |record, len, out, out_len, written| unsafe {
                linked::gtid_write(record, len, out, out_len, written)
            },
        )
    }

    fn rewrite(body: &[u8], out_len: usize) -> Left {
        Self::call(
            body,
            out_len,
            |len| len,
            |body, len, out, out_len, written| unsafe {
                linked::gtid_rewrite(body, len, out, out_len, written)
            },
        )
    }

    /// The refusal, the value and the bytes used of a variable-length unsigned integer.
    pub fn read_uint(bytes: &[u8]) -> (u8, u64, usize) {
        let (mut value, mut used) = (u64::MAX, usize::MAX);
        let refusal = unsafe {
            linked::gtid_read_varlen_uint(
                bytes.as_ptr(),
                bytes.len(),
                &raw mut value,
                &raw mut used,
            )
        };
        (refusal, value, used)
    }

    /// The words for the above.
    pub fn uint_line(answer: (u8, u64, usize)) -> String {
        match answer {
            (0, value, used) => words::value_and_used((value, used)),
            (refusal, 0, 0) => format!("refused {refusal}"),
            (refusal, _, _) => format!("refused {refusal} nonzero"),
        }
    }

    /// The refusal, the number of entries and the bytes used of a Previous-GTIDs body.
    fn read_previous(body: &[u8]) -> (u8, u64, usize) {
        let (mut entries, mut used) = (u64::MAX, usize::MAX);
        let refusal = unsafe {
            linked::gtid_read_previous(body.as_ptr(), body.len(), &raw mut entries, &raw mut used)
        };
        (refusal, entries, used)
    }

    /// The entry at a place of such a body, and where it ends; else the words for its refusal.
    fn read_entry(body: &[u8], at: usize) -> Result<(Entry, usize), String> {
        let (mut tag_len, mut intervals) = (usize::MAX, u64::MAX);
        let (mut first, mut next) = (usize::MAX, usize::MAX);
        let refusal = unsafe {
            linked::gtid_read_entry(
                body.as_ptr(),
                body.len(),
                at,
                &raw mut tag_len,
                &raw mut intervals,
                &raw mut first,
                &raw mut next,
            )
        };
        if refusal != 0 {
            let zeros = (tag_len, intervals, first, next) == (0, 0, 0, 0);
            let mark = if zeros { "" } else { " nonzero" };
            return Err(format!("refused {refusal}{mark}"));
        }
        let tag_end = first.wrapping_sub(8);
        let uuid = body.get(at..).and_then(|rest| rest.first_chunk());
        let tag = body.get(tag_end.wrapping_sub(tag_len)..tag_end);
        let pairs = body.get(first..next).map(|bytes| bytes.as_chunks().0);
        let (Some(uuid), Some(tag), Some(pairs)) = (uuid, tag, pairs) else {
            return Err("misplaced".to_owned());
        };
        if first < at + 24 || next - first != 16 * pairs.len() || pairs.len() as u64 != intervals {
            return Err("miscounted".to_owned());
        }
        let entry = Entry {
            uuid: *uuid,
            tag: tag.to_vec(),
            intervals: pairs.iter().map(pair).collect(),
        };
        Ok((entry, next))
    }

    /// The words for a Previous-GTIDs body: the entries are taken out one by one, until there are as many as were said.
    /// In a body that is refused an entry must be refused, and for the same reason.
    fn previous_line(body: &[u8]) -> String {
        let lent = body.to_vec();
        let (refusal, count, used) = Self::read_previous(&lent);
        let mut entries = Vec::new();
        let mut at = 8;
        let mut refused = None;
        while refused.is_none() && (refusal != 0 || (entries.len() as u64) < count) {
            match Self::read_entry(&lent, at) {
                Ok((entry, next)) => {
                    entries.push(entry);
                    at = next;
                }
                Err(words) => refused = Some(words),
            }
        }
        let line = match refused {
            Some(words) => words,
            None => words::previous(Previous {
                used,
                rest: body.len().wrapping_sub(used),
                entries,
            }),
        };
        let mark = if refusal != 0 && line != format!("refused {refusal}") {
            " otherwise"
        } else if refusal != 0 && (count, used) != (0, 0) {
            " nonzero"
        } else if refusal == 0 && at != used {
            " elsewhere"
        } else {
            changed(&lent, body)
        };
        line + mark
    }

    /// The line that the program would answer with.
    fn line(case: &Case) -> String {
        let body = case.body();
        match case.kind {
            Kind::ReadUint => {
                let lent = body.to_vec();
                let line = Self::uint_line(Self::read_uint(&lent));
                line + changed(&lent, body)
            }
            Kind::ReadPrevious => Self::previous_line(body),
            Kind::ReadRecord => {
                let left = Self::read(case.event_type, body);
                if left.refusal != 0 || left.out.len() != RECORD_LEN {
                    return refused_or_bytes(left);
                }
                let rest = body.len().wrapping_sub(left.number);
                let record = fields_of(&left.out);
                format!("ok {} {rest} {record}{}", left.number, left.marks)
            }
            Kind::RewriteRecord => {
                let read = Self::read(case.event_type, body);
                if read.refusal != 0 || !read.marks.is_empty() {
                    return refused_or_bytes(read);
                }
                refused_or_bytes(Self::write(&read.out, case.out_len))
            }
            Kind::WriteRecord => refused_or_bytes(Self::write(&case.part_a(), case.out_len)),
            _ => refused_or_bytes(Self::rewrite(body, case.out_len)),
        }
    }
}

/// A mark if bytes that were lent aren't as before. They are looked at anew: the compiler takes it that they are.
#[cfg(archive)]
pub fn changed(lent: &[u8], before: &[u8]) -> &'static str {
    if black_box(lent) == before {
        ""
    } else {
        " changed"
    }
}

/// The start and the end of an interval.
#[cfg(archive)]
fn pair(bytes: &[u8; 16]) -> (u64, u64) {
    let (start, end) = bytes.split_at(8);
    let number = |bytes: &[u8]| u64::from_le_bytes(bytes.try_into().unwrap());
    (number(start), number(end))
}

#[cfg(archive)]
fn refused_or_bytes(left: Left) -> String {
    let line = match left.refusal {
        0 => words::bytes(left.out),
        NO_ROOM => format!("refused {NO_ROOM} {}", left.number),
        refusal => format!("refused {refusal}"),
    };
    line + left.marks
}

/// The words of a record as gtid.h has its bytes.
#[cfg(archive)]
fn fields_of(record: &[u8]) -> String {
    let eight = |place: usize| u64::from_le_bytes(record[place..place + 8].try_into().unwrap());
    let four = |place: usize| u32::from_le_bytes(record[place..place + 4].try_into().unwrap());
    let uuid = words::hex(&record[1..17]);
    let tag = words::hex(&record[26..26 + MAX_TAG]);
    let typecode = match record[58] {
        0 => "-".to_owned(),
        _ => record[59].to_string(),
    };
    let numbers = [60, 68, 76, 84, 92]
        .map(|place| eight(place).to_string())
        .join(" ");
    let (flags, gno, tag_len) = (record[0], eight(17), record[25]);
    let (immediate, original, ticket) = (four(100), four(104), eight(108));
    format!(
        "{flags} {uuid} {gno} {tag_len} {tag} {typecode} {numbers} {immediate} {original} {ticket}"
    )
}

#[cfg(archive)]
impl Ours for Archive {
    fn name(&self) -> String {
        "the archive libabi.a".to_owned()
    }

    fn has(&self, case: &Case) -> bool {
        use Kind::*;
        matches!(
            case.kind,
            ReadUint | ReadRecord | RewriteRecord | WriteRecord | ReadPrevious | RewritePrevious
        )
    }

    fn ask(&self, cases: &[Case]) -> io::Result<Vec<String>> {
        Ok(cases.iter().map(Self::line).collect())
    }
}
