//! What the tests share: a folder for files, random numbers, events, an offer that is committed, sets with many entries or intervals, and the
//! follower of `examples` with a binlog for it.
#![allow(dead_code)] // no test uses all of it
use gtid_resume::{
    Counts, GtidEvent, Offered, Refusal, ResumeSet, CHECKSUM_LEN, EVENT_HEADER_LEN, MAX_ENTRIES,
    MAX_INTERVALS, MAX_OF_ENTRY, MAX_TAG, PREVIOUS_GTIDS_EVENT,
};
use std::env;
use std::ffi::OsString;
use std::fs;
use std::path::{Path, PathBuf};
use std::process::{self, Command};

/// The limits of a set, as it counts its entries and intervals.
pub const ENTRIES: u64 = MAX_ENTRIES as u64;
pub const INTERVALS: u64 = MAX_INTERVALS as u64;
pub const OF_ENTRY: u64 = MAX_OF_ENTRY as u64;

/// The longest tag.
pub const TAG: [u8; MAX_TAG] = [b'a'; MAX_TAG];

/// The types of events that no set is asked about.
pub const STOP: u8 = 3;
pub const ROTATE: u8 = 4;
pub const FORMAT_DESCRIPTION: u8 = 15;
pub const XID: u8 = 16;
pub const ROW: u8 = 30;

/// The first bytes of a binlog file.
pub const FILE_OPENING: &[u8] = b"\xfebin";

/// A new folder, removed when it is dropped.
pub struct Folder(PathBuf);

impl Folder {
    pub fn new(name: &str) -> Folder {
        let path = env::temp_dir().join(format!("gtid-{name}-{}", process::id()));
        // one of an earlier process with this number may be left
        let _ = fs::remove_dir_all(&path);
        fs::create_dir(&path).unwrap();
        Folder(path)
    }

    pub fn path(&self) -> &Path {
        &self.0
    }

    pub fn file(&self, name: &str) -> PathBuf {
        self.0.join(name)
    }
}

impl Drop for Folder {
    fn drop(&mut self) {
        let _ = fs::remove_dir_all(&self.0);
    }
}

/// Xorshift, from a fixed seed.
pub struct Random(pub u64);

impl Random {
    pub fn below(&mut self, end: u64) -> u64 {
        self.0 ^= self.0 << 13;
        self.0 ^= self.0 >> 7;
        self.0 ^= self.0 << 17;
        self.0 % end
    }
}

/// Offers an event and commits the offer.
pub fn take(set: &mut ResumeSet, event_type: u8, body: &[u8]) -> Result<Offered, Refusal> {
    let offer = set.offer(event_type, body)?;
    let answer = offer.answer();
    offer.commit();
    Ok(answer)
}

/// The body of an untagged event with this number of the uuid 07 07 .. .
pub fn gtid(gno: u64) -> Vec<u8> {
    GtidEvent::new([7; 16], gno).write().unwrap()
}

/// An event with an id; no tag is a tag without bytes.
pub fn event_of(number: u16, tag: &[u8], gno: u64) -> GtidEvent {
    match tag {
        [] => GtidEvent::new(uuid(number), gno),
        _ => GtidEvent::new_tagged(uuid(number), tag, gno).unwrap(),
    }
}

/// The number of a uuid, a tag, and intervals.
pub type Listed<'a> = (u16, &'a [u8], &'a [(u64, u64)]);

/// Uuids rise with their numbers.
pub fn uuid(number: u16) -> [u8; 16] {
    let mut uuid = [7; 16];
    uuid[..2].copy_from_slice(&number.to_be_bytes());
    uuid
}

/// A body with tags only if an entry has one, as a set is saved.
pub fn body(entries: &[Listed]) -> Vec<u8> {
    let tagged = entries.iter().any(|(_, tag, _)| !tag.is_empty());
    let count = entries.len() as u64;
    let header = if tagged { with_tags(count) } else { count };
    let mut body = header.to_le_bytes().to_vec();
    for (number, tag, intervals) in entries {
        body.extend(uuid(*number));
        if tagged {
            put_tag(&mut body, tag);
        }
        put_intervals(&mut body, intervals);
    }
    body
}

/// The header of a body with tags and so many entries.
pub fn with_tags(count: u64) -> u64 {
    1 << 56 | count << 8 | 1
}

pub fn put_tag(body: &mut Vec<u8>, tag: &[u8]) {
    body.push(2 * tag.len() as u8); // the length in its one-byte form
    body.extend(tag);
}

pub fn put_intervals(body: &mut Vec<u8>, intervals: &[(u64, u64)]) {
    body.extend((intervals.len() as u64).to_le_bytes());
    for (start, end) in intervals {
        body.extend(start.to_le_bytes());
        body.extend(end.to_le_bytes());
    }
}

/// So many intervals of one number each, two apart.
pub fn apart(count: u64, first: u64) -> Vec<(u64, u64)> {
    let number = |nth| first + 2 * nth;
    let interval = |nth| (number(nth), number(nth) + 1);
    (0..count).map(interval).collect()
}

/// So many entries with an interval each.
pub fn entries(count: usize) -> Vec<Listed<'static>> {
    (0..count as u16)
        .map(|number| (number, &b""[..], &[(1, 2)][..]))
        .collect()
}

/// The entries of a longest set, with the longest tags. The intervals are shared out: seven each to the first entries, and six to the others.
pub fn longest(seven: &[(u64, u64)]) -> Vec<Listed<'_>> {
    assert_eq!((seven.len(), MAX_INTERVALS / MAX_ENTRIES), (7, 6));
    let with_seven = MAX_INTERVALS % MAX_ENTRIES;
    let one = |number| -> Listed {
        let passed_over = usize::from(usize::from(number) >= with_seven);
        (number, &TAG, &seven[passed_over..])
    };
    (0..MAX_ENTRIES as u16).map(one).collect()
}

pub fn set(entries: &[Listed]) -> ResumeSet {
    ResumeSet::take_in(&body(entries)).unwrap()
}

pub fn counts(entries: u64, intervals: u64, ids: u128) -> Counts {
    Counts {
        entries,
        intervals,
        ids,
    }
}

/// The header of an event that has, or claims, this size.
pub fn header(event_type: u8, size: u32) -> [u8; EVENT_HEADER_LEN] {
    let mut header = [0x5a; EVENT_HEADER_LEN]; // nothing else of it is looked at
    header[4] = event_type;
    header[9..13].copy_from_slice(&size.to_le_bytes());
    header
}

/// The size that a header tells.
pub fn size_in(header: &[u8]) -> usize {
    u32::from_le_bytes(header[9..13].try_into().unwrap()) as usize
}

/// A binlog without checksums.
pub struct Binlog(pub Vec<u8>);

impl Binlog {
    /// Without an event.
    pub fn empty() -> Binlog {
        Binlog(FILE_OPENING.to_vec())
    }

    /// With the body of its opening event.
    pub fn new(opening: &[u8]) -> Binlog {
        let mut binlog = Binlog::empty();
        binlog.event(PREVIOUS_GTIDS_EVENT, opening);
        binlog
    }

    pub fn event(&mut self, event_type: u8, body: &[u8]) {
        let size = EVENT_HEADER_LEN + body.len();
        self.0.extend(header(event_type, size as u32));
        self.0.extend(body);
    }

    pub fn transaction(&mut self, event_type: u8, gtid: &[u8], rows: &[String]) {
        self.event(event_type, gtid);
        for row in rows {
            self.event(ROW, row.as_bytes());
        }
        self.event(XID, &[0; 8]);
    }

    /// A format description, which says of what kind the checksums are: 0 for none, or 1.
    pub fn describe(&mut self, kind: u8) {
        let body = [&[4, 0][..], &[0; 55], &[kind], &[9; CHECKSUM_LEN]].concat();
        self.event(FORMAT_DESCRIPTION, &body);
    }

    /// The events of this one, each with a checksum, behind a format description that says so.
    pub fn with_checksums(&self) -> Binlog {
        let mut binlog = Binlog::empty();
        binlog.describe(1);
        let mut rest = self.events();
        while !rest.is_empty() {
            let (event, behind) = rest.split_at(size_in(rest));
            let body = &event[EVENT_HEADER_LEN..];
            binlog.event(event[4], &[body, &[0xc5; CHECKSUM_LEN]].concat());
            rest = behind;
        }
        binlog
    }

    /// The bytes of its events, one behind another.
    pub fn events(&self) -> &[u8] {
        &self.0[FILE_OPENING.len()..]
    }

    /// The file without checksums, and with them.
    pub fn both_forms(&self) -> [Vec<u8>; 2] {
        [self.0.clone(), self.with_checksums().0]
    }
}

/// The body of a Previous-GTIDs event: for each uuid of one repeated byte the transactions from 1 to a last one.
pub fn opening(entries: &[(u8, u64)]) -> Vec<u8> {
    let mut body = (entries.len() as u64).to_le_bytes().to_vec();
    for (sid, last) in entries {
        body.extend([*sid; 16]);
        for number in [1, 1, last + 1] {
            body.extend(number.to_le_bytes());
        }
    }
    body
}

/// The follower, which cargo builds beside the tests, for the files `events`, `tool` and `set` of a folder. GTID_EMULATOR names a program to
/// run it with, where the machine isn't the one that it was built for.
pub fn follower(folder: &Folder) -> Command {
    let mut words = Vec::from_iter(env::var_os("GTID_EMULATOR"));
    words.push(program());
    let mut command = Command::new(&words[0]);
    command.args(&words[1..]);
    command.args(["events", "tool", "set"].map(|name| folder.file(name)));
    command
}

fn program() -> OsString {
    let test = env::current_exe().unwrap();
    let built = test.parent().and_then(Path::parent).unwrap();
    let program = built.join("examples/follower");
    assert!(program.exists(), "first: cargo build --example follower");
    program.into_os_string()
}
