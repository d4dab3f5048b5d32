//! `follower EVENTS TOOL SET` copies the transactions of EVENTS into TOOL. It may be killed at any moment and started again.
//!
//! EVENTS is a binlog, with checksums or without, and is read in chunks that end anywhere, as it would arrive from elsewhere. A transaction is
//! a GTID event, its rows, and the XID event that ends it. (A server also writes some that end otherwise, such as a CREATE TABLE in one QUERY
//! event; here they are an error, as soon as what is behind them has come.) TOOL stands for the planning tool: a file with a line for each
//! transaction, its id and its rows. SET is where the resume set is saved. One follower at a time may use a TOOL and a SET.
//!
//! The reader takes an id into its set when the GTID event is whole, and then the rows haven't come. So its newest set is never saved: each
//! transaction keeps the set as it was after its own GTID event, and that is saved once TOOL has the transaction.
use gtid_resume::{
    BinlogReader, Checksums, GtidEvent, ResumeSet, Told, Walked, ANONYMOUS_GTID_EVENT,
    CHECKSUM_LEN, EVENT_HEADER_LEN, GTID_EVENT, GTID_TAGGED_LOG_EVENT, PREVIOUS_GTIDS_EVENT,
};
use std::collections::HashSet;
use std::error::Error;
use std::fs::File;
use std::io::{self, ErrorKind, Read, Seek, SeekFrom, Write};
use std::path::{Path, PathBuf};
use std::{env, iter, process};

const STOP_EVENT: u8 = 3;
const ROTATE_EVENT: u8 = 4;
const FORMAT_DESCRIPTION_EVENT: u8 = 15;
const XID_EVENT: u8 = 16;
const WALKED_EVENTS: [u8; 4] = [
    GTID_EVENT,
    ANONYMOUS_GTID_EVENT,
    PREVIOUS_GTIDS_EVENT,
    GTID_TAGGED_LOG_EVENT,
];
const OPENING_LEN: usize = 4;
const GAP: &str = "transactions before EVENTS are missing: follow an older file first";
const UNOPENED: &str = "no opening event (type 35)";
const UNENDED: &str = "a transaction without an end";
const UNKNOWN_CHECKSUMS: &str = "checksums of an unknown kind";
const CLOSED: &str = "an event behind the one that closes the file";

/// Type and body.
type Event = (u8, Vec<u8>);
type Failure = Box<dyn Error>;

fn main() {
    let paths: Vec<_> = env::args_os().skip(1).map(PathBuf::from).collect();
    let ended = match &paths[..] {
        [events, tool, saved] => follow(events, tool, saved),
        _ => Err("usage: follower EVENTS TOOL SET".into()),
    };
    if let Err(error) = ended {
        eprintln!("follower: {error}");
        process::exit(2);
    }
}

fn named(path: &Path, error: io::Error) -> String {
    format!("{}: {error}", path.display())
}

fn follow(events: &Path, tool: &Path, saved: &Path) -> Result<(), Failure> {
    let unread = |error| named(events, error);
    let mut file = File::open(events).map_err(unread)?;
    let len = file.metadata().map_err(unread)?.len(); // what is written from now on is for the next run
    let checksums = checksums_of(&mut file, len).map_err(unread)?;
    let mut bytes = file.take(len);
    let mut follower = Follower::new(tool, saved)?;
    let mut reader = BinlogReader::new(follower.start(), checksums);
    let mut skipped = Skipped::new(checksums);
    for size in sizes() {
        let chunk = next_chunk(&mut bytes, size).map_err(unread)?;
        if chunk.is_empty() {
            break;
        }
        walk(&chunk, &mut reader, &mut skipped, &mut follower)?;
    }
    follower.end(&mut reader)
}

/// Each size up to 4,092 comes in its turn.
fn sizes() -> impl Iterator<Item = u64> {
    iter::successors(Some(1), |size| Some(size * 2 % 4093))
}

fn next_chunk(bytes: &mut impl Read, size: u64) -> io::Result<Vec<u8>> {
    let mut chunk = Vec::new();
    bytes.take(size).read_to_end(&mut chunk)?;
    Ok(chunk)
}

/// Whether the events of a binlog end in checksums. Then the file is at its start again.
fn checksums_of(file: &mut File, len: u64) -> io::Result<Checksums> {
    let head = next_chunk(file, (OPENING_LEN + EVENT_HEADER_LEN) as u64)?;
    let mut kind = Vec::new();
    if let Some(at) = kind_place(&head).filter(|at| *at < len) {
        file.seek(SeekFrom::Start(at))?;
        kind = next_chunk(file, 1)?;
    }
    file.rewind()?;
    match kind[..] {
        [] | [0] => Ok(Checksums::None),
        [1] => Ok(Checksums::Crc32),
        _ => Err(io::Error::new(ErrorKind::InvalidData, UNKNOWN_CHECKSUMS)),
    }
}

/// Where the kind of the checksums stands, 0 for none: before the last four bytes of the first event, if that is a format description. (Those
/// are its own checksum in any case.)
fn kind_place(head: &[u8]) -> Option<u64> {
    let (event_type, size) = type_and_size(head.get(OPENING_LEN..)?)?;
    let behind_header = size.checked_sub(EVENT_HEADER_LEN + CHECKSUM_LEN + 1)?;
    let place = (OPENING_LEN + EVENT_HEADER_LEN + behind_header) as u64;
    (event_type == FORMAT_DESCRIPTION_EVENT).then_some(place)
}

/// In a header the type is at 4, and the size of the whole event at 9.
fn type_and_size(bytes: &[u8]) -> Option<(u8, usize)> {
    let header = bytes.get(..EVENT_HEADER_LEN)?;
    let size = header[9..13].try_into().expect("four bytes");
    Some((header[4], u32::from_le_bytes(size) as usize))
}

/// Walks through a chunk. Of each part, up to an event that the reader tells of, the skipped events come before that event: the rows and the
/// end of the transaction before it. They count also where that event is refused.
fn walk(
    chunk: &[u8],
    reader: &mut BinlogReader,
    skipped: &mut Skipped,
    follower: &mut Follower,
) -> Result<(), Failure> {
    let mut feed = reader.feed(chunk);
    let mut at = 0;
    loop {
        let walked = feed.next().transpose();
        skipped.add(&chunk[at..feed.used()]);
        at = feed.used();
        while let Some(event) = skipped.next() {
            follower.pass(event)?;
        }
        match walked? {
            Some(walked) => follower.begin(walked)?,
            None => return Ok(()),
        }
    }
}

/// The events that the reader skips, split out of the same bytes.
struct Skipped {
    opening_left: usize,
    bytes: Vec<u8>,
    checksum_len: usize,
}

impl Skipped {
    fn new(checksums: Checksums) -> Skipped {
        Skipped {
            opening_left: OPENING_LEN,
            bytes: Vec::new(),
            checksum_len: match checksums {
                Checksums::None => 0,
                Checksums::Crc32 => CHECKSUM_LEN,
            },
        }
    }

    fn add(&mut self, bytes: &[u8]) {
        let opening = self.opening_left.min(bytes.len());
        self.opening_left -= opening;
        self.bytes.extend_from_slice(&bytes[opening..]);
    }

    /// The next one that is whole. (A size that is too small is the reader's to refuse.)
    fn next(&mut self) -> Option<Event> {
        loop {
            let (event_type, size) = type_and_size(&self.bytes)?;
            let body = self.bytes.get(EVENT_HEADER_LEN..size)?;
            let body = body[..body.len().checked_sub(self.checksum_len)?].to_vec();
            self.bytes.drain(..size);
            if !WALKED_EVENTS.contains(&event_type) {
                return Some((event_type, body));
            }
        }
    }
}

/// A transaction whose end hasn't come: its GTID event, with the set after that, and its rows so far.
struct Transaction {
    gtid: Walked,
    rows: Vec<Vec<u8>>,
}

struct Follower<'a> {
    tool_path: &'a Path,
    set_path: &'a Path,
    /// What stands in SET; nothing if there is no such file.
    saved_set: Option<ResumeSet>,
    /// From the opening event on.
    tool: Option<Tool>,
    transaction: Option<Transaction>,
    /// The event that closes a file has come.
    closed: bool,
}

impl<'a> Follower<'a> {
    fn new(tool_path: &'a Path, set_path: &'a Path) -> Result<Follower<'a>, Failure> {
        let saved_set = match ResumeSet::load(set_path) {
            Ok(set) => Some(set),
            Err(error) if error.kind() == ErrorKind::NotFound => None,
            Err(error) if error.kind() == ErrorKind::InvalidData => return Err(error.into()), // it names the file
            Err(error) => return Err(named(set_path, error).into()),
        };
        Ok(Follower {
            tool_path,
            set_path,
            saved_set,
            tool: None,
            transaction: None,
            closed: false,
        })
    }

    /// The set to begin with.
    fn start(&self) -> ResumeSet {
        let saved = self.saved_set.clone();
        saved.unwrap_or_else(ResumeSet::empty)
    }

    /// An event that the reader tells of.
    fn begin(&mut self, walked: Walked) -> Result<(), Failure> {
        if self.closed {
            return Err(CLOSED.into());
        }
        if self.transaction.is_some() {
            return Err(UNENDED.into());
        }
        if walked.told == Told::Joined {
            return self.open(walked.set);
        }
        self.tool.as_ref().ok_or(UNOPENED)?;
        self.transaction = Some(Transaction {
            gtid: walked,
            rows: Vec::new(),
        });
        Ok(())
    }

    /// The opening event lists all ids before EVENTS, and they are joined in this set. If that added some, a file before this one was missed.
    /// Where nothing was saved it is the set to start from: EVENTS must be the oldest file that TOOL may not have wholly.
    fn open(&mut self, joined: ResumeSet) -> Result<(), Failure> {
        match &self.saved_set {
            Some(saved) if *saved == joined => {}
            Some(_) => return Err(GAP.into()),
            None => self.save(joined)?,
        }
        let tool = Tool::open(self.tool_path).map_err(|error| named(self.tool_path, error))?;
        self.tool = Some(tool);
        Ok(())
    }

    fn save(&mut self, set: ResumeSet) -> Result<(), Failure> {
        set.save(self.set_path)
            .map_err(|error| named(self.set_path, error))?;
        self.saved_set = Some(set);
        Ok(())
    }

    /// An event that the reader skipped.
    fn pass(&mut self, (event_type, body): Event) -> Result<(), Failure> {
        if self.closed {
            return Err(CLOSED.into());
        }
        match (event_type, &mut self.transaction) {
            (XID_EVENT, _) => self.complete(),
            (STOP_EVENT | ROTATE_EVENT, Some(_)) => Err(UNENDED.into()), // and none will come: the file is closed
            (STOP_EVENT | ROTATE_EVENT, None) => {
                self.closed = true;
                Ok(())
            }
            (_, Some(transaction)) => {
                transaction.rows.push(body);
                Ok(())
            }
            (FORMAT_DESCRIPTION_EVENT, None) => Ok(()),
            (_, None) if self.tool.is_none() => Err(UNOPENED.into()),
            (_, None) => Err(format!("an event of type {event_type} in no transaction").into()),
        }
    }

    /// The order matters: copy, commit in the tool, and only then save the set as it was after this transaction's own GTID event. After a
    /// crash in between the transaction is told "taken" again, and the tool knows its id.
    fn complete(&mut self) -> Result<(), Failure> {
        let tool = self.tool.as_mut().ok_or(UNOPENED)?;
        let ended = self.transaction.take();
        let Transaction { gtid, rows } = ended.ok_or("the end of a transaction without one")?;
        match gtid.told {
            Told::AlreadyThere | Told::Joined => Ok(()),
            // copied like any other; but neither set nor tool can know it again, so that another run, as after a crash, copies it again
            Told::NoId => Ok(tool.append("anonymous", &rows)?),
            Told::Taken => {
                let read = GtidEvent::read(gtid.event_type, &gtid.body)?;
                tool.copy_once(read.event.gtid().to_string(), &rows)?;
                self.save(gtid.set)
            }
        }
    }

    /// EVENTS has no more bytes. Unless it is closed more may come: the next run begins again with a transaction that isn't complete.
    fn end(&self, reader: &mut BinlogReader) -> Result<(), Failure> {
        self.tool.as_ref().ok_or(UNOPENED)?;
        if self.closed {
            reader.finish()?;
        }
        Ok(())
    }
}

struct Tool {
    file: File,
    ids: HashSet<String>,
}

impl Tool {
    /// A line that a crash left torn is cut off. What is read here counts as copied, so it is synced to outlast the next crash.
    fn open(path: &Path) -> io::Result<Tool> {
        let mut options = File::options();
        let mut file = options.read(true).append(true).create(true).open(path)?;
        let mut text = String::new();
        file.read_to_string(&mut text)?;
        text.truncate(text.rfind('\n').map_or(0, |end| end + 1));
        file.set_len(text.len() as u64)?;
        file.sync_all()?;
        File::open(path.canonicalize()?.parent().expect("a file's folder"))?.sync_all()?;
        let ids = text.lines().filter_map(|line| line.split(' ').next());
        let ids = ids.map(String::from).collect();
        Ok(Tool { file, ids })
    }

    fn copy_once(&mut self, id: String, rows: &[Vec<u8>]) -> io::Result<()> {
        if self.ids.contains(&id) {
            return Ok(());
        }
        self.append(&id, rows)?;
        self.ids.insert(id);
        Ok(())
    }

    fn append(&mut self, id: &str, rows: &[Vec<u8>]) -> io::Result<()> {
        let rows = rows.iter().map(|body| body.escape_ascii().to_string());
        let line = format!("{id} {}\n", rows.collect::<Vec<_>>().join(" "));
        self.file.write_all(line.as_bytes())?;
        self.file.sync_all()
    }
}
