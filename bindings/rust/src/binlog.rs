//! A binlog file, read as it arrives.
use crate::numbers::{
    ALREADY_THERE, BINLOG_READER_LEN, BINLOG_WORK, JOINED, LONGEST_SET, NO_ID, TAKEN,
};
use crate::{sys, Refusal, ResumeSet};
use std::borrow::Cow;
use std::fmt;
use std::iter::FusedIterator;
use std::mem;

/// Whether four bytes of checksum end each event of a file. They are cut off, and not checked.
///
/// The file's first event, the format description (type 15), tells it: its last four bytes are its own checksum in any case, and the byte
/// before them is 0 for none, or 1.
///
/// ```
/// use gtid_resume::{BinlogReader, Checksums, ResumeSet};
///
/// // an event of 22 bytes: header and three more, which are too few for a checksum
/// let mut file = b"\xfebin".to_vec();
/// file.extend([0, 0, 0, 0, 3, 0, 0, 0, 0, 22, 0, 0, 0, 0, 0, 0, 0, 0, 0, 9, 9, 9]);
/// let mut reader = BinlogReader::new(ResumeSet::empty(), Checksums::None);
/// assert_eq!(reader.feed(&file).count(), 0); // it is skipped
/// let mut reader = BinlogReader::new(ResumeSet::empty(), Checksums::Crc32);
/// assert!(reader.feed(&file).next().unwrap().is_err());
/// ```
#[derive(Clone, Copy, Debug, PartialEq, Eq, Hash)]
pub enum Checksums {
    /// There are none.
    None = 0,
    /// Each event has one: the server's default.
    Crc32 = 1,
}

/// What an event of a binlog file comes to, if it isn't refused. The first three are those of an [offer](crate::Offered).
///
/// ```
/// use gtid_resume::{BinlogReader, Checksums, ResumeSet, Told};
///
/// # fn event(event_type: u8, body: &[u8]) -> Vec<u8> {
/// #     let mut event = vec![0; gtid_resume::EVENT_HEADER_LEN];
/// #     let size = (event.len() + body.len()) as u32;
/// #     event[4] = event_type;
/// #     event[9..13].copy_from_slice(&size.to_le_bytes());
/// #     event.extend(body);
/// #     event
/// # }
/// # let gtid = gtid_resume::GtidEvent::new([7; 16], 6).write()?;
/// # use gtid_resume::{ANONYMOUS_GTID_EVENT, GTID_EVENT, PREVIOUS_GTIDS_EVENT};
/// # let mut file = [b"\xfebin".to_vec(), event(PREVIOUS_GTIDS_EVENT, &[0; 8])].concat();
/// # for event_type in [GTID_EVENT, GTID_EVENT, ANONYMOUS_GTID_EVENT] {
/// #     file.extend(event(event_type, &gtid));
/// # }
/// // an opening event, transaction 6, the same again, and one without an id
/// let mut reader = BinlogReader::new(ResumeSet::empty(), Checksums::None);
/// let told = reader.feed(&file).map(|walked| walked.map(|walked| walked.told));
/// let told = told.collect::<Result<Vec<_>, _>>()?;
/// assert_eq!(told, [Told::Joined, Told::Taken, Told::AlreadyThere, Told::NoId]);
/// # Ok::<(), gtid_resume::Refusal>(())
/// ```
#[must_use = "a transaction that isn't already there has to be copied"]
#[derive(Clone, Copy, Debug, PartialEq, Eq, Hash)]
pub enum Told {
    /// A GTID event's id is new: copy the transaction and commit it in the tool, and only then save [`Walked::set`].
    Taken,
    /// A GTID event's id is a member already: pass the transaction over.
    AlreadyThere,
    /// An anonymous event (type 34) has no id: copy the transaction, each time that it comes. The set doesn't protect it.
    NoId,
    /// The ids of a Previous-GTIDs event (type 35) were joined to the set. [`BinlogReader`] says what to look at then.
    Joined,
}

/// An event that was offered to the reader's set, or joined to it.
///
/// ```
/// use gtid_resume::{BinlogReader, Checksums, GtidEvent, ResumeSet};
///
/// # let gtid = GtidEvent::new([7; 16], 6).write()?;
/// # let mut file = b"\xfebin".to_vec();
/// # let size = (gtid_resume::EVENT_HEADER_LEN + gtid.len()) as u8;
/// # file.extend([0, 0, 0, 0, gtid_resume::GTID_EVENT, 0, 0, 0, 0, size, 0, 0, 0, 0, 0, 0, 0, 0, 0]);
/// # file.extend(gtid);
/// # file.extend([0; 7]);
/// let mut reader = BinlogReader::new(ResumeSet::empty(), Checksums::None);
/// let walked = reader.feed(&file).next().expect("a GTID event")?;
/// let read = GtidEvent::read(walked.event_type, &walked.body)?;
/// assert_eq!(read.event.gtid().to_string(), "07070707-0707-0707-0707-070707070707:6");
/// assert!(walked.set.contains(&[7; 16], b"", 6)); // to be saved when this transaction is committed
/// let behind = &file[walked.end..]; // its rows begin here
/// # assert_eq!(behind, [0; 7]);
/// # Ok::<(), gtid_resume::Refusal>(())
/// ```
#[derive(Clone, Debug, PartialEq, Eq, Hash)]
#[non_exhaustive]
pub struct Walked {
    /// What it comes to.
    pub told: Told,
    /// Its type: 33, 34, 35 or 42.
    pub event_type: u8,
    /// Its body, without header and checksum.
    pub body: Vec<u8>,
    /// The set after it. Of a transaction it is the one to save as soon as the tool has committed this one and all before it, and not earlier.
    pub set: ResumeSet,
    /// Where in the chunk it ended: what is behind it begins there. (0 if it ended in bytes that an earlier [feed](Feed) left.)
    pub end: usize,
}

/// Reads a binlog file as it arrives, in chunks that end anywhere: its GTID events (types 33, 34 and 42) are offered to a resume set, and the
/// ids of its opening event (type 35) joined to it, each as soon as the event is whole. Events of any other type are skipped, whatever their
/// size.
///
/// Where the file is cut makes no difference to the answers, the set, or the end, and empty chunks change nothing; that is proved of the calls
/// that this is made of.
///
/// # When to save
///
/// A GTID event is the first of its transaction. The reader takes its id when that event is whole, and then the rows haven't come yet. So
/// [`set`](BinlogReader::set), the newest one, is not the set to save: a follower that saves it and is killed before the tool has committed
/// the transaction has a set that claims it, and loses it. Keep [`Walked::set`] with the transaction, and save that when the tool has
/// committed it and all before it, whose ids it has, too.
///
/// After a crash begin with the saved set, at the file's start. What was copied is told [`Told::AlreadyThere`]; a transaction that was
/// committed and not saved is told [`Told::Taken`] again, so that the tool must recognise its id, or set and transaction go into one commit.
///
/// The rows are events that the reader skips. The follower splits them out of the same chunks; `examples/follower.rs` is one that does.
///
/// # The opening event
///
/// It lists all ids before the file, and these are joined to the set whether it had them or not. One that it hadn't is a transaction that
/// nobody copied. So at [`Told::Joined`] compare [`Walked::set`] with the set that was saved. If they are equal, all that is listed was there.
/// If not, there is a gap: stop and follow an older file first, and don't save that set. ([`difference`](ResumeSet::difference) tells what is
/// missing.) Only where a follower starts, with an empty set and a file before which the tool has everything, it is the set to start from.
///
/// ```
/// use gtid_resume::{BinlogReader, Checksums, ResumeSet, Told};
///
/// # use gtid_resume::{GtidEvent, GTID_EVENT, PREVIOUS_GTIDS_EVENT};
/// # const ROW: u8 = 30;
/// # const XID: u8 = 16;
/// # fn event(event_type: u8, body: &[u8]) -> Vec<u8> {
/// #     let mut event = vec![0; gtid_resume::EVENT_HEADER_LEN];
/// #     let size = (event.len() + body.len()) as u32;
/// #     event[4] = event_type;
/// #     event[9..13].copy_from_slice(&size.to_le_bytes());
/// #     event.extend(body);
/// #     event
/// # }
/// # let gtid = |gno| GtidEvent::new([7; 16], gno).write().unwrap();
/// # let mut file = [b"\xfebin".to_vec(), event(PREVIOUS_GTIDS_EVENT, &[0; 8])].concat();
/// # for gno in [1, 2] {
/// #     file.extend([event(GTID_EVENT, &gtid(gno)), event(ROW, b"28.4 mm"), event(XID, &[0; 8])].concat());
/// # }
/// # struct Tool(usize);
/// # impl Tool {
/// #     fn copy_and_commit(&mut self) { self.0 += 1; }
/// # }
/// # let mut tool = Tool(0);
/// # let mut saved = ResumeSet::empty();
/// // here a transaction is complete when the next one begins, or the file has ended; `examples/follower.rs` looks for the event that ends it
/// let mut complete = |transaction: Option<ResumeSet>| {
///     if let Some(set) = transaction {
///         tool.copy_and_commit();
///         saved = set; // and save it
///     }
/// };
/// let mut reader = BinlogReader::new(ResumeSet::empty(), Checksums::None);
/// let mut pending = None;
/// for chunk in file.chunks(7) {
///     for walked in reader.feed(chunk) {
///         let walked = walked?;
///         complete(pending.take());
///         match walked.told {
///             Told::Taken | Told::NoId => pending = Some(walked.set),
///             Told::AlreadyThere => {}
///             Told::Joined => assert_eq!(walked.set, ResumeSet::empty(), "a gap"),
///         }
///     }
/// }
/// reader.finish()?;
/// complete(pending.take());
/// # assert_eq!((tool.0, &saved), (2, reader.set()));
/// # Ok::<(), gtid_resume::Refusal>(())
/// ```
#[derive(Clone)]
pub struct BinlogReader {
    flat: [u8; BINLOG_READER_LEN],
    work: Vec<u8>,
    /// Has the set at its front.
    room: Vec<u8>,
    /// For the set after an event.
    spare: Vec<u8>,
    set: ResumeSet,
    /// What a feed that was dropped early left of its chunk.
    left: Vec<u8>,
}

impl BinlogReader {
    /// A reader before the first byte of a file, which goes on from a set: from a saved one, or from the one that the file before left.
    ///
    /// ```
    /// use gtid_resume::{BinlogReader, Checksums, ResumeSet};
    ///
    /// let saved = ResumeSet::empty();
    /// let reader = BinlogReader::new(saved, Checksums::Crc32);
    /// assert_eq!(reader.set(), &ResumeSet::empty());
    /// ```
    pub fn new(set: ResumeSet, checksums: Checksums) -> Self {
        let mut flat = [0; BINLOG_READER_LEN];
        let begun = unsafe {
            sys::gtid_binlog_begin(
                set.bytes.as_ptr(),
                set.bytes.len(),
                checksums as u8,
                flat.as_mut_ptr(),
                flat.len(),
            )
        };
        Refusal::unless_zero(begun).expect("the bytes are a set");
        let mut room = vec![0; LONGEST_SET];
        room[..set.bytes.len()].copy_from_slice(&set.bytes);
        BinlogReader {
            flat,
            work: vec![0; BINLOG_WORK],
            room,
            spare: vec![0; LONGEST_SET],
            set,
            left: Vec::new(),
        }
    }

    /// Gives the reader the next chunk of the file. The events that are whole by its end come out of the [`Feed`], one after another: each is
    /// offered or joined only when it is asked for.
    ///
    /// A feed that is dropped before its end loses nothing. What it hasn't walked stays in the reader, and the next feed begins with it, also
    /// one of no bytes.
    ///
    /// A refusal is the last item of its feed. From then on the reader is stopped: every feed, also one of no bytes, has the same refusal as
    /// its one item. The set stays as the events before made it, those of the same chunk included.
    ///
    /// ```
    /// use gtid_resume::{BinlogReader, Checksums, Refusal, ResumeSet};
    ///
    /// let mut reader = BinlogReader::new(ResumeSet::empty(), Checksums::None);
    /// for chunk in [&b"\xfeb"[..], b"", b"i"] {
    ///     for walked in reader.feed(chunk) {
    ///         println!("{:?}", walked?.told);
    ///     }
    /// }
    /// assert_eq!(reader.feed(b"m").next(), Some(Err(Refusal::BadFile))); // n is wanted
    /// assert_eq!(reader.feed(b"n").next(), Some(Err(Refusal::BadFile)));
    /// # Ok::<(), Refusal>(())
    /// ```
    pub fn feed<'a>(&'a mut self, chunk: &'a [u8]) -> Feed<'a> {
        let left = mem::take(&mut self.left);
        let left_len = left.len();
        let bytes = match left_len {
            0 => Cow::Borrowed(chunk),
            _ => Cow::Owned([&left, chunk].concat()),
        };
        Feed {
            reader: self,
            bytes,
            left_len,
            used: 0,
            done: false,
        }
    }

    /// Names the end of the file: between two events that is well. Of a file that is still being written don't name it.
    ///
    /// Bytes that are fed after an end that was well are refused with [`Refusal::BadFile`]. Naming the end again repeats the answer.
    ///
    /// # Errors
    ///
    /// [`Refusal::Ended`] inside the opening or an event, also where nothing has come; the reader is stopped then. A reader that is stopped
    /// repeats its refusal.
    ///
    /// # Panics
    ///
    /// If a [feed](Feed) was dropped early, and what it left has not been walked: there may be events in it.
    ///
    /// ```
    /// use gtid_resume::{BinlogReader, Checksums, Refusal, ResumeSet};
    ///
    /// let mut reader = BinlogReader::new(ResumeSet::empty(), Checksums::None);
    /// assert_eq!(reader.feed(b"\xfebin").count(), 0);
    /// reader.finish()?;
    /// reader.finish()?;
    /// assert_eq!(reader.feed(&[0]).next(), Some(Err(Refusal::BadFile)));
    /// assert_eq!(reader.finish(), Err(Refusal::BadFile));
    /// # Ok::<(), Refusal>(())
    /// ```
    pub fn finish(&mut self) -> Result<(), Refusal> {
        assert!(
            self.left.is_empty(),
            "the end was named before all that was fed had been walked"
        );
        let number = unsafe { sys::gtid_binlog_end(self.flat.as_mut_ptr(), self.flat.len()) };
        Refusal::unless_zero(number)
    }

    /// The set as the events that came out so far have made it. It may have ids of transactions whose rows haven't come: it is not the one to
    /// save, which is [`Walked::set`] of a transaction that the tool has committed.
    ///
    /// ```
    /// use gtid_resume::{BinlogReader, Checksums, ResumeSet};
    ///
    /// let reader = BinlogReader::new(ResumeSet::empty(), Checksums::None);
    /// assert_eq!(reader.set().counts(), (0, 0));
    /// ```
    pub fn set(&self) -> &ResumeSet {
        &self.set
    }

    /// The [set](BinlogReader::set), for a reader of the next file.
    ///
    /// ```
    /// use gtid_resume::{BinlogReader, Checksums, ResumeSet};
    ///
    /// let mut reader = BinlogReader::new(ResumeSet::empty(), Checksums::None);
    /// assert_eq!(reader.feed(b"\xfebin").count(), 0);
    /// reader.finish()?;
    /// let next = BinlogReader::new(reader.into_set(), Checksums::Crc32);
    /// # assert_eq!(next.set(), &ResumeSet::empty());
    /// # Ok::<(), gtid_resume::Refusal>(())
    /// ```
    pub fn into_set(self) -> ResumeSet {
        self.set
    }

    /// A step through some bytes: how many it used, and what it says of an event, if it comes to one.
    fn step(&mut self, bytes: &[u8]) -> (usize, Result<Option<Told>, Refusal>) {
        let number = unsafe {
            sys::gtid_binlog_step(
                self.flat.as_mut_ptr(),
                self.flat.len(),
                bytes.as_ptr(),
                bytes.len(),
                self.work.as_mut_ptr(),
                self.work.len(),
                self.room.as_mut_ptr(),
                self.room.len(),
                self.spare.as_mut_ptr(),
                self.spare.len(),
            )
        };
        let said = Refusal::unless_zero(number).map(|()| self.told());
        (self.number_at(32), said)
    }

    /// What the last step said of an event; none if it only wants more bytes, or the end was named.
    fn told(&self) -> Option<Told> {
        match self.flat[3] {
            TAKEN => Some(Told::Taken),
            ALREADY_THERE => Some(Told::AlreadyThere),
            NO_ID => Some(Told::NoId),
            JOINED => Some(Told::Joined),
            _ => None,
        }
    }

    /// The event that the last step came to.
    fn walked(&mut self, told: Told, end: usize) -> Walked {
        if matches!(told, Told::Taken | Told::Joined) {
            self.set.bytes = self.room[..self.number_at(24)].to_vec();
        }
        Walked {
            told,
            event_type: self.flat[4],
            body: self.work[..self.number_at(40)].to_vec(),
            set: self.set.clone(),
            end,
        }
    }

    /// A length that the last call told.
    fn number_at(&self, place: usize) -> usize {
        let bytes = self.flat[place..place + 8].try_into();
        u64::from_le_bytes(bytes.expect("eight bytes")) as usize
    }
}

impl fmt::Debug for BinlogReader {
    fn fmt(&self, f: &mut fmt::Formatter<'_>) -> fmt::Result {
        let mut reader = f.debug_struct("BinlogReader");
        reader.field("set", &self.set).finish_non_exhaustive()
    }
}

/// The events that are whole by the end of a chunk, one after another, and at last a refusal, if there is one: what [`BinlogReader::feed`]
/// gives.
///
/// Each event is offered or joined only when it is asked for, so that the set never has an event's id before the event has come out here. Run
/// it to its end. If it is dropped before, what it hasn't walked stays in the reader, and the next feed begins with that.
///
/// ```
/// use gtid_resume::{BinlogReader, Checksums, ResumeSet, Told};
///
/// # fn event(event_type: u8, body: &[u8]) -> Vec<u8> {
/// #     let mut event = vec![0; gtid_resume::EVENT_HEADER_LEN];
/// #     let size = (event.len() + body.len()) as u32;
/// #     event[4] = event_type;
/// #     event[9..13].copy_from_slice(&size.to_le_bytes());
/// #     event.extend(body);
/// #     event
/// # }
/// # let gtid = |gno| gtid_resume::GtidEvent::new([7; 16], gno).write().unwrap();
/// # use gtid_resume::GTID_EVENT;
/// # let file = [b"\xfebin".to_vec(), event(GTID_EVENT, &gtid(1)), event(GTID_EVENT, &gtid(2))].concat();
/// let mut reader = BinlogReader::new(ResumeSet::empty(), Checksums::None);
/// let first = reader.feed(&file).next().expect("the first of two")?; // and the rest is left
/// assert!(first.set == *reader.set() && !reader.set().contains(&[7; 16], b"", 2));
/// let second = reader.feed(&[]).next().expect("the second")?;
/// assert_eq!(second.told, Told::Taken);
/// assert!(reader.set().contains(&[7; 16], b"", 2));
/// # Ok::<(), gtid_resume::Refusal>(())
/// ```
#[must_use = "the events of a chunk are walked only as they are asked for"]
#[derive(Debug)]
pub struct Feed<'a> {
    reader: &'a mut BinlogReader,
    /// What an earlier feed left, and then the chunk.
    bytes: Cow<'a, [u8]>,
    left_len: usize,
    used: usize,
    done: bool,
}

impl Feed<'_> {
    /// How many bytes of the chunk have been used so far: up to the end of the event that came out last, or to the byte that showed a refusal,
    /// or all of them. So a follower knows which skipped events came before it.
    ///
    /// ```
    /// use gtid_resume::{BinlogReader, Checksums, ResumeSet};
    ///
    /// let mut reader = BinlogReader::new(ResumeSet::empty(), Checksums::None);
    /// let mut feed = reader.feed(b"\xfe is no binlog");
    /// assert_eq!(feed.used(), 0);
    /// assert!(feed.next().unwrap().is_err());
    /// assert_eq!(feed.used(), 2); // the second byte is wrong
    /// ```
    pub fn used(&self) -> usize {
        self.used.saturating_sub(self.left_len)
    }
}

impl Iterator for Feed<'_> {
    type Item = Result<Walked, Refusal>;

    fn next(&mut self) -> Option<Self::Item> {
        while !self.done {
            let (used, said) = self.reader.step(&self.bytes[self.used..]);
            self.used += used;
            self.done = said.is_err() || self.used == self.bytes.len();
            if let Some(told) = said.transpose() {
                let end = self.used();
                return Some(told.map(|told| self.reader.walked(told, end)));
            }
        }
        None
    }
}

impl FusedIterator for Feed<'_> {}

impl Drop for Feed<'_> {
    fn drop(&mut self) {
        if !self.done {
            self.reader.left = self.bytes[self.used..].to_vec();
        }
    }
}
