//! The numbers of the archive: event types, limits and lengths. (Those of the refusals stand in `refusal.rs`.) `gtid.h` is the same table for
//! C, and the proved crates have theirs; `tools/check-numbers` holds them together.

/// The type of a GTID event.
///
/// ```
/// use gtid_resume::{GtidEvent, GTID_EVENT};
///
/// assert_eq!(GtidEvent::new([7; 16], 1).event_type(), GTID_EVENT);
/// ```
pub const GTID_EVENT: u8 = 33;

/// The type of a GTID event without an id. Its transaction is to be copied like any other.
///
/// ```
/// let body = gtid_resume::GtidEvent::new([0; 16], 0).write()?;
/// assert_eq!(gtid_resume::list(gtid_resume::ANONYMOUS_GTID_EVENT, &body), "anonymous\n");
/// # Ok::<(), gtid_resume::Refusal>(())
/// ```
pub const ANONYMOUS_GTID_EVENT: u8 = 34;

/// The type of a binlog's opening event, which lists all ids before it.
///
/// ```
/// let text = gtid_resume::list(gtid_resume::PREVIOUS_GTIDS_EVENT, &[0; 8]);
/// assert_eq!(text, "previous-gtids entries 0 intervals 0\n");
/// ```
pub const PREVIOUS_GTIDS_EVENT: u8 = 35;

/// The type of a GTID event with a tag.
///
/// ```
/// use gtid_resume::{GtidEvent, GTID_TAGGED_LOG_EVENT};
///
/// assert_eq!(GtidEvent::new_tagged([7; 16], b"depot", 1)?.event_type(), GTID_TAGGED_LOG_EVENT);
/// # Ok::<(), gtid_resume::Refusal>(())
/// ```
pub const GTID_TAGGED_LOG_EVENT: u8 = 42;

/// The bytes of an event's header in a binlog file. Its body begins behind it.
///
/// ```
/// use gtid_resume::{BinlogReader, Checksums, GtidEvent, ResumeSet, Told, EVENT_HEADER_LEN, GTID_EVENT};
///
/// let body = GtidEvent::new([7; 16], 6).write()?;
/// // in a header the type is at 4, and the size of the whole event at 9
/// let mut event = vec![0; EVENT_HEADER_LEN];
/// event[4] = GTID_EVENT;
/// event[9..13].copy_from_slice(&((EVENT_HEADER_LEN + body.len()) as u32).to_le_bytes());
/// event.extend(body);
/// let mut reader = BinlogReader::new(ResumeSet::empty(), Checksums::None);
/// assert_eq!(reader.feed(b"\xfebin").count(), 0);
/// assert_eq!(reader.feed(&event).next().expect("an event")?.told, Told::Taken);
/// # Ok::<(), gtid_resume::Refusal>(())
/// ```
pub const EVENT_HEADER_LEN: usize = 19;

/// The bytes of the checksum that ends each event of a binlog file, if it has [checksums](crate::Checksums).
///
/// ```
/// use gtid_resume::{BinlogReader, Checksums, ResumeSet, CHECKSUM_LEN, EVENT_HEADER_LEN};
///
/// // an event without a body, of a type that is skipped
/// let mut event = [0; EVENT_HEADER_LEN + CHECKSUM_LEN];
/// event[9] = event.len() as u8;
/// let mut reader = BinlogReader::new(ResumeSet::empty(), Checksums::Crc32);
/// assert_eq!(reader.feed(b"\xfebin").count(), 0);
/// assert_eq!(reader.feed(&event).count(), 0);
/// reader.finish()?;
/// # Ok::<(), gtid_resume::Refusal>(())
/// ```
pub const CHECKSUM_LEN: usize = 4;

/// The most bytes that the body of an event may have.
///
/// ```
/// use gtid_resume::{PreviousGtidsEvent, Refusal, MAX_BODY};
///
/// assert!(PreviousGtidsEvent::read(&[0; MAX_BODY]).is_ok());
/// assert_eq!(PreviousGtidsEvent::read(&[0; MAX_BODY + 1]).unwrap_err(), Refusal::TooLong);
/// ```
pub const MAX_BODY: usize = 65_536;

/// The most bytes that a tag may have; it has one at least.
///
/// ```
/// use gtid_resume::{GtidEvent, Refusal, MAX_TAG};
///
/// assert!(GtidEvent::new_tagged([7; 16], &[b'a'; MAX_TAG], 1).is_ok());
/// assert_eq!(GtidEvent::new_tagged([7; 16], &[b'a'; MAX_TAG + 1], 1), Err(Refusal::BadTag));
/// ```
pub const MAX_TAG: usize = 32;

/// The most entries (a uuid with a tag or without) that a set may have.
///
/// ```
/// use gtid_resume::{GtidEvent, Refusal, ResumeSet, GTID_EVENT, MAX_ENTRIES};
///
/// let mut set = ResumeSet::empty();
/// let mut take = |number: usize| -> Result<(), Refusal> {
///     let mut uuid = [7; 16];
///     uuid[..8].copy_from_slice(&(number as u64).to_be_bytes());
///     set.offer(GTID_EVENT, &GtidEvent::new(uuid, 1).write()?)?.commit();
///     Ok(())
/// };
/// for number in 0..MAX_ENTRIES {
///     take(number)?;
/// }
/// assert_eq!(take(MAX_ENTRIES), Err(Refusal::Full));
/// # Ok::<(), Refusal>(())
/// ```
pub const MAX_ENTRIES: usize = 384;

/// The most intervals that all entries of a set may have together.
///
/// ```
/// use gtid_resume::{ResumeSet, MAX_INTERVALS};
///
/// let (_, intervals) = ResumeSet::empty().counts();
/// assert!(intervals <= MAX_INTERVALS as u64);
/// ```
pub const MAX_INTERVALS: usize = 2560;

/// The most intervals that one entry of a set may have.
///
/// ```
/// use gtid_resume::{GtidEvent, Refusal, ResumeSet, GTID_EVENT, MAX_OF_ENTRY};
///
/// let mut set = ResumeSet::empty();
/// let mut take = |gno: u64| -> Result<(), Refusal> {
///     set.offer(GTID_EVENT, &GtidEvent::new([7; 16], gno).write()?)?.commit();
///     Ok(())
/// };
/// for nth in 1..=MAX_OF_ENTRY as u64 {
///     take(2 * nth)?; // each in an interval of its own
/// }
/// assert_eq!(take(1_000_000), Err(Refusal::Crowded));
/// take(3)?; // 2 and 4 are in one interval with it
/// take(1_000_000)?;
/// # Ok::<(), Refusal>(())
/// ```
pub const MAX_OF_ENTRY: usize = 1024;

// The bytes of a uuid, of an interval, and of what stands before the intervals of an entry: the uuid and their number, and in a set with
// tags the length of the tag, one byte, and the tag.
pub(crate) const UUID_LEN: usize = 16;
pub(crate) const INTERVAL_LEN: usize = 16;
pub(crate) const ENTRY_HEAD: usize = UUID_LEN + 8;
pub(crate) const TAGGED_HEAD: usize = ENTRY_HEAD + 1;

/// The bytes of the longest set: 384 entries with tags of 32 bytes, and 2,560 intervals.
///
/// ```
/// use gtid_resume::{ResumeSet, LONGEST_SET};
///
/// assert!(ResumeSet::empty().as_bytes().len() <= LONGEST_SET);
/// ```
pub const LONGEST_SET: usize =
    8 + MAX_ENTRIES * (TAGGED_HEAD + MAX_TAG) + MAX_INTERVALS * INTERVAL_LEN;

/// The bytes of the longest text of an event ([`list`](crate::list)): that of the longest set, with numbers of 19 digits.
///
/// ```
/// use gtid_resume::{list, LONGEST_TEXT, PREVIOUS_GTIDS_EVENT};
///
/// assert!(list(PREVIOUS_GTIDS_EVENT, &[0; 8]).len() <= LONGEST_TEXT);
/// ```
pub const LONGEST_TEXT: usize = 42 + MAX_ENTRIES * 70 + MAX_INTERVALS * 40;

/// The bytes of the longest body that [`GtidEvent::write`] gives, a tagged one: version, size and last non-ignorable id (4), flags (3), uuid
/// (33), tag (34), seven numbers of 64 bits (10 each) and two of 32 bits (6 each).
///
/// [`GtidEvent::write`]: crate::GtidEvent::write
///
/// ```
/// use gtid_resume::{GtidEvent, LONGEST_EVENT};
///
/// assert!(GtidEvent::new([7; 16], 1).write()?.len() <= LONGEST_EVENT);
/// # Ok::<(), gtid_resume::Refusal>(())
/// ```
pub const LONGEST_EVENT: usize = 4 + 3 + (1 + UUID_LEN * 2) + (2 + MAX_TAG) + 7 * 10 + 2 * 6;

/// The highest transaction number that a set can hold; the lowest is 1. An event of type 33 or 42 may carry others, and is read, written
/// and listed with them; offered, it is refused with [`BadGno`]. (Type 34 has no id, and its number isn't judged. One of type 42
/// that lacks its uuid or its number is refused with [`AbsentId`], in an offer and in the listing.)
///
/// [`BadGno`]: crate::Refusal::BadGno
/// [`AbsentId`]: crate::Refusal::AbsentId
///
/// ```
/// use gtid_resume::{GtidEvent, Refusal, ResumeSet, GTID_EVENT, HIGHEST_GNO};
///
/// let mut set = ResumeSet::empty();
/// set.offer(GTID_EVENT, &GtidEvent::new([7; 16], HIGHEST_GNO).write()?)?.commit();
/// let beyond = GtidEvent::new([7; 16], HIGHEST_GNO + 1).write()?;
/// assert_eq!(set.offer(GTID_EVENT, &beyond).unwrap_err(), Refusal::BadGno);
/// # Ok::<(), Refusal>(())
/// ```
pub const HIGHEST_GNO: u64 = i64::MAX as u64 - 1;

/// How many sets a [`Report`](crate::Report) takes, those that are refused counted.
///
/// ```
/// use gtid_resume::{Refusal, Report, ResumeSet, MAX_SETS};
///
/// let mut report = Report::new();
/// for _ in 0..MAX_SETS {
///     report.add(&ResumeSet::empty())?;
/// }
/// assert_eq!(report.add(&ResumeSet::empty()), Err(Refusal::TooLong));
/// # Ok::<(), Refusal>(())
/// ```
pub const MAX_SETS: usize = 64;

/// The bytes of the longest text of a [`Report`](crate::Report): 64 lines of 38 bytes, and one of 44 for the sums.
///
/// ```
/// use gtid_resume::{Report, LONGEST_REPORT};
///
/// assert!(Report::new().to_text().len() <= LONGEST_REPORT);
/// ```
pub const LONGEST_REPORT: usize = MAX_SETS * 38 + 44;

/// The bytes of a record between this crate and the archive.
pub(crate) const RECORD_LEN: usize = 116;

/// The bytes of a report in the making: eight for the number of sets, and its lines. What stands in them is the archive's own.
pub(crate) const REPORT_LEN: usize = 8 + MAX_SETS * 21;

/// The bytes of a binlog reader between this crate and the archive.
pub(crate) const BINLOG_READER_LEN: usize = 48;

/// The work bytes of a binlog reader: the longest body, and a checksum.
pub(crate) const BINLOG_WORK: usize = MAX_BODY + CHECKSUM_LEN;

/// The server version of a record that tells none.
pub(crate) const UNDEFINED_SERVER_VERSION: u32 = 999_999;

/// What an offer and a binlog reader say of an event, if it isn't refused.
pub(crate) const TAKEN: u8 = 1;
pub(crate) const ALREADY_THERE: u8 = 2;
pub(crate) const NO_ID: u8 = 3;
pub(crate) const JOINED: u8 = 4;
