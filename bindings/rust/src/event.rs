use crate::numbers::{
    GTID_EVENT, GTID_TAGGED_LOG_EVENT, LONGEST_EVENT, MAX_TAG, RECORD_LEN,
    UNDEFINED_SERVER_VERSION, UUID_LEN,
};
use crate::sys;
use crate::{Fields, Gtid, Refusal};

const LOGICAL_TIMESTAMP_TYPECODE: u8 = 2;

/// The record of a GTID event. Times are in microseconds; a server version that isn't known is [999,999](GtidEvent::UNDEFINED_SERVER_VERSION).
///
/// It is read from an event's body, or built step by step; names and steps are those of mysql_common.
///
/// ```
/// use gtid_resume::GtidEvent;
///
/// let event = GtidEvent::new([7; 16], 41).with_last_committed(3).with_sequence_number(4);
/// let body = event.write()?;
/// assert_eq!(GtidEvent::read(event.event_type(), &body)?.event, event);
/// # Ok::<(), gtid_resume::Refusal>(())
/// ```
#[derive(Clone, Debug, PartialEq, Eq, Hash)]
#[allow(missing_docs)]
pub struct GtidEvent {
    pub flags: u8,
    /// The uuid of the server that gave the id.
    pub sid: [u8; UUID_LEN],
    /// The transaction number.
    pub gno: u64,
    /// The tag's bytes, none where there is no tag.
    pub tag: Vec<u8>,
    /// The logical clock's typecode, 2, of an untagged event that has one.
    pub lc_typecode: Option<u8>,
    pub last_committed: u64,
    pub sequence_number: u64,
    pub immediate_commit_timestamp: u64,
    pub original_commit_timestamp: u64,
    pub tx_length: u64,
    pub immediate_server_version: u32,
    pub original_server_version: u32,
    pub commit_group_ticket: u64,
}

/// What [`GtidEvent::read`] gives.
///
/// ```
/// use gtid_resume::{Field, GtidEvent, Refusal, ResumeSet, GTID_TAGGED_LOG_EVENT};
///
/// // version byte, size, last non-ignorable id, and the tag alone
/// let body = [2, 12, 0, 6, 2, b'a'];
/// let read = GtidEvent::read(GTID_TAGGED_LOG_EVENT, &body)?;
/// // a number stands in the record, but there was none
/// assert_eq!((read.event.gno, read.present.contains(Field::Gno)), (0, false));
/// let mut set = ResumeSet::empty();
/// assert_eq!(set.offer(GTID_TAGGED_LOG_EVENT, &body).unwrap_err(), Refusal::AbsentId);
/// # Ok::<(), Refusal>(())
/// ```
#[derive(Clone, Debug, PartialEq, Eq, Hash)]
#[non_exhaustive]
pub struct GtidRead {
    /// The record.
    pub event: GtidEvent,
    /// How many bytes of the body were used.
    pub used: usize,
    /// Which fields of a tagged event (type 42) are there. An untagged one has no such fields, and a uuid and a number in any case: then there
    /// are none.
    pub present: Fields,
}

/// Steps that set one number.
macro_rules! steps {
    ($($step:ident: $field:ident, $type:ty;)*) => {$(
        #[doc = concat!("The record with another `", stringify!($field), "`.")]
        ///
        /// ```
        #[doc = concat!("let event = gtid_resume::GtidEvent::new([7; 16], 1).", stringify!($step), "(9);")]
        #[doc = concat!("assert_eq!(event.", stringify!($field), ", 9);")]
        /// ```
        #[must_use]
        pub fn $step(mut self, $field: $type) -> GtidEvent {
            self.$field = $field;
            self
        }
    )*};
}

impl GtidEvent {
    /// The server version of a record that tells none: what a reader gives where none was sent, and what a new record begins with.
    ///
    /// ```
    /// use gtid_resume::{GtidEvent, GTID_EVENT};
    ///
    /// let event = GtidEvent::read(GTID_EVENT, &[0; 25])?.event;
    /// assert_eq!(event.immediate_server_version, GtidEvent::UNDEFINED_SERVER_VERSION);
    /// # Ok::<(), gtid_resume::Refusal>(())
    /// ```
    pub const UNDEFINED_SERVER_VERSION: u32 = UNDEFINED_SERVER_VERSION;

    /// A new untagged record: typecode 2, server versions [999,999](GtidEvent::UNDEFINED_SERVER_VERSION), and zeros but for what is given.
    ///
    /// In mysql_common the server versions of a new untagged record are 0. Whoever needs that sets it.
    ///
    /// ```
    /// use gtid_resume::GtidEvent;
    ///
    /// let event = GtidEvent::new([7; 16], 1);
    /// assert_eq!((event.lc_typecode, event.immediate_server_version), (Some(2), 999_999));
    /// let marker = event.with_immediate_server_version(0).with_original_server_version(0);
    /// assert_eq!((marker.immediate_server_version, marker.original_server_version), (0, 0));
    /// ```
    #[must_use]
    pub fn new(sid: [u8; UUID_LEN], gno: u64) -> GtidEvent {
        GtidEvent {
            flags: 0,
            sid,
            gno,
            tag: Vec::new(),
            lc_typecode: Some(LOGICAL_TIMESTAMP_TYPECODE),
            last_committed: 0,
            sequence_number: 0,
            immediate_commit_timestamp: 0,
            original_commit_timestamp: 0,
            tx_length: 0,
            immediate_server_version: GtidEvent::UNDEFINED_SERVER_VERSION,
            original_server_version: GtidEvent::UNDEFINED_SERVER_VERSION,
            commit_group_ticket: 0,
        }
    }

    /// A new tagged record: no typecode, server versions [999,999](GtidEvent::UNDEFINED_SERVER_VERSION), and zeros but for what is given.
    ///
    /// # Errors
    ///
    /// [`Refusal::BadTag`] if the tag breaks the tag rule: 1 to 32 bytes, a to z, 0 to 9 and underscore, not a digit first.
    ///
    /// ```
    /// use gtid_resume::{GtidEvent, Refusal};
    ///
    /// let event = GtidEvent::new_tagged([7; 16], b"depot", 1)?;
    /// assert_eq!((event.lc_typecode, event.immediate_server_version), (None, 999_999));
    /// assert_eq!(GtidEvent::new_tagged([7; 16], b"UPPER", 1), Err(Refusal::BadTag));
    /// # Ok::<(), Refusal>(())
    /// ```
    pub fn new_tagged(sid: [u8; UUID_LEN], tag: &[u8], gno: u64) -> Result<GtidEvent, Refusal> {
        GtidEvent::new(sid, gno).without_lc_typecode().with_tag(tag)
    }

    /// Reads the body of a GTID event (types 33, 34 and 42), without header and checksum: the record, how many bytes were used, and which
    /// fields of a tagged event are there.
    ///
    /// # Errors
    ///
    /// What the body is refused for, 1 to 11. A tagged event that lacks its uuid or its number is read; an offer refuses it.
    ///
    /// ```
    /// use gtid_resume::{GtidEvent, GTID_EVENT};
    ///
    /// let mut body = vec![0; 17];
    /// body.extend(5u64.to_le_bytes());
    /// let read = GtidEvent::read(GTID_EVENT, &body)?;
    /// assert_eq!((read.event.gno, read.used), (5, 25));
    /// assert_eq!(read.event.write()?, body);
    /// # Ok::<(), gtid_resume::Refusal>(())
    /// ```
    pub fn read(event_type: u8, body: &[u8]) -> Result<GtidRead, Refusal> {
        let mut flat = [0; RECORD_LEN];
        let (mut used, mut present) = (0, 0);
        let number = unsafe {
            sys::gtid_read_present(
                event_type,
                body.as_ptr(),
                body.len(),
                flat.as_mut_ptr(),
                flat.len(),
                &mut used,
                &mut present,
            )
        };
        Refusal::unless_zero(number)?;
        Ok(GtidRead {
            event: GtidEvent::from_flat(&flat),
            used,
            present: Fields::from_bits(present),
        })
    }

    /// Writes the record as the body of an event of the type that [`event_type`](GtidEvent::event_type) tells.
    ///
    /// A record doesn't know which fields it was read from: a uuid or a number that was absent is written as zeros, and has been sent then.
    /// So an event is offered as it came, not written again.
    ///
    /// # Errors
    ///
    /// [`Refusal::NotWritable`] if the record would not come back equal from what would be written.
    ///
    /// ```
    /// use gtid_resume::{GtidEvent, Refusal};
    ///
    /// // a typecode has no place in a tagged event
    /// let tagged = GtidEvent::new([7; 16], 1).with_tag(b"depot")?;
    /// assert_eq!(tagged.write(), Err(Refusal::NotWritable));
    /// assert!(tagged.without_lc_typecode().write().is_ok());
    /// # Ok::<(), Refusal>(())
    /// ```
    pub fn write(&self) -> Result<Vec<u8>, Refusal> {
        let flat = self.flat();
        sys::written(LONGEST_EVENT, |out, len| unsafe {
            sys::gtid_write(flat.as_ptr(), flat.len(), out.as_mut_ptr(), out.len(), len)
        })
    }

    /// The id. The record of an anonymous event (type 34) has none: what stands in its fields means nothing. Nor has that of a tagged event
    /// that lacks its uuid or its number, which [`GtidRead::present`] tells: zeros stand in their place.
    ///
    /// ```
    /// let event = gtid_resume::GtidEvent::new_tagged([7; 16], b"depot", 41)?;
    /// assert_eq!(event.gtid().to_string(), "07070707-0707-0707-0707-070707070707:depot:41");
    /// # Ok::<(), gtid_resume::Refusal>(())
    /// ```
    pub fn gtid(&self) -> Gtid<'_> {
        Gtid {
            sid: self.sid,
            tag: &self.tag,
            gno: self.gno,
        }
    }

    /// Whether there is a tag.
    ///
    /// ```
    /// assert!(!gtid_resume::GtidEvent::new([7; 16], 1).is_tagged());
    /// ```
    pub fn is_tagged(&self) -> bool {
        !self.tag.is_empty()
    }

    /// The type of the event that is written: 42 with a tag, else 33.
    ///
    /// ```
    /// use gtid_resume::{GtidEvent, GTID_EVENT};
    ///
    /// assert_eq!(GtidEvent::new([7; 16], 1).event_type(), GTID_EVENT);
    /// ```
    pub fn event_type(&self) -> u8 {
        if self.is_tagged() {
            return GTID_TAGGED_LOG_EVENT;
        }
        GTID_EVENT
    }

    /// The record with a tag. All else stays: the server versions, and, as in mysql_common, the typecode; a tagged record can't be written
    /// with one.
    ///
    /// # Errors
    ///
    /// [`Refusal::BadTag`] if the tag breaks the tag rule.
    ///
    /// ```
    /// use gtid_resume::{GtidEvent, Refusal};
    ///
    /// let event = GtidEvent::new([7; 16], 1).with_tag(b"depot")?;
    /// assert_eq!((event.tag.as_slice(), event.lc_typecode), (&b"depot"[..], Some(2)));
    /// assert_eq!(event.with_tag(b"7"), Err(Refusal::BadTag));
    /// # Ok::<(), Refusal>(())
    /// ```
    pub fn with_tag(mut self, tag: &[u8]) -> Result<GtidEvent, Refusal> {
        judge_tag(tag)?;
        self.tag = tag.to_vec();
        Ok(self)
    }

    /// The record with the logical clock's typecode, 2.
    ///
    /// ```
    /// let event = gtid_resume::GtidEvent::new_tagged([7; 16], b"depot", 1)?;
    /// assert_eq!(event.with_lc_typecode().lc_typecode, Some(2));
    /// # Ok::<(), gtid_resume::Refusal>(())
    /// ```
    #[must_use]
    pub fn with_lc_typecode(mut self) -> GtidEvent {
        self.lc_typecode = Some(LOGICAL_TIMESTAMP_TYPECODE);
        self
    }

    /// The record without a typecode, which mysql_common has no step for.
    ///
    /// ```
    /// let event = gtid_resume::GtidEvent::new([7; 16], 1);
    /// assert_eq!(event.without_lc_typecode().lc_typecode, None);
    /// ```
    #[must_use]
    pub fn without_lc_typecode(mut self) -> GtidEvent {
        self.lc_typecode = None;
        self
    }

    /// The record with another `sid`.
    ///
    /// ```
    /// assert_eq!(gtid_resume::GtidEvent::new([7; 16], 1).with_sid([9; 16]).sid, [9; 16]);
    /// ```
    #[must_use]
    pub fn with_sid(mut self, sid: [u8; UUID_LEN]) -> GtidEvent {
        self.sid = sid;
        self
    }

    steps! {
        with_flags: flags, u8;
        with_gno: gno, u64;
        with_last_committed: last_committed, u64;
        with_sequence_number: sequence_number, u64;
        with_immediate_commit_timestamp: immediate_commit_timestamp, u64;
        with_original_commit_timestamp: original_commit_timestamp, u64;
        with_tx_length: tx_length, u64;
        with_immediate_server_version: immediate_server_version, u32;
        with_original_server_version: original_server_version, u32;
        with_commit_group_ticket: commit_group_ticket, u64;
    }

    fn from_flat(flat: &[u8; RECORD_LEN]) -> GtidEvent {
        let number =
            |at: usize| u64::from_le_bytes(flat[at..at + 8].try_into().expect("eight bytes"));
        let version =
            |at: usize| u32::from_le_bytes(flat[at..at + 4].try_into().expect("four bytes"));
        GtidEvent {
            flags: flat[0],
            sid: flat[1..17].try_into().expect("sixteen bytes"),
            gno: number(17),
            tag: flat[26..26 + usize::from(flat[25]).min(MAX_TAG)].to_vec(),
            lc_typecode: (flat[58] != 0).then_some(flat[59]),
            last_committed: number(60),
            sequence_number: number(68),
            immediate_commit_timestamp: number(76),
            original_commit_timestamp: number(84),
            tx_length: number(92),
            immediate_server_version: version(100),
            original_server_version: version(104),
            commit_group_ticket: number(108),
        }
    }

    /// A tag that is longer than a record holds keeps a length that no writer accepts.
    fn flat(&self) -> Vec<u8> {
        let kept = self.tag.len().min(MAX_TAG);
        let mut flat = Vec::with_capacity(RECORD_LEN);
        flat.push(self.flags);
        flat.extend(self.sid);
        flat.extend(self.gno.to_le_bytes());
        flat.push(self.tag.len().min(255) as u8);
        flat.extend(&self.tag[..kept]);
        flat.resize(58, 0);
        flat.push(self.lc_typecode.is_some().into());
        flat.push(self.lc_typecode.unwrap_or(0));
        for number in [
            self.last_committed,
            self.sequence_number,
            self.immediate_commit_timestamp,
            self.original_commit_timestamp,
            self.tx_length,
        ] {
            flat.extend(number.to_le_bytes());
        }
        flat.extend(self.immediate_server_version.to_le_bytes());
        flat.extend(self.original_server_version.to_le_bytes());
        flat.extend(self.commit_group_ticket.to_le_bytes());
        flat
    }
}

/// The tag rule stands in the archive alone: a new record with a tag, without a typecode, can be written just if the tag is one. (One
/// without a tag could be, too; a server version, here 0, shuts it out, since without a typecode it has no place.)
fn judge_tag(tag: &[u8]) -> Result<(), Refusal> {
    let mut probe = GtidEvent::new([0; UUID_LEN], 0)
        .without_lc_typecode()
        .with_immediate_server_version(0);
    probe.tag = tag.to_vec();
    match probe.write() {
        Ok(_) => Ok(()),
        Err(Refusal::NotWritable) => Err(Refusal::BadTag),
        Err(other) => Err(other),
    }
}
