use std::fmt;
use std::iter::FusedIterator;

/// A field of a tagged GTID event (type 42), by MySQL's name. Fields have the order of their ids.
///
/// ```
/// use gtid_resume::{Field, GtidEvent, GTID_TAGGED_LOG_EVENT};
///
/// // version byte, size, last non-ignorable id, and the tag alone
/// let read = GtidEvent::read(GTID_TAGGED_LOG_EVENT, &[2, 12, 0, 6, 2, b'a'])?;
/// assert!(read.present.contains(Field::Tag));
/// assert!(!read.present.contains(Field::Gno));
/// # Ok::<(), gtid_resume::Refusal>(())
/// ```
#[derive(Clone, Copy, Debug, PartialEq, Eq, PartialOrd, Ord, Hash)]
#[allow(missing_docs)]
pub enum Field {
    /// `flags` of the record.
    GtidFlags,
    /// `sid` of the record.
    Uuid,
    Gno,
    Tag,
    LastCommitted,
    SequenceNumber,
    ImmediateCommitTimestamp,
    OriginalCommitTimestamp,
    /// `tx_length` of the record.
    TransactionLength,
    ImmediateServerVersion,
    OriginalServerVersion,
    CommitGroupTicket,
}

impl Field {
    /// All twelve.
    ///
    /// ```
    /// use gtid_resume::{Field, GtidEvent, GTID_TAGGED_LOG_EVENT};
    ///
    /// let read = GtidEvent::read(GTID_TAGGED_LOG_EVENT, &[2, 12, 0, 6, 2, b'a'])?;
    /// let absent = Field::ALL.into_iter().filter(|field| !read.present.contains(*field));
    /// assert_eq!(absent.count(), 11);
    /// # Ok::<(), gtid_resume::Refusal>(())
    /// ```
    pub const ALL: [Field; 12] = [
        Field::GtidFlags,
        Field::Uuid,
        Field::Gno,
        Field::Tag,
        Field::LastCommitted,
        Field::SequenceNumber,
        Field::ImmediateCommitTimestamp,
        Field::OriginalCommitTimestamp,
        Field::TransactionLength,
        Field::ImmediateServerVersion,
        Field::OriginalServerVersion,
        Field::CommitGroupTicket,
    ];

    /// The id that stands before the field's value in an event, from 0 to 11.
    ///
    /// ```
    /// use gtid_resume::Field;
    ///
    /// assert_eq!((Field::GtidFlags.id(), Field::CommitGroupTicket.id()), (0, 11));
    /// ```
    pub fn id(self) -> u8 {
        self as u8
    }

    fn bit(self) -> u16 {
        1 << self.id()
    }
}

/// Which fields of a tagged GTID event (type 42) are there: those that were read before the fields ended, however often each came.
///
/// An unknown field that may be ignored ends them: what is behind it isn't read. In the record an absent field is 0, but for a server
/// version, which is [999,999](crate::GtidEvent::UNDEFINED_SERVER_VERSION), and for an original timestamp or version, which is the immediate
/// one.
///
/// ```
/// use gtid_resume::{Field, Fields, GtidEvent, GTID_TAGGED_LOG_EVENT};
///
/// let body = GtidEvent::new_tagged([7; 16], b"depot", 41)?.write()?;
/// let present = GtidEvent::read(GTID_TAGGED_LOG_EVENT, &body)?.present;
/// assert!(present.contains(Field::Uuid) && present.contains(Field::Gno));
/// // a record is written without an original that equals the immediate one, and without a ticket of 0
/// let absent = Field::ALL.into_iter().filter(|field| !present.contains(*field));
/// assert_eq!(
///     format!("{:?}", Fields::from_iter(absent)),
///     "{OriginalCommitTimestamp, OriginalServerVersion, CommitGroupTicket}"
/// );
/// # Ok::<(), gtid_resume::Refusal>(())
/// ```
#[derive(Clone, Copy, Default, PartialEq, Eq, Hash)]
pub struct Fields {
    bits: u16,
}

impl Fields {
    pub(crate) fn from_bits(bits: u16) -> Fields {
        Fields { bits }
    }

    /// Whether a field is there.
    ///
    /// ```
    /// use gtid_resume::{Field, Fields};
    ///
    /// let fields = Fields::from_iter([Field::Uuid, Field::Tag]);
    /// assert!(fields.contains(Field::Tag) && !fields.contains(Field::Gno));
    /// ```
    pub fn contains(self, field: Field) -> bool {
        self.bits & field.bit() != 0
    }

    /// Whether there are none, as of every untagged event (types 33 and 34).
    ///
    /// ```
    /// use gtid_resume::{GtidEvent, GTID_EVENT};
    ///
    /// assert!(GtidEvent::read(GTID_EVENT, &[0; 25])?.present.is_empty());
    /// # Ok::<(), gtid_resume::Refusal>(())
    /// ```
    pub fn is_empty(self) -> bool {
        self.bits == 0
    }

    /// How many there are.
    ///
    /// ```
    /// use gtid_resume::{Field, Fields};
    ///
    /// assert_eq!(Fields::from_iter(Field::ALL).len(), 12);
    /// ```
    pub fn len(self) -> usize {
        self.bits.count_ones() as usize
    }

    /// As bits: that of a field is `1 << field.id()`.
    ///
    /// ```
    /// use gtid_resume::{Field, Fields};
    ///
    /// assert_eq!(Fields::from_iter([Field::Uuid, Field::Tag]).bits(), 0b1010);
    /// ```
    pub fn bits(self) -> u16 {
        self.bits
    }

    /// The fields, in the order of their ids.
    ///
    /// ```
    /// use gtid_resume::{Field, Fields};
    ///
    /// let fields = Fields::from_iter([Field::Tag, Field::Uuid, Field::Tag]);
    /// assert!(fields.iter().eq([Field::Uuid, Field::Tag]));
    /// ```
    pub fn iter(self) -> FieldsIter {
        FieldsIter { left: self }
    }
}

impl fmt::Debug for Fields {
    fn fmt(&self, f: &mut fmt::Formatter<'_>) -> fmt::Result {
        f.debug_set().entries(self.iter()).finish()
    }
}

impl FromIterator<Field> for Fields {
    fn from_iter<I: IntoIterator<Item = Field>>(fields: I) -> Fields {
        let bits = fields.into_iter().fold(0, |bits, field| bits | field.bit());
        Fields { bits }
    }
}

impl IntoIterator for Fields {
    type Item = Field;
    type IntoIter = FieldsIter;

    fn into_iter(self) -> FieldsIter {
        self.iter()
    }
}

/// What [`Fields::iter`] gives.
///
/// ```
/// use gtid_resume::{Field, Fields};
///
/// let mut fields = Fields::from_iter([Field::Uuid, Field::Tag]).iter();
/// assert_eq!((fields.len(), fields.next()), (2, Some(Field::Uuid)));
/// assert_eq!((fields.len(), fields.next()), (1, Some(Field::Tag)));
/// assert_eq!((fields.len(), fields.next()), (0, None));
/// ```
#[derive(Clone, Debug)]
pub struct FieldsIter {
    left: Fields,
}

impl Iterator for FieldsIter {
    type Item = Field;

    fn next(&mut self) -> Option<Field> {
        // 16 where none is left
        let id = self.left.bits.trailing_zeros();
        let field = *Field::ALL.get(id as usize)?;
        self.left.bits &= !field.bit();
        Some(field)
    }

    fn size_hint(&self) -> (usize, Option<usize>) {
        (self.left.len(), Some(self.left.len()))
    }
}

impl ExactSizeIterator for FieldsIter {}

impl FusedIterator for FieldsIter {}
