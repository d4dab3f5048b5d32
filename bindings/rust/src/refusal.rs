use std::error::Error;
use std::fmt;
use std::io;

macro_rules! refusals {
    ($($name:ident = $number:literal: $words:literal,)*) => {
        /// Why a call was refused. The numbers are those of the README's table.
        ///
        /// `NoRoom`, an output that is too short, doesn't come: outputs are made long enough.
        ///
        /// ```
        /// use gtid_resume::{Refusal, ResumeSet};
        ///
        /// let refusal = ResumeSet::from_bytes(vec![]).unwrap_err();
        /// assert_eq!(refusal, Refusal::NotASet);
        /// assert_eq!(refusal.to_string(), "refusal 14: the bytes are no set");
        /// assert_eq!(format!("{refusal:?}"), "NotASet (refusal 14: the bytes are no set)");
        /// ```
        #[non_exhaustive]
        #[derive(Clone, Copy, PartialEq, Eq, Hash)]
        pub enum Refusal {
            $(
                #[doc = concat!("Refusal ", $number, ": ", $words, ".")]
                $name,
            )*
            /// A number that the table hasn't. The archive that this crate was made for gives none; one of another version might, and what
            /// it refuses stays refused.
            Unknown(u8),
        }

        impl Refusal {
            fn from_number(number: u8) -> Refusal {
                match number {
                    $($number => Refusal::$name,)*
                    _ => Refusal::Unknown(number),
                }
            }

            /// The number, as the tables of the documents have it.
            ///
            /// ```
            /// assert_eq!(gtid_resume::ResumeSet::take_in(&[]).unwrap_err().number(), 1);
            /// ```
            pub fn number(self) -> u8 {
                match self {
                    $(Refusal::$name => $number,)*
                    Refusal::Unknown(number) => number,
                }
            }

            fn name_and_words(self) -> (&'static str, &'static str) {
                match self {
                    $(Refusal::$name => (stringify!($name), $words),)*
                    Refusal::Unknown(_) => ("Unknown", "a number that the table hasn't"),
                }
            }
        }
    };
}

refusals! {
    Ended = 1: "the bytes end inside an item",
    TooLarge = 2: "a number of a tagged event is too large",
    Negative = 3: "a number of a tagged event is negative",
    WrongVersion = 4: "the version byte of a tagged event isn't 2",
    UnknownField = 5: "an unknown field that must not be ignored",
    BadTag = 6: "the tag breaks the tag rule",
    NoTag = 7: "a tagged event without a tag",
    WrongType = 8: "an event type that this call doesn't serve",
    SmallPayload = 9: "a declared payload smaller than its envelope",
    BadLead = 10: "a length-encoded integer that begins with FB or FF",
    TooLong = 11: "a body over 65,536 bytes, or a sixty-fifth set of a report",
    NotWritable = 12: "a record that can't be written",
    NoRoom = 13: "the output is too short",
    NotASet = 14: "the bytes are no set",
    BadGno = 15: "a transaction number or an interval outside its rule",
    Full = 16: "full: the set would pass 384 entries or 2,560 intervals",
    Crowded = 17: "crowded: an entry of the set would pass 1,024 intervals",
    BadFile = 18: "no binlog file: a wrong opening byte, an event's size that is too small, or bytes after the named end",
    AbsentId = 21: "absent id: the fields of a tagged event end without its uuid or its number",
    Diverged = 22: "diverged: each of the two sets has an id that the other lacks",
}

impl Refusal {
    /// Nothing, or the refusal with this number.
    pub(crate) fn unless_zero(number: u8) -> Result<(), Refusal> {
        match number {
            0 => Ok(()),
            _ => Err(Refusal::from_number(number)),
        }
    }

    /// A body that ends too early is no `UnexpectedEof`: loops take that for the end of their file, and would stop at a damaged event
    /// without a word.
    fn kind(self) -> io::ErrorKind {
        match self {
            Refusal::WrongType | Refusal::NotWritable | Refusal::NoRoom => {
                io::ErrorKind::InvalidInput
            }
            // nothing is wrong with the event, or with either set
            Refusal::Full | Refusal::Crowded | Refusal::Diverged | Refusal::Unknown(_) => {
                io::ErrorKind::Other
            }
            _ => io::ErrorKind::InvalidData,
        }
    }
}

impl fmt::Display for Refusal {
    fn fmt(&self, f: &mut fmt::Formatter<'_>) -> fmt::Result {
        let (_, words) = self.name_and_words();
        write!(f, "refusal {}: {words}", self.number())
    }
}

impl fmt::Debug for Refusal {
    fn fmt(&self, f: &mut fmt::Formatter<'_>) -> fmt::Result {
        let (name, _) = self.name_and_words();
        write!(f, "{name} ({self})")
    }
}

impl Error for Refusal {}

/// For functions that answer with `io::Result`. The refusal is the error's inner one. (Of an error of [`ResumeSet::load`], which also names
/// the file, it is the [source](std::error::Error::source).)
///
/// [`ResumeSet::load`]: crate::ResumeSet::load
///
/// ```
/// use gtid_resume::{Refusal, ResumeSet};
/// use std::io;
///
/// fn taken_in(body: &[u8]) -> io::Result<ResumeSet> {
///     Ok(ResumeSet::take_in(body)?)
/// }
///
/// let error = taken_in(&[]).unwrap_err();
/// assert_eq!(error.kind(), io::ErrorKind::InvalidData);
/// assert_eq!(error.get_ref().unwrap().downcast_ref(), Some(&Refusal::Ended));
/// ```
impl From<Refusal> for io::Error {
    fn from(refusal: Refusal) -> io::Error {
        io::Error::new(refusal.kind(), refusal)
    }
}
