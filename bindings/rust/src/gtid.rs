use crate::numbers::UUID_LEN;
use std::fmt;

/// The id of a transaction. It shows as in the listing: `uuid:gno`, or `uuid:tag:gno` where there is a tag.
///
/// Ids have the order in which they stand in a set.
///
/// ```
/// use gtid_resume::Gtid;
///
/// let id = Gtid { sid: [0xab; 16], tag: b"", gno: 7 };
/// assert_eq!(id.to_string(), "abababab-abab-abab-abab-abababababab:7");
/// let tagged = Gtid { tag: b"depot", ..id };
/// assert_eq!(tagged.to_string(), "abababab-abab-abab-abab-abababababab:depot:7");
/// ```
#[derive(Clone, Copy, Debug, PartialEq, Eq, PartialOrd, Ord, Hash)]
pub struct Gtid<'a> {
    /// The uuid of the server that gave the id.
    pub sid: [u8; UUID_LEN],
    /// The tag's bytes, none where there is no tag.
    pub tag: &'a [u8],
    /// The transaction number.
    pub gno: u64,
}

impl fmt::Display for Gtid<'_> {
    fn fmt(&self, f: &mut fmt::Formatter<'_>) -> fmt::Result {
        for (at, byte) in self.sid.iter().enumerate() {
            let dash = if [4, 6, 8, 10].contains(&at) { "-" } else { "" };
            write!(f, "{dash}{byte:02x}")?;
        }
        if !self.tag.is_empty() {
            // a record can hold any bytes; those of a tag stay as they are
            write!(f, ":{}", self.tag.escape_ascii())?;
        }
        write!(f, ":{}", self.gno)
    }
}
