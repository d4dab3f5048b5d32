// STAND-IN for packets: Tag and GnoInterval after docs/RULES.md, and the macro that gtid_event.rs calls.

use crate::{
    io::ParseBuf,
    proto::{MyDeserialize, MySerialize},
};
use std::{borrow::Cow, io};

/// A constant on the wire, and the error where another value stands there.
///
/// gtid_event.rs calls this once. The call also opens doors to three functions that are private there, so that they
/// can be compared without a change to the file.
macro_rules! define_const {
    ($kind:ident, $name:ident, $error:ident($text:literal), $value:literal) => {
        #[derive(Debug, Default, Clone, Copy, PartialEq, Eq, Hash, thiserror::Error)]
        #[error($text)]
        pub struct $error;

        pub type $name = $crate::misc::raw::int::$kind<$error, $value>;

        /// Not of the crate: doors to private functions of this file.
        pub mod doors {
            pub fn read_varlen_int(buf: &mut $crate::io::ParseBuf<'_>) -> std::io::Result<i64> {
                super::read_varlen_int(buf)
            }

            pub fn write_varlen_int(buf: &mut Vec<u8>, value: i64) {
                super::write_varlen_int(buf, value)
            }

            pub fn compute_self_inclusive_payload_size(
                before: usize,
                fields: usize,
                last: u64,
            ) -> u64 {
                super::compute_self_inclusive_payload_size(before, fields, last)
            }
        }
    };
}

/// A tag: 1 to 32 bytes, a to z, 0 to 9 and underscore, not a digit first. (Upper case and white space, of which the
/// rules' common domain says nothing, are refused as the rules say.)
#[derive(Debug, Clone, PartialEq, Eq, Hash)]
pub struct Tag<'a>(Cow<'a, str>);

#[derive(Debug, Clone, Copy, PartialEq, Eq, thiserror::Error)]
#[error("stand-in: the tag breaks the tag rule")]
pub struct InvalidTag;

impl<'a> Tag<'a> {
    pub fn new(text: impl Into<Cow<'a, str>>) -> Result<Self, InvalidTag> {
        let text = text.into();
        let bytes = text.as_bytes();
        let follows = |b: &u8| matches!(b, b'a'..=b'z' | b'0'..=b'9' | b'_');
        match bytes.first() {
            Some(first)
                if bytes.len() <= 32 && bytes.iter().all(follows) && !first.is_ascii_digit() =>
            {
                Ok(Self(text))
            }
            _ => Err(InvalidTag),
        }
    }

    pub fn as_str(&self) -> &str {
        &self.0
    }

    pub fn into_owned(self) -> Tag<'static> {
        Tag(Cow::Owned(self.0.into_owned()))
    }
}

/// An interval as it stands on the wire, not judged: start, exclusive end.
#[derive(Debug, Clone, Copy, PartialEq, Eq, Hash)]
pub struct GnoInterval {
    pub start: u64,
    pub end: u64,
}

impl<'de> MyDeserialize<'de> for GnoInterval {
    const SIZE: Option<usize> = Some(16);
    type Ctx = ();

    fn deserialize((): (), buf: &mut ParseBuf<'de>) -> io::Result<Self> {
        Ok(Self {
            start: buf.eat_u64_le(),
            end: buf.eat_u64_le(),
        })
    }
}

impl MySerialize for GnoInterval {
    fn serialize(&self, buf: &mut Vec<u8>) {
        buf.extend_from_slice(&self.start.to_le_bytes());
        buf.extend_from_slice(&self.end.to_le_bytes());
    }
}
