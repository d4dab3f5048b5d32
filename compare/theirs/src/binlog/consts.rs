// STAND-IN for binlog/consts.rs: the types of event that docs/RULES.md serves, and one that it doesn't.

/// The version that `len` is asked with; the two given events don't look at it.
#[derive(Debug, Clone, Copy, PartialEq, Eq, Hash)]
pub enum BinlogVersion {
    Version4,
}

#[derive(Debug, Clone, Copy, PartialEq, Eq, Hash)]
#[allow(non_camel_case_types)]
pub enum EventType {
    GTID_EVENT,
    ANONYMOUS_GTID_EVENT,
    PREVIOUS_GTIDS_EVENT,
    GTID_TAGGED_LOG_EVENT,
    /// A type that GtidEvent doesn't serve (FORMAT_DESCRIPTION_EVENT); all others are unknown to this stand-in.
    FORMAT_DESCRIPTION_EVENT,
}

#[derive(Debug, Clone, Copy, PartialEq, Eq, Hash, thiserror::Error)]
#[error("stand-in: unknown event type {0}")]
pub struct UnknownEventType(pub u8);

impl TryFrom<u8> for EventType {
    type Error = UnknownEventType;

    fn try_from(raw: u8) -> Result<Self, UnknownEventType> {
        match raw {
            15 => Ok(Self::FORMAT_DESCRIPTION_EVENT),
            33 => Ok(Self::GTID_EVENT),
            34 => Ok(Self::ANONYMOUS_GTID_EVENT),
            35 => Ok(Self::PREVIOUS_GTIDS_EVENT),
            42 => Ok(Self::GTID_TAGGED_LOG_EVENT),
            _ => Err(UnknownEventType(raw)),
        }
    }
}

/// Marks a gno among the raw numbers; it judges nothing.
#[derive(Debug, Clone, Copy, PartialEq, Eq, Hash)]
pub struct Gno;

/// The flags of a GTID event: all 256 values, none of them cut.
#[derive(Debug, Clone, Copy, PartialEq, Eq, Hash)]
pub struct GtidFlags(u8);

impl GtidFlags {
    pub fn bits(self) -> u8 {
        self.0
    }
}

impl From<u8> for GtidFlags {
    fn from(bits: u8) -> Self {
        Self(bits)
    }
}
