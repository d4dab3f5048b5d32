//! Not of the crate: the numbers of gtid.h, by their names there, as far as the comparison speaks of them.

pub const GTID_EVENT: u8 = 33;
pub const ANONYMOUS_GTID_EVENT: u8 = 34;
pub const PREVIOUS_GTIDS_EVENT: u8 = 35;
pub const GTID_TAGGED_LOG_EVENT: u8 = 42;

pub const MAX_BODY: usize = 65_536;
pub const MAX_TAG: usize = 32;
pub const MAX_ENTRIES: usize = 384;
pub const MAX_INTERVALS: usize = 2560;
pub const MAX_OF_ENTRY: usize = 1024;
pub const UUID_LEN: usize = 16;
pub const INTERVAL_LEN: usize = 16;
pub const LONGEST_SET: usize = 8 + MAX_ENTRIES * (UUID_LEN + 1 + MAX_TAG + 8) + MAX_INTERVALS * INTERVAL_LEN;
pub const LONGEST_TEXT: usize = 42 + MAX_ENTRIES * 70 + MAX_INTERVALS * 40;
pub const LONGEST_EVENT: usize = 4 + 3 + (1 + UUID_LEN * 2) + (2 + MAX_TAG) + 7 * 10 + 2 * 6;
pub const HIGHEST_GNO: u64 = i64::MAX as u64 - 1;

pub const RECORD_LEN: usize = 116;
pub const UNDEFINED_SERVER_VERSION: u32 = 999_999;

pub const MAX_SETS: usize = 64;
pub const REPORT_LEN: usize = 8 + MAX_SETS * 21;
pub const LONGEST_REPORT: usize = MAX_SETS * 38 + 44;

pub const EVENT_HEADER_LEN: usize = 19;
pub const CHECKSUM_LEN: usize = 4;
pub const BINLOG_READER_LEN: usize = 48;
pub const BINLOG_WORK: usize = MAX_BODY + CHECKSUM_LEN;

/// What an offer and a step of the binlog reader say.
pub const TAKEN: u8 = 1;
pub const ALREADY_THERE: u8 = 2;
pub const JOINED: u8 = 4;
pub const MORE_WANTED: u8 = 5;

/// The numbers of refusals.
pub mod refusal {
    pub const ENDED: u8 = 1;
    pub const TOO_LARGE: u8 = 2;
    pub const NEGATIVE: u8 = 3;
    pub const WRONG_VERSION: u8 = 4;
    pub const UNKNOWN_FIELD: u8 = 5;
    pub const BAD_TAG: u8 = 6;
    pub const NO_TAG: u8 = 7;
    pub const WRONG_TYPE: u8 = 8;
    pub const SMALL_PAYLOAD: u8 = 9;
    pub const BAD_LEAD: u8 = 10;
    pub const TOO_LONG: u8 = 11;
    pub const NOT_WRITABLE: u8 = 12;
    pub const NO_ROOM: u8 = 13;
    pub const NOT_A_SET: u8 = 14;
    pub const FULL: u8 = 16;
    pub const CROWDED: u8 = 17;
    pub const DIVERGED: u8 = 22;
}
