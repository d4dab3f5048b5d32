// STAND-IN for binlog/mod.rs, and for as much of binlog/events/mod.rs as the two given events use.

use self::consts::{BinlogVersion, EventType};
use crate::proto::{MyDeserialize, MySerialize};
use std::marker::PhantomData;

pub mod consts;

/// What the events are read with; the two given events use only the type.
#[derive(Debug, Clone, Copy)]
pub struct BinlogCtx<'a> {
    pub event_type_raw: u8,
    body: PhantomData<&'a [u8]>,
}

impl BinlogCtx<'_> {
    pub fn new(event_type_raw: u8) -> Self {
        Self {
            event_type_raw,
            body: PhantomData,
        }
    }
}

pub trait BinlogStruct<'a>: MySerialize + MyDeserialize<'a, Ctx = BinlogCtx<'a>> {
    fn len(&self, version: BinlogVersion) -> usize;
}

pub trait BinlogEvent<'a>: BinlogStruct<'a> {
    const EVENT_TYPE: EventType;
}

pub mod events {
    pub mod gtid_event;
    pub mod previous_gtids_event;

    /// Only its length is used.
    pub struct BinlogEventHeader;

    impl BinlogEventHeader {
        pub const LEN: usize = 19;
    }
}
