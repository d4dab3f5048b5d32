// STAND-IN for lib.rs of mysql_common 0.38.2: the modules that the given files name. Which files are given: given.sha256.
#![allow(dead_code, unused_imports, clippy::all)]

#[macro_use]
pub mod packets;
pub mod binlog;
pub mod io;
pub mod misc;
pub mod proto;

/// Not of the crate: its functions over bytes, with answers in the terms of docs/RULES.md.
pub mod answers;
pub mod numbers;
