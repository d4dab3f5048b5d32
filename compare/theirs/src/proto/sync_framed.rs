// STAND-IN for proto/sync_framed.rs: named by proto/mod.rs, used by none of the given files.
