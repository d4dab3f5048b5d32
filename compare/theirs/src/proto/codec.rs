// STAND-IN for proto/codec: named by proto/mod.rs, used by none of the given files.
