# Of what rt says: which crates are proved, and what is wrong. Read by tools/program and tools/archive.
/^crate [a-z0-9_]*: /{
    s/^crate \([a-z0-9_]*\): .*/\1/
    h
    d
}
/^logic=proved /{
    g
    s/$/ is proved/p
    d
}
/^rt: \(rt\|chose\|running\|nothing has changed\) /d
/^rt: [a-z0-9_]*: begins with /d
/^rt: /p
/: error/p
