// STAND-IN for the library `btoi`: only so that misc/mod.rs compiles (`split_version` is never called here).

pub fn btoi(digits: &[u8]) -> Result<u8, ()> {
    let text = std::str::from_utf8(digits).map_err(|_| ())?;
    text.parse().map_err(|_| ())
}
