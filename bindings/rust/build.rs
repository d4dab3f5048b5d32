//! Links the archive `libabi.a`. It is looked for where `tools/archive` writes it, or in the folder that GTID_LIB_DIR names.
use std::env;
use std::path::{Path, PathBuf};
use std::process;

fn main() {
    let folder = folder();
    let archive = folder.join("libabi.a");
    println!("cargo:rerun-if-env-changed=GTID_LIB_DIR");
    println!("cargo:rerun-if-changed={}", archive.display());
    if let Some(why) = unusable(&archive) {
        eprintln!("gtid-resume: {}", why);
        process::exit(1);
    }
    println!("cargo:rustc-link-search=native={}", folder.display());
    println!("cargo:rustc-link-lib=static=abi");
}

fn folder() -> PathBuf {
    if let Some(folder) = env::var_os("GTID_LIB_DIR") {
        return PathBuf::from(folder);
    }
    let package = env::var_os("CARGO_MANIFEST_DIR").expect("cargo names the package's folder");
    Path::new(&package).join("../../target/staticlib")
}

/// Why the archive can't be linked, in one line that says what to do.
fn unusable(archive: &Path) -> Option<String> {
    let var = |name: &str| env::var(name).unwrap_or_default();
    if var("CARGO_CFG_TARGET_ARCH") != "x86_64" || var("CARGO_CFG_TARGET_OS") != "linux" {
        return Some(format!(
            "libabi.a is for x86-64 Linux, not for {}: build with --target x86_64-unknown-linux-gnu",
            var("TARGET")
        ));
    }
    if !archive.is_file() {
        return Some(format!(
            "there is no {}: `tools/archive` in the repository makes it, or GTID_LIB_DIR names its folder",
            archive.display()
        ));
    }
    None
}
