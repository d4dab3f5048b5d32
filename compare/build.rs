//! Links the repository's archive, if GTID_ARCHIVE says where it is (README.md).

use std::{env, path::Path, process};

fn main() {
    println!("cargo:rustc-check-cfg=cfg(archive)");
    println!("cargo:rerun-if-env-changed=GTID_ARCHIVE");
    let Ok(archive) = env::var("GTID_ARCHIVE") else {
        return;
    };
    let archive = Path::new(&archive);
    if env::var("CARGO_CFG_TARGET_ARCH").as_deref() != Ok("x86_64") {
        stop(
            "libabi.a is for x86-64: build with --target x86_64-unknown-linux-gnu, as compare/run does",
        );
    }
    if !archive.ends_with("libabi.a") || !archive.is_file() {
        stop("GTID_ARCHIVE isn't the path of a libabi.a; `tools/archive` makes one");
    }
    let folder = archive.parent().expect("the folder of a file");
    println!("cargo:rerun-if-changed={}", archive.display());
    println!("cargo:rustc-link-search=native={}", folder.display());
    println!("cargo:rustc-link-lib=static=abi");
    println!("cargo:rustc-cfg=archive");
}

/// Ends the build with one line, without a panic's place and hints.
fn stop(why: &str) -> ! {
    eprintln!("compare: {why}");
    process::exit(1)
}
