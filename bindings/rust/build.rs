//! Links the archive of crate `deblock`: the file that `DEBLOCK_ARCHIVE` names, else the repository's.

use std::env;
use std::path::{Path, PathBuf};
use std::process::exit;

fn refuse(why: &str) -> ! {
    eprintln!("{why}");
    exit(1)
}

fn archive() -> PathBuf {
    let own = Path::new(env!("CARGO_MANIFEST_DIR")).join("../../target/staticlib/libdeblock.a");
    env::var_os("DEBLOCK_ARCHIVE").map_or(own, PathBuf::from)
}

fn main() {
    let archive = archive();
    println!("cargo::rerun-if-env-changed=DEBLOCK_ARCHIVE");
    println!("cargo::rerun-if-changed={}", archive.display());
    if !env::var("TARGET")
        .unwrap()
        .starts_with("x86_64-unknown-linux")
    {
        refuse("the archive of crate deblock is for x86-64 under Linux alone");
    }
    let (Some(folder), Some(file), true) = (
        archive.parent(),
        archive.file_name().map(Path::new),
        archive.is_file(),
    ) else {
        refuse(&format!(
            "no archive at {}: run `tools/prove deblock` in the repository, or name one in DEBLOCK_ARCHIVE",
            archive.display()
        ));
    };
    println!("cargo::rustc-link-search=native={}", folder.display());
    println!("cargo::rustc-link-lib=static:+verbatim={}", file.display());
}
