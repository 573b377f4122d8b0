//! Holds rav1d's text to its hashes, and cuts the two files that are compiled in part.

use std::fs;
use std::path::Path;
use std::process::Command;

/// A file of rav1d and the lines of it that are compiled, counted from 1, both ends among them.
const CUTS: [(&str, &[(usize, usize)]); 2] = [
    // The loop filter; what stands above it prepares other filters.
    ("lf_apply.rs", &[(367, usize::MAX)]),
    // `TxLpfRightEdge` and `Bxy`.
    ("internal.rs", &[(643, 690), (1160, 1164)]),
];

fn files(dir: &Path, found: &mut Vec<String>) {
    for entry in fs::read_dir(dir).unwrap() {
        let path = entry.unwrap().path();
        if path.is_dir() {
            files(&path, found);
        } else {
            let name = path.strip_prefix("rav1d").unwrap();
            found.push(name.to_str().unwrap().into());
        }
    }
}

fn main() {
    println!("cargo::rerun-if-changed=rav1d");
    let listed = fs::read_to_string("rav1d/SHA256").unwrap();
    let listed = listed.lines().map(|line| &line[66..]);
    let mut found = vec![];
    files(Path::new("rav1d"), &mut found);
    found.retain(|name| name != "SHA256");
    found.sort();
    assert!(listed.eq(found), "rav1d/ and rav1d/SHA256 differ");
    let check = Command::new("sha256sum")
        .args(["--check", "--strict", "--quiet", "SHA256"])
        .current_dir("rav1d")
        .status();
    assert!(check.unwrap().success(), "rav1d's text was changed");

    let out = std::env::var("OUT_DIR").unwrap();
    for (file, ranges) in CUTS {
        let text = fs::read_to_string(format!("rav1d/src/{file}")).unwrap();
        let kept = text.lines().zip(1..).filter(|(_, n)| {
            let within = |&(first, last)| first <= *n && *n <= last;
            ranges.iter().any(within)
        });
        let kept: String = kept.map(|(line, _)| format!("{line}\n")).collect();
        fs::write(format!("{out}/{file}"), kept).unwrap();
    }
}
