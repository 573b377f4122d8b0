//! Holds the crate to the sources that it speaks for: `src/ffi.rs` to the calls of crate `deblock`, by each
//! parameter's name, type and place, and by the result; the refusals to those of crate `refusals`, by name; the sizes
//! to the tables of crate `units`; the conversion of block codes, and the transform codes, to rav1d's own enums.

use deblock::{BlockSize, Refusal, TxSize};
use std::collections::{BTreeMap, BTreeSet};
use std::fmt::Debug;
use std::fs;
use std::path::PathBuf;

const CALLS: &str = "crates/deblock/src";
const FFI: &str = "bindings/rust/src/ffi.rs";
const NUMBERS: &str = "crates/refusals/src/lib.rt";
const SIZES: &str = "crates/units/src/sizes.rt";
const RAV1D: &str = "oracle/rust/rav1d/src/levels.rs";

/// By name, what is said of it: of a call its parameters, as `src/ffi.rs` has them, and its result.
type Table = BTreeMap<String, Vec<String>>;

/// The text of a file of the repository, or of all files of a folder.
fn read(path: &str) -> String {
    let path: PathBuf = [env!("CARGO_MANIFEST_DIR"), "..", "..", path]
        .iter()
        .collect();
    match fs::read_dir(&path) {
        Ok(files) => files
            .map(|file| fs::read_to_string(file.unwrap().path()).unwrap())
            .collect(),
        Err(_) => fs::read_to_string(&path).unwrap(),
    }
}

fn without_comments(text: &str) -> String {
    let code = |line: &str| line.split("//").next().unwrap().to_string() + "\n";
    text.lines().map(code).collect()
}

/// The calls that stand behind a mark: `NAME(NAME: TYPE, ..) -> TYPE`.
fn calls(text: &str, mark: &str, parameters: fn(&str) -> Vec<String>) -> Table {
    let mut calls = Table::new();
    for call in without_comments(text).split(mark).skip(1) {
        let (name, rest) = call.split_once('(').unwrap();
        let (inner, rest) = rest.split_once(')').unwrap();
        let inner = inner.split(',').map(str::trim).filter(|p| !p.is_empty());
        let mut all: Vec<String> = inner.flat_map(parameters).collect();
        let words: Vec<&str> = rest.split([' ', '\n', ';']).take(3).collect();
        all.push(words.join(" ").trim().into());
        assert!(calls.insert(name.into(), all).is_none(), "{name} twice");
    }
    calls
}

/// A parameter in Rattle as C has it: a slice is a pointer and a length.
fn lowered(parameter: &str) -> Vec<String> {
    let (name, kind) = parameter.split_once(": ").unwrap();
    let slice = |pointer, of| {
        vec![
            format!("{name}: {pointer} {of}"),
            format!("{name}_len: usize"),
        ]
    };
    match kind.trim_end_matches(']').rsplit_once('[') {
        Some(("&mut ", of)) if !of.contains(';') => slice("*mut", of),
        Some(("&", of)) if !of.contains(';') => slice("*const", of),
        _ => vec![parameter.into()],
    }
}

fn exported(text: &str) -> Table {
    let calls = calls(text, "pub extern \"C\" fn ", lowered);
    assert_eq!(calls.len(), text.matches("#[unsafe(no_mangle)]").count());
    calls
}

/// The refusals of crate `refusals` and their numbers.
fn numbers(text: &str) -> Table {
    let rows = text.split("Refusal::").skip(1);
    let number = |row: &str| {
        let (name, rest) = row.split_once(" => ")?;
        Some((name.into(), vec![rest.split(',').next()?.into()]))
    };
    rows.filter_map(number).collect()
}

/// The rows of a table of crate `units`, `UNITS, // NAME`.
fn rows<'a>(text: &'a str, table: &str) -> Vec<(u32, &'a str)> {
    let (_, text) = text.split_once(&format!("const {table}: ")).unwrap();
    let (_, text) = text.split_once("= [\n").unwrap();
    let row = |row: &'a str| {
        let (units, name) = row.trim().split_once(", // ").unwrap();
        (units.parse().unwrap(), name)
    };
    let lines = text.lines().take_while(|line| *line != "];");
    lines.map(row).collect()
}

/// The sizes of crate `units`: code, width and height in samples. Where the two tables differ in a name, both stand.
fn sizes(text: &str, table: &str, prefix: &str) -> Table {
    let wide = rows(text, &format!("{table}_WIDE"));
    let high = rows(text, &format!("{table}_HIGH"));
    assert_eq!(wide.len(), high.len());
    let sides = wide.iter().zip(&high).enumerate();
    let size = |(code, (&(wide, name), &(high, other)))| {
        let said = [code as u32, 4 * wide, 4 * high].map(|n| n.to_string());
        let or = if name == other { "" } else { other };
        (format!("{prefix}{name}{or}"), said.into())
    };
    sides.map(size).collect()
}

/// The codes of an enum of rav1d, `PREFIXWxH = CODE,`.
fn codes(text: &str, of: &str, prefix: &str) -> Table {
    let (_, text) = text.split_once(&format!("pub enum {of} {{\n")).unwrap();
    let (text, _) = text.split_once("\n}").unwrap();
    let code = |line: &str| {
        let (name, code) = line.trim().trim_end_matches(',').split_once(" = ")?;
        let name = name.trim_start_matches(|c: char| !c.is_ascii_digit());
        Some((format!("rav1d's {prefix}{name}"), vec![code.into()]))
    };
    text.lines().filter_map(code).collect()
}

/// What the sources say.
fn of_the_sources(read: impl Fn(&str) -> String) -> Table {
    let mut all = exported(&read(CALLS));
    all.extend(numbers(&read(NUMBERS)));
    all.extend(sizes(&read(SIZES), "BLOCK", "Block"));
    all.extend(sizes(&read(SIZES), "TX", "Tx"));
    all.extend(codes(&read(RAV1D), "BlockSize", "Block"));
    all.extend(codes(&read(RAV1D), "TxfmSize", "Tx"));
    all
}

fn said(name: impl Debug, numbers: &[u32]) -> (String, Vec<String>) {
    let numbers = numbers.iter().map(u32::to_string);
    (format!("{name:?}").replace('"', ""), numbers.collect())
}

/// What the crate says.
fn of_the_crate(read: impl Fn(&str) -> String) -> Table {
    let mut all = calls(&read(FFI), "pub fn ", |parameter| vec![parameter.into()]);
    all.extend(Refusal::ALL.map(|refusal| said(refusal, &[refusal.number()])));
    all.extend(BlockSize::ALL.map(|size| said(size, &[size.code(), size.width(), size.height()])));
    all.extend(TxSize::ALL.map(|size| said(size, &[size.code(), size.width(), size.height()])));
    let of_rav1d = |code| {
        let size = BlockSize::from_dav1d(code).unwrap();
        said(format!("rav1d's {size:?}"), &[code])
    };
    all.extend((0..22).map(of_rav1d));
    all.extend(TxSize::ALL.map(|size| said(format!("rav1d's {size:?}"), &[size.code()])));
    all
}

/// Where the two part, a line for each name.
fn differences(sources: &Table, ours: &Table) -> Vec<String> {
    let names: BTreeSet<&String> = sources.keys().chain(ours.keys()).collect();
    let difference = |name| match (sources.get(name), ours.get(name)) {
        (Some(theirs), Some(ours)) if theirs == ours => None,
        (theirs, ours) => Some(format!("{name}: {theirs:?} in the sources, {ours:?} here")),
    };
    names.into_iter().filter_map(difference).collect()
}

#[test]
fn the_crate_is_the_sources() {
    let (sources, ours) = (of_the_sources(read), of_the_crate(read));
    let found = differences(&sources, &ours);
    assert!(found.is_empty(), "{found:#?}");
    let calls = read(FFI).matches("pub fn ").count();
    assert_eq!(ours.len(), calls + 14 + 22 + 19 + 22 + 19);
}

/// Changes of a text: the file, an old part and a new one.
const DRIFTS: [(&str, &str, &str); 21] = [
    (
        FFI,
        "width: u32,\n        height: u32,",
        "height: u32,\n        width: u32,",
    ),
    (FFI, "        superblock: u32,\n", ""),
    (FFI, "luma_stride: usize", "luma_stride: u32"),
    (FFI, "left: *const u8", "left: *mut u8"),
    (FFI, "left: *const u8", "left: *const u16"),
    (FFI, "e: &[u8; 64]", "e: &[u8; 32]"),
    (FFI, "left_len: usize,", "left_len: usize, more: u32,"),
    (FFI, ") -> u32;", ") -> u64;"),
    (FFI, "        intrabc: u32,\n", ""),
    (FFI, "update: &mut [u8; 10]", "update: &mut [u8; 8]"),
    (FFI, "ref_before: &[i8; 8]", "ref_delta: &[i8; 8]"),
    (FFI, "pub fn deblock_rows_8(", "pub fn deblock_rows("),
    (NUMBERS, "Refusal::Shape =>", "Refusal::Frame =>"),
    (NUMBERS, "Gap => 11", "Gap => 13"),
    (NUMBERS, "Bits => 23", "Bits => 22"),
    (
        NUMBERS,
        "Refusal::Gap =>",
        "Refusal::A => 13, Refusal::Gap =>",
    ),
    (SIZES, "2, // 8x16\n", "4, // 8x16\n"),
    (
        SIZES,
        "2, // 8x4\n    2, // 8x8",
        "2, // 8x8\n    2, // 8x4",
    ),
    (SIZES, "32, // 128x64", "32, // 64x128"),
    (RAV1D, "Bs64x16 = 5", "Bs64x16 = 6"),
    (RAV1D, "R4x8 = 5,\n    R8x4 = 6", "R8x4 = 5,\n    R4x8 = 6"),
];

/// The test above can fail: each of these changes is found.
#[test]
fn drifts_are_found() {
    for (file, old, new) in DRIFTS {
        let drifted = |path: &str| match path == file {
            true => read(path).replacen(old, new, 1),
            false => read(path),
        };
        assert_ne!(drifted(file), read(file), "no {old}");
        let found = differences(&of_the_sources(drifted), &of_the_crate(drifted));
        assert!(!found.is_empty(), "{new} is not found");
    }
}
