//! rav1d's deblocking as an oracle: it makes cases from a seed, gives rav1d's answers, and compares
//! them with the answers of a program. See oracle/README.md.

// rav1d's text names the crates that it depends on; what it takes of them stands at our root.
extern crate derive as strum;
extern crate self as atomig;
extern crate self as bitflags;
extern crate self as libc;
extern crate self as parking_lot;
extern crate self as zerocopy;

mod compare;
mod json;
mod part;
mod parts;
mod rav1d;
mod rng;
mod tally;

use compare::BATCH;
use part::{Count, Part};
use parts::speed::Counted;
#[allow(unused_imports)]
use rav1d::{crates::*, include, src};
use std::io::{self, BufReader, BufWriter, Read, Write};
use std::process::ExitCode;

const USAGE: &str = "usage: oracle cases PART COUNT SEED            cases to standard output
       oracle fixed PART                       the cases that the gate replays
       oracle answers PART                     cases from standard input, answers to standard output
       oracle compare PART COUNT SEED PROGRAM..  a program's answers against rav1d's
       oracle speed make FRAME                 a frame with its blocks to standard output
       oracle speed filter|record FRAME 1|2    rav1d's work on a frame, once or twice
FRAME is WIDTH HEIGHT DEPTH key|inter SEED; COUNT is a number, or `all` for a part that has so few cases (limits)";

fn main() -> ExitCode {
    src::tables::check();
    let words: Vec<String> = std::env::args().skip(1).collect();
    match run(&words) {
        Some(Ok(())) => ExitCode::SUCCESS,
        Some(Err(error)) => {
            println!("{}", error.trim_end());
            ExitCode::FAILURE
        }
        None => {
            let parts = parts::PARTS.map(|part| part.name()).join(", ");
            eprintln!("{USAGE}\nPART is one of {parts}");
            ExitCode::from(2)
        }
    }
}

/// What the words ask for, or nothing if they are not understood.
fn run(words: &[String]) -> Option<Result<(), String>> {
    let [verb, name, rest @ ..] = words else {
        return None;
    };
    if verb == "speed" {
        return speed(name, rest);
    }
    let part = parts::PARTS.into_iter().find(|part| part.name() == name)?;
    let result = match (verb.as_str(), rest) {
        ("fixed", []) => write(part.fixed()),
        ("answers", []) => answers(part),
        ("cases", [count, seed]) => write(part.cases(number(part, count)?, seed.parse().ok()?)),
        ("compare", [count, seed, program @ ..]) if !program.is_empty() => {
            let count = number(part, count)?;
            return Some(compare::compare(part, count, seed.parse().ok()?, program));
        }
        _ => return None,
    };
    Some(result.map_err(|error| error.to_string()))
}

/// Makes a frame for counting, or has rav1d work on it.
fn speed(verb: &str, words: &[String]) -> Option<Result<(), String>> {
    let [width, height, depth, kind, seed, times @ ..] = words else {
        return None;
    };
    let frame = [width.parse().ok()?, height.parse().ok()?];
    let is_key = ["inter", "key"].iter().position(|word| word == kind)? == 1;
    let frame = Counted::new(frame, depth.parse().ok()?, is_key, seed.parse().ok()?);
    match (verb, times) {
        ("make", []) => {
            eprint!("{}", frame.tally());
            return Some(write([frame.write()]).map_err(|error| error.to_string()));
        }
        ("filter", [times]) => println!("{:016x}", frame.filter(times.parse().ok()?)),
        ("record", [times]) if !frame.record(times.parse().ok()?) => {
            return Some(Err("the masks or levels differ".into()));
        }
        ("record", [_]) => {}
        _ => return None,
    }
    Some(Ok(()))
}

fn number(part: &dyn Part, count: &str) -> Option<Count> {
    match count {
        "all" => part.all().map(|_| Count::All),
        count => count.parse().ok().map(Count::First),
    }
}

fn write(records: impl IntoIterator<Item = part::Record>) -> io::Result<()> {
    let mut out = BufWriter::with_capacity(BATCH, io::stdout().lock());
    for record in records {
        out.write_all(&record)?;
    }
    out.flush()
}

fn answers(part: &dyn Part) -> io::Result<()> {
    let mut cases = BufReader::with_capacity(BATCH, io::stdin().lock());
    let mut out = BufWriter::with_capacity(BATCH, io::stdout().lock());
    let start = part.sizes().0;
    let mut case = vec![0; start];
    loop {
        case.truncate(start);
        match cases.read(&mut case[..1])? {
            0 => return out.flush(),
            _ => cases.read_exact(&mut case[1..])?,
        }
        case.resize(part.length(&case), 0);
        cases.read_exact(&mut case[start..])?;
        out.write_all(&part.answer(&case))?;
    }
}
