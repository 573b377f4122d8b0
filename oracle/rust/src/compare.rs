use crate::part::{Count, Part};
use crate::tally::Tally;
use std::io::{self, BufReader, BufWriter, Read, Write};
use std::process::{ChildStdin, ChildStdout, Command, Stdio};
use std::sync::mpsc::{self, RecvTimeoutError, Sender};
use std::thread;
use std::time::{Duration, Instant};

/// How long a program may be silent before it is ended.
const PATIENCE: Duration = Duration::from_secs(60);

/// How often a run says how far it is.
const PROGRESS: Duration = Duration::from_secs(10);

/// How many bytes go through a pipe at once.
pub const BATCH: usize = 1 << 16;

/// A run: some cases of a part.
#[derive(Clone, Copy)]
struct Run<'a> {
    part: &'a dyn Part,
    count: Count,
    seed: u64,
}

/// Pipes cases through a program and holds its answers to rav1d's. An error says what differs.
pub fn compare(part: &dyn Part, count: Count, seed: u64, program: &[String]) -> Result<(), String> {
    let mut child = Command::new(&program[0])
        .args(&program[1..])
        .stdin(Stdio::piped())
        .stdout(Stdio::piped())
        .spawn()
        .map_err(|error| format!("{}: {error}", program[0]))?;
    let (to, from) = (child.stdin.take().unwrap(), child.stdout.take().unwrap());
    let (progress, heard) = mpsc::channel();
    // The same cases are made twice, to be written and to be compared.
    let run = Run { part, count, seed };
    let (tally, fed) = thread::scope(|scope| {
        let feed = scope.spawn(move || run.feed(to));
        let hold = scope.spawn(move || run.hold(from, progress));
        let mut printed = Instant::now();
        loop {
            match heard.recv_timeout(PATIENCE) {
                Ok(cases) if printed.elapsed() >= PROGRESS => {
                    let [done, all] = [cases, run.all()].map(grouped);
                    eprintln!("{}: {done} of {all} cases", part.name());
                    printed = Instant::now();
                }
                Ok(_) => {}
                Err(RecvTimeoutError::Timeout) => drop(child.kill()),
                Err(RecvTimeoutError::Disconnected) => break,
            }
        }
        let tally = hold.join().unwrap();
        if tally.is_err() {
            drop(child.kill());
        }
        (tally, feed.join().unwrap())
    });
    let status = child.wait().map_err(|error| error.to_string())?;
    let tally = tally?;
    fed.map_err(|error| format!("the program does not read its cases: {error}"))?;
    if !status.success() {
        return Err(format!("the program ended with {status}"));
    }
    tally.print();
    let empty = tally.nearly_empty();
    if !empty.is_empty() {
        return Err(format!("nearly empty: {}", empty.join("; ")));
    }
    println!("{} cases, 0 differ", tally.cases());
    Ok(())
}

/// With a comma after every thousand.
fn grouped(number: u64) -> String {
    match number {
        0..=999 => number.to_string(),
        _ => format!("{},{:03}", grouped(number / 1000), number % 1000),
    }
}

impl Run<'_> {
    /// How many cases there are.
    fn all(self) -> u64 {
        match self.count {
            Count::All => self.part.all().map_or(0, |all| all.len() as u64),
            Count::First(count) => count,
        }
    }

    fn feed(self, to: ChildStdin) -> io::Result<()> {
        let mut to = BufWriter::with_capacity(BATCH, to);
        for case in self.part.cases(self.count, self.seed) {
            to.write_all(&case)?;
        }
        to.flush()
    }

    fn hold(self, from: ChildStdout, progress: Sender<u64>) -> Result<Tally, String> {
        let part = self.part;
        let mut from = BufReader::with_capacity(BATCH, from);
        let mut tally = Tally::new(part);
        let mut theirs = vec![];
        for case in part.cases(self.count, self.seed) {
            let (number, ours) = (tally.cases(), part.answer(&case));
            theirs.resize(ours.len(), 0);
            if from.read_exact(&mut theirs).is_err() {
                let case = part.describe(&case, &[("expected", &ours)]);
                let why = format!("the program ended or was silent for {PATIENCE:?}");
                return Err(format!("case {number} has no answer, {why}:\n{case}"));
            }
            if ours != theirs {
                let answers: [(_, &[u8]); 2] = [("expected", &ours), ("program", &theirs)];
                let case = part.describe(&case, &answers);
                return Err(format!("case {number} differs:\n{case}"));
            }
            part.count(&case, &ours, &mut tally);
            progress.send(tally.cases()).unwrap();
        }
        match from.read(&mut [0]) {
            Ok(0) => Ok(tally),
            _ => Err("the program writes on after its last answer".into()),
        }
    }
}
