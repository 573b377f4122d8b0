//! A case in words.

use super::case::{Case, Step, PARTS};
use std::fmt::Write;

/// How many differences are told.
const MOST: usize = 20;

/// All steps with their numbers, and where the answers differ.
pub fn describe(case: &Case, answers: &[(&str, &[u8])]) -> String {
    let answers: Vec<_> = answers
        .iter()
        .map(|(who, answer)| (who, case.answered(answer)))
        .collect();
    let mut text = format!("samples of {} bits\n", if case.is_wide { 16 } else { 8 });
    for (n, step) in case.steps.iter().enumerate() {
        write!(text, "step {n}: ").unwrap();
        match step {
            Step::Put { part, at, value } => {
                writeln!(text, "store {part:?} {at}: {value}").unwrap()
            }
            Step::Call(call) => {
                for (who, (numbers, _, _)) in &answers {
                    write!(text, "{who} {}, ", numbers[n]).unwrap();
                }
                writeln!(text, "{call:?}").unwrap();
            }
        }
    }
    let [(_, first), (_, second)] = &answers[..] else {
        return text;
    };
    let planes = first.2.iter().zip(&second.2);
    let buffers = [(&first.1, &second.1)].into_iter().chain(planes);
    for (part, (a, b)) in PARTS[1..].iter().zip(buffers) {
        let differ = (0..a.len()).filter(|n| a[*n] != b[*n]);
        writeln!(text, "{part:?}: {} differ", differ.clone().count()).unwrap();
        for n in differ.take(MOST) {
            let before = case.memory.get(*part, n);
            writeln!(text, "  {n}: before {before}, {} and {}", a[n], b[n]).unwrap();
        }
    }
    text
}
