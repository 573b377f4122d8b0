//! A case in words.

use super::case::{Case, Memory, LUMA, RECORD};
use std::fmt::Write;

/// Memory line by line: a name, and what it holds.
fn lines(case: &Case, memory: &Memory) -> Vec<(String, String)> {
    let hex = |bytes: &[u8]| bytes.iter().map(|b| format!("{b:02x}")).collect::<String>();
    let note = |is_lent: bool| if is_lent { "" } else { " (not lent)" };
    let mut lines = vec![];
    let names = ["above", "left", "above in chroma", "left in chroma"];
    for (n, name) in names.into_iter().enumerate() {
        let (lent, rest) = memory.contexts[n].split_at(case.lent.contexts[n].into());
        lines.push((format!("context {name}"), format!("{lent:?}")));
        lines.push((format!("context {name} (not lent)"), hex(rest)));
    }
    // One place across the pass: each class with its two halves.
    for (record, masks) in memory.masks.chunks(RECORD).enumerate() {
        let (luma, chroma) = masks.split_at(LUMA);
        for (plane, masks, classes, start) in [("luma", luma, 3, 0), ("chroma", chroma, 2, LUMA)] {
            for (n, words) in masks.chunks(2 * classes).enumerate() {
                let at = record * RECORD + start + n * 2 * classes;
                let (pass, unit) = (["columns", "rows"][n / 32], n % 32);
                let note = note(at < case.lent.masks as usize);
                let halves = words
                    .chunks(2)
                    .map(|w| format!("{:04x} {:04x}", w[0], w[1]));
                lines.push((
                    format!("masks of record {record}, {plane} {pass}, unit {unit}{note}"),
                    halves.collect::<Vec<_>>().join(" | "),
                ));
            }
        }
    }
    let stride = 4 * case.block.stride.clamp(1, 128) as usize;
    for (n, units) in memory.levels.chunks(stride).enumerate() {
        let note = note(n * stride < case.lent.levels as usize);
        lines.push((
            format!("levels of line {n}{note}"),
            units.chunks(4).map(hex).collect::<Vec<_>>().join(" "),
        ));
    }
    lines
}

/// All scalars, the lent contexts, and each line of memory that an answer changes.
pub fn describe(case: &Case, answers: &[(&str, &[u8])]) -> String {
    let (b, lent) = (&case.block, &case.lent);
    let kind = if b.is_inter { "inter" } else { "intra" };
    let mut text = format!(
        "{kind}: frame {:?} samples, layout {}, place {:?}, block {}, transform {}\n\
         chroma {}, chroma transform {}\n\
         skip {}, mode {}, reference {}, tx_masks {:04x?}\n\
         stride {}, lent: levels {}, masks {}, contexts {:?}\n",
        b.frame,
        b.layout,
        b.place,
        b.size,
        b.tx,
        b.chroma,
        b.uvtx,
        b.skip,
        b.mode,
        b.reference,
        b.tx_masks,
        b.stride,
        lent.levels,
        lent.masks,
        lent.contexts,
    );
    for (kind, values) in b.values.chunks(16).enumerate() {
        writeln!(text, "values of kind {kind}: {values:?}").unwrap();
    }
    for (who, answer) in answers {
        writeln!(text, "{who}: number {}", answer[0]).unwrap();
    }
    let after = answers.iter().map(|(_, answer)| Case::answered(answer));
    let after: Vec<_> = after.map(|memory| lines(case, &memory)).collect();
    for (n, (name, before)) in lines(case, &case.memory).iter().enumerate() {
        let is_context = name.starts_with("context") && !name.ends_with(')');
        if is_context || after.iter().any(|lines| lines[n].1 != *before) {
            writeln!(text, "{name}:\n  before {before}").unwrap();
            for ((who, _), lines) in answers.iter().zip(&after) {
                writeln!(text, "  {who} {}", lines[n].1).unwrap();
            }
        }
    }
    text
}
