//! One line of samples across an edge.

pub mod case;
mod filter;
mod make;

use crate::include::common::bitdepth::{BitDepth16, BitDepth8};
use crate::part::{Group, Part, Record};
use crate::rng::Rng;
use case::{Case, Test::*};
use make::{DEPTHS, WIDTHS};
use std::array::from_fn;
use std::fmt::Write;

pub struct Line;

impl Part for Line {
    fn name(&self) -> &'static str {
        "line"
    }

    fn sizes(&self) -> (usize, usize) {
        (32, 32)
    }

    /// C6 to C11 of document 01, two lines in which p1 or q1 is clipped, then made cases.
    fn fixed(&self) -> Vec<Record> {
        let four = |near: [u16; 4]| from_fn(|n| near[n.clamp(5, 8) - 5]);
        let step = |p, q| from_fn(|n| if n < 7 { p } else { q });
        let named = [
            (4, 8, 32, four([100, 100, 110, 110])),
            (4, 8, 32, four([90, 100, 110, 110])),
            (4, 8, 32, four([100, 100, 141, 141])),
            (4, 8, 32, four([100, 100, 140, 140])),
            (8, 10, 32, step(100, 104)),
            (16, 12, 32, step(0, 16)),
            (4, 8, 63, four([255, 252, 255, 255])),
            (4, 8, 63, four([0, 0, 3, 0])),
        ];
        let named = named.map(|(width, depth, level, samples)| Case {
            width,
            depth,
            level,
            sharpness: 0,
            samples,
        });
        let made = (0..960).map(|n| self.case(n, &mut Rng::new(0, n)));
        named.iter().map(Case::write).chain(made).collect()
    }

    fn case(&self, number: u64, rng: &mut Rng) -> Record {
        make::make(number, rng).write()
    }

    fn answer(&self, case: &[u8]) -> Record {
        let mut rng = Rng::new(0, 0);
        for byte in case {
            rng = Rng::new(rng.next(), u64::from(*byte));
        }
        let case = Case::read(case);
        let after = match case.depth {
            8 => filter::filter::<BitDepth8>(&case, &mut rng),
            _ => filter::filter::<BitDepth16>(&case, &mut rng),
        };
        let mut answer = after.map(u16::to_le_bytes).as_flattened().to_vec();
        answer.resize(self.sizes().1, 0);
        answer
    }

    fn describe(&self, case: &[u8], answers: &[(&str, &[u8])]) -> String {
        let words = |samples: &[u8]| {
            let words = samples[..28].chunks(2);
            let words = words.map(|b| u16::from_le_bytes([b[0], b[1]]).to_string());
            let words: Vec<_> = words.collect();
            format!("{} | {}", words[..7].join(" "), words[7..].join(" "))
        };
        let before = words(&case[4..]);
        let case = Case::read(case);
        let t = case.thresholds();
        let mut text = format!(
            "width {}, depth {}, level {}, sharpness {}, by the standard: {}\n\
             at this depth limit {}, blimit {}, thresh {}, flat {}\n\
             p6 .. p0 | q0 .. q6\nbefore {before}\n",
            case.width,
            case.depth,
            case.level,
            case.sharpness,
            GROUPS[0].cells[case.kind() as usize],
            t.limit,
            t.blimit,
            t.thresh,
            t.one,
        );
        for (who, answer) in answers {
            writeln!(text, "{who} {}", words(answer)).unwrap();
        }
        text
    }

    fn groups(&self) -> &'static [Group] {
        GROUPS
    }

    fn cells(&self, record: &[u8], answer: &[u8]) -> Vec<Option<usize>> {
        let case = Case::read(record);
        let kind = case.kind() as usize;
        let changed = (0..14).filter(|n| record[4 + 2 * n..][..2] != answer[2 * n..][..2]);
        let a_side = [0, 1, 2, 2, 3, 6][kind];
        let is_near = |n| (7 - a_side..7 + a_side).contains(&n);
        assert!(changed.clone().all(is_near), "rav1d changed a far sample");

        let place = |list: &[u8], value| list.iter().position(|n| *n == value);
        let level = match case.level {
            0 => 0,
            level => 1 + usize::from(level) / 16,
        };
        let mut cells = vec![
            Some(kind),
            place(&WIDTHS, case.width),
            place(&DEPTHS, case.depth),
            Some(level),
            Some(case.sharpness.into()),
            Some(changed.count()),
        ];
        let tests = [First, Combined, Second, Third, Flat, Flat2, Hev];
        cells.extend(tests.map(|test| case.decides(test)));
        cells
    }
}

const GROUPS: &[Group] = &[
    Group::filled(
        "kind",
        &[
            "kept",
            "two changed",
            "four changed",
            "wide 6",
            "wide 8",
            "wide 16",
        ],
    ),
    Group::filled("width", &["4", "6", "8", "16"]),
    Group::filled("depth", &["8", "10", "12"]),
    Group::counted("level", &["0", "1..15", "16..31", "32..47", "48..63"]),
    Group::filled("sharpness", &["0", "1", "2", "3", "4", "5", "6", "7"]),
    Group::counted(
        "samples changed",
        &[
            "0", "1", "2", "3", "4", "5", "6", "7", "8", "9", "10", "11", "12",
        ],
    ),
    decided("decided by p1-p0 or q1-q0"),
    decided("decided by p0-q0 and p1-q1"),
    decided("decided by p2-p1 or q2-q1"),
    decided("decided by p3-p2 or q3-q2"),
    decided("decided by flat"),
    decided("decided by flat2"),
    decided("decided by hev"),
];

const fn decided(name: &'static str) -> Group {
    Group::filled(name, &["just met", "just missed"])
}
