//! Corrections and both passes on a frame's masks and planes, superblock row after superblock row.

pub mod case;
mod describe;
pub mod filter;
mod fixed;
pub mod make;
mod refusal;
mod script;
pub mod tally;

use crate::part::{Group, Part, Record};
use crate::rng::Rng;
use crate::tally::Tally;
use case::{Call, Case, Kind, Memory, Pass, Step};
use make::Room;
use refusal::{Look, FAULTS};
use tally::Counts;

/// Frames for a program in Rattle, which has no heap, or for one that links the archive.
pub struct Apply(pub Size);

pub enum Size {
    /// Up to four records: part `apply`.
    Small,
    /// 1920 by 1080 samples: part `frames`.
    Large,
}

/// What `replay_apply` has room for.
const ROOM: Room = Room {
    luma: 65536,
    chroma: [65536, 32768],
    levels: 20480,
};

impl Case {
    /// Numbers and memory after all steps. Each call is told with its first fault, and memory before and
    /// after it.
    pub fn run(
        &self,
        mut tell: impl FnMut(&Call, Option<usize>, &Memory, &Memory),
    ) -> (Vec<u8>, Memory) {
        let mut memory = self.memory.clone();
        let mut numbers = vec![];
        let mut at_once = AtOnce::default();
        for step in &self.steps {
            let call = match step {
                Step::Put { part, at, value } => {
                    memory.put(*part, *at, *value);
                    numbers.push(0);
                    at_once = AtOnce::default();
                    continue;
                }
                Step::Call(call) => call,
            };
            let look = Look {
                call,
                is_wide: self.is_wide,
                memory: &memory,
            };
            let fault = look.fault();
            numbers.push(fault.map_or(0, |n| FAULTS[n].1));
            let before = memory.clone();
            if fault.is_none() {
                self.work(call, &mut memory);
                at_once.add(self, call, &before, &memory);
            }
            tell(call, fault, &before, &memory);
        }
        (numbers, memory)
    }
}

/// Corrections of one row, and memory before the first: with columns they are one call of rav1d's.
#[derive(Default)]
struct AtOnce(Vec<Call>, Option<Memory>);

impl AtOnce {
    fn add(&mut self, case: &Case, call: &Call, before: &Memory, after: &Memory) {
        if self.0.first().is_some_and(|first| first.row != call.row) {
            *self = Self::default();
        }
        if call.kind == Kind::Filter(Pass::Columns) && !self.0.is_empty() {
            let mut memory = self.1.take().unwrap();
            case.work_at_once(call, &self.0, &mut memory);
            assert!(
                memory == *after,
                "rav1d's corrections differ from one another"
            );
        }
        match call.kind {
            Kind::Filter(_) => *self = Self::default(),
            _ => {
                self.1.get_or_insert_with(|| before.clone());
                self.0.push(call.clone());
            }
        }
    }
}

impl Part for Apply {
    fn name(&self) -> &'static str {
        match self.0 {
            Size::Small => "apply",
            Size::Large => "frames",
        }
    }

    fn sizes(&self) -> (usize, usize) {
        (case::HEADER, 0)
    }

    fn length(&self, start: &[u8]) -> usize {
        Case::length(start)
    }

    fn fixed(&self) -> Vec<Record> {
        match self.0 {
            Size::Small => fixed::fixed(),
            Size::Large => vec![],
        }
    }

    fn case(&self, number: u64, rng: &mut Rng) -> Record {
        let (frame, rare) = match self.0 {
            Size::Small => (make::frame(&ROOM, rng), rng.pick(&[1, 2, 4])),
            Size::Large => (make::large(number, rng), 2),
        };
        frame.script(rare, rng).write()
    }

    fn answer(&self, case: &[u8]) -> Record {
        let case = Case::read(case);
        let (numbers, after) = case.run(|_, _, _, _| {});
        case.answer(&numbers, &after)
    }

    fn describe(&self, case: &[u8], answers: &[(&str, &[u8])]) -> String {
        describe::describe(&Case::read(case), answers)
    }

    fn groups(&self) -> &'static [Group] {
        match self.0 {
            Size::Small => &tally::GROUPS,
            Size::Large => &tally::LARGE,
        }
    }

    fn cells(&self, _: &[u8], _: &[u8]) -> Vec<Option<usize>> {
        unreachable!("counted call by call")
    }

    fn count(&self, case: &[u8], _answer: &[u8], tally: &mut Tally) {
        let case = Case::read(case);
        let mut counts = Counts::new();
        case.run(|call, fault, before, after| counts.call(&case, call, fault, before, after));
        tally.add_many(&counts.done(&case));
    }
}
