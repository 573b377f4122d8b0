//! One call of a block recorder: levels, masks and contexts before and after.

pub mod case;
mod describe;
mod fault;
mod fixed;
mod make;
pub mod recorder;
mod refusal;
mod tally;
pub mod tiling;

use crate::part::{Group, Part, Record};
use crate::rng::Rng;
use case::Case;
use refusal::ROWS;

pub struct Recording;

impl Part for Recording {
    fn name(&self) -> &'static str {
        "record"
    }

    fn sizes(&self) -> (usize, usize) {
        case::SIZES
    }

    fn fixed(&self) -> Vec<Record> {
        fixed::fixed()
    }

    /// Of 100 cases 12 have a fault, one of them two, 12 are just short of one, 37 are of tilings.
    fn case(&self, number: u64, rng: &mut Rng) -> Record {
        let (round, n) = (number / 100, number % 100);
        let case = match n {
            0 => fault::twice_faulty(rng),
            1..12 => {
                let faults: Vec<_> = refusal::faults().collect();
                let place = (round * 11 + n) % faults.len() as u64;
                fault::faulty(faults[place as usize].0, rng)
            }
            12..24 => fault::neighbour(ROWS[n as usize - 12].1[0], rng),
            24 => make::chroma_alone(rng),
            25..62 => tiling::tiled(rng),
            _ => make::isolated(round * 38 + n, rng),
        };
        case.write()
    }

    fn answer(&self, case: &[u8]) -> Record {
        let case = Case::read(case);
        match case.number() {
            0 => Case::answer(0, &case.after()),
            number => Case::answer(number, &case.memory),
        }
    }

    fn describe(&self, case: &[u8], answers: &[(&str, &[u8])]) -> String {
        describe::describe(&Case::read(case), answers)
    }

    fn groups(&self) -> &'static [Group] {
        tally::GROUPS
    }

    fn cells(&self, case: &[u8], answer: &[u8]) -> Vec<Option<usize>> {
        tally::cells(&Case::read(case), answer)
    }
}
