//! The cases that the gate replays.

use super::refusal::ROWS;
use super::{fault, Case, Recording};
use crate::part::{Part, Record};
use crate::rng::Rng;
use std::cmp::Reverse;
use std::collections::HashSet;

const LEAST: usize = 64;

/// The neighbour of each row of faults, every fault just past its limit, then cases that fill cells of
/// the tally and pairs of cells, intra and inter in turn. No cell stays empty.
pub fn fixed() -> Vec<Record> {
    let mut list = List::default();
    for (_, faults) in ROWS {
        list.add(&|rng| {
            let neighbour = fault::neighbour(faults[0], rng);
            let step = |fault: &_| fault::step(&neighbour, *fault, rng);
            let steps: Option<Vec<_>> = faults.iter().map(step).collect();
            Some([vec![neighbour], steps?].concat())
        });
    }
    let cells = Recording.groups().iter().map(|group| group.cells.len());
    let cells: usize = cells.sum();
    while list.cases.len() < LEAST || singles(&list.filled) < cells {
        let n = list.cases.len();
        list.add(&|rng| {
            let case = Case::read(&Recording.case(rng.next(), rng));
            (case.block.is_inter == (n % 2 > 0)).then_some(vec![case])
        });
    }
    list.cases
}

/// A group and a cell.
type Cell = (usize, usize);

#[derive(Default)]
struct List {
    cases: Vec<Record>,
    /// Two cells of a case, or one cell twice.
    filled: HashSet<[Cell; 2]>,
}

fn singles(pairs: &HashSet<[Cell; 2]>) -> usize {
    pairs.iter().filter(|[a, b]| a == b).count()
}

impl List {
    /// Adds those of many made cases that fill most; of equal ones those with the least memory. Masks and
    /// levels become 0, of every fourth those that are not lent.
    fn add(&mut self, make: &dyn Fn(&mut Rng) -> Option<Vec<Case>>) {
        let seed = self.cases.len() as u64;
        let made = (0..1000).filter_map(|n| make(&mut Rng::new(seed, n)));
        let rated = made.map(|mut cases| {
            for Case { memory, lent, .. } in &mut cases {
                let [masks, levels] = match seed % 4 {
                    0 => [lent.masks, lent.levels].map(|len| len as usize),
                    _ => [0, 0],
                };
                memory.masks[masks..].fill(0);
                memory.levels[levels..].fill(0);
            }
            let filled: HashSet<_> = cases.iter().flat_map(fills).collect();
            let filled = &filled - &self.filled;
            let lent: u32 = cases.iter().map(|c| c.lent.levels + 2 * c.lent.masks).sum();
            let rate = (singles(&filled), filled.len(), Reverse(lent));
            (rate, cases, filled)
        });
        let (_, cases, filled) = rated.max_by_key(|(rate, _, _)| *rate).unwrap();
        self.cases.extend(cases.iter().map(Case::write));
        self.filled.extend(filled);
    }
}

fn fills(case: &Case) -> Vec<[Cell; 2]> {
    let record = case.write();
    let cells = Recording.cells(&record, &Recording.answer(&record));
    let cells = cells.into_iter().enumerate();
    let cells: Vec<Cell> = cells
        .filter_map(|(group, cell)| Some((group, cell?)))
        .collect();
    let pairs = (0..cells.len()).flat_map(|b| (0..=b).map(move |a| [a, b]));
    pairs.map(|pair| pair.map(|n| cells[n])).collect()
}
