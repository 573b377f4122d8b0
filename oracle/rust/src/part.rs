use crate::rng::Rng;
use crate::tally::Tally;

/// A case or an answer as FORMATS.md has it.
pub type Record = Vec<u8>;

/// A line of the tally: a case falls into one of the cells, or into none.
#[derive(Clone, Copy)]
pub struct Group {
    pub name: &'static str,
    pub cells: &'static [&'static str],
    pub least: Least,
}

/// What each cell of a group must hold, or a run fails.
#[derive(Clone, Copy)]
pub enum Least {
    Nothing,
    OneCase,
    Percent,
    /// One percent of what the group holds.
    Share,
}

impl Group {
    pub const fn filled(name: &'static str, cells: &'static [&'static str]) -> Self {
        Self {
            name,
            cells,
            least: Least::Percent,
        }
    }

    /// For many cells.
    pub const fn not_empty(name: &'static str, cells: &'static [&'static str]) -> Self {
        Self {
            name,
            cells,
            least: Least::OneCase,
        }
    }

    /// For a group of which a case fills many cells.
    pub const fn shared(name: &'static str, cells: &'static [&'static str]) -> Self {
        Self {
            name,
            cells,
            least: Least::Share,
        }
    }

    pub const fn counted(name: &'static str, cells: &'static [&'static str]) -> Self {
        Self {
            name,
            cells,
            least: Least::Nothing,
        }
    }
}

/// A part of the port: its cases, rav1d's answers to them, and how they read in words.
pub trait Part: Sync {
    fn name(&self) -> &'static str;

    /// How many bytes a case and an answer have, or where that varies the start of each.
    fn sizes(&self) -> (usize, usize);

    /// How many bytes the case has that starts so.
    fn length(&self, _start: &[u8]) -> usize {
        self.sizes().0
    }

    /// Every case, if they are few.
    fn all(&self) -> Option<Vec<Record>> {
        None
    }

    /// The cases that the gate replays.
    fn fixed(&self) -> Vec<Record>;

    /// The case of this number in a run.
    fn case(&self, number: u64, rng: &mut Rng) -> Record;

    /// The answer of rav1d, or the refusal that document 01 asks for.
    fn answer(&self, case: &[u8]) -> Record;

    /// The whole case in words, with answers and whose they are.
    fn describe(&self, case: &[u8], answers: &[(&str, &[u8])]) -> String;

    fn groups(&self) -> &'static [Group];

    /// The cell of each group that a case falls into.
    fn cells(&self, case: &[u8], answer: &[u8]) -> Vec<Option<usize>>;

    /// Counts a case, which may fill several cells of a group.
    fn count(&self, case: &[u8], answer: &[u8], tally: &mut Tally) {
        tally.add(&self.cells(case, answer));
    }

    /// The first `count` cases of a seed, or all cases there are.
    fn cases(&self, count: Count, seed: u64) -> Box<dyn Iterator<Item = Record> + '_> {
        match count {
            Count::All => Box::new(self.all().expect("a part with all cases").into_iter()),
            Count::First(count) => {
                Box::new((0..count).map(move |n| self.case(n, &mut Rng::new(seed, n))))
            }
        }
    }
}

#[derive(Clone, Copy)]
pub enum Count {
    All,
    First(u64),
}
