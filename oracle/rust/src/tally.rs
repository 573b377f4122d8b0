use crate::part::{Group, Least, Part};

/// How many cases fell into each cell of each group.
pub struct Tally {
    groups: &'static [Group],
    counts: Vec<Vec<u64>>,
    cases: u64,
}

impl Tally {
    pub fn new(part: &dyn Part) -> Self {
        let groups = part.groups();
        Self {
            groups,
            counts: groups.iter().map(|g| vec![0; g.cells.len()]).collect(),
            cases: 0,
        }
    }

    pub fn add(&mut self, cells: &[Option<usize>]) {
        assert_eq!(cells.len(), self.groups.len());
        self.cases += 1;
        for (counts, cell) in self.counts.iter_mut().zip(cells) {
            if let Some(cell) = *cell {
                counts[cell] += 1;
            }
        }
    }

    /// Counts a case by so many in each cell of each group.
    pub fn add_many(&mut self, counts: &[Vec<u64>]) {
        assert_eq!(counts.len(), self.groups.len());
        self.cases += 1;
        for (to, from) in self.counts.iter_mut().zip(counts) {
            for (to, from) in to.iter_mut().zip(from) {
                *to += from;
            }
        }
    }

    pub fn cases(&self) -> u64 {
        self.cases
    }

    pub fn print(&self) {
        for (group, counts) in self.groups.iter().zip(&self.counts) {
            let cells = group.cells.iter().zip(counts);
            let cells: Vec<_> = cells.map(|(cell, n)| format!("{cell} {n}")).collect();
            println!("{}: {}", group.name, cells.join(", "));
        }
    }

    /// The cells that hold too little.
    pub fn nearly_empty(&self) -> Vec<String> {
        let groups = self.groups.iter().zip(&self.counts);
        let cells = groups.flat_map(|(group, counts)| {
            let least = match group.least {
                Least::Nothing => 0,
                Least::OneCase => 1,
                Least::Percent => self.cases.div_ceil(100),
                Least::Share => counts.iter().sum::<u64>().div_ceil(100),
            };
            let cells = group.cells.iter().zip(counts);
            let few = cells.filter(move |(_, n)| **n < least);
            few.map(|(cell, _)| format!("{}: {cell}", group.name))
        });
        cells.collect()
    }
}
