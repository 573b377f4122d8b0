//! Document 01's table of numbers, row by row.

use super::case::{Case, BLOCKS, LAYOUTS, TRANSFORMS};

/// What 01 refuses. 0 and 1 are across and down; contexts are 0 to 3.
#[derive(Clone, Copy, PartialEq)]
pub enum Fault {
    Layout,
    PairAt400,
    NoSide(usize),
    LongSide(usize),
    Size,
    Tx,
    UvTx,
    Step(usize),
    Past(usize),
    TxSide(usize),
    UvTxSide(usize),
    InterTx,
    Reference,
    Short(usize),
    Value(usize),
    Levels,
    Masks,
    Stride,
}

use Fault::*;

/// Faults and their numbers, the lowest first, and each fault after those that it builds on. Faults of
/// one row have a neighbour in common.
pub const ROWS: [(u8, &[Fault]); 12] = [
    (4, &[Layout, PairAt400]),
    (4, &[NoSide(0), NoSide(1)]),
    (4, &[LongSide(0), LongSide(1)]),
    (5, &[Size, Tx]),
    (5, &[UvTx]),
    (5, &[Step(0), Step(1)]),
    (5, &[Past(0)]),
    (5, &[Past(1)]),
    (5, &[TxSide(0), TxSide(1), UvTxSide(0), UvTxSide(1)]),
    (5, &[InterTx, Reference]),
    (
        6,
        &[
            Short(0),
            Short(1),
            Short(2),
            Short(3),
            Value(0),
            Value(1),
            Value(2),
            Value(3),
        ],
    ),
    (7, &[Levels, Masks, Stride]),
];

/// Every fault with its number.
pub fn faults() -> impl Iterator<Item = (Fault, u8)> {
    let rows = ROWS.into_iter();
    rows.flat_map(|(number, faults)| faults.iter().map(move |fault| (*fault, number)))
}

/// The highest value of each context.
pub const RANGES: [u8; 4] = [2, 2, 1, 1];

impl Fault {
    /// Whether a case has the fault, if it has none of those before.
    fn is_in(self, case: &Case) -> bool {
        let (b, lent) = (&case.block, &case.lent);
        let has_pair = b.chroma != 0;
        match self {
            Layout => !LAYOUTS.contains(&b.layout),
            PairAt400 => has_pair && b.layout == 400,
            NoSide(axis) => b.frame[axis] == 0,
            LongSide(axis) => b.frame[axis] > 16384,
            Size => b.size as usize >= BLOCKS.len(),
            Tx => b.tx as usize >= TRANSFORMS.len(),
            UvTx => has_pair && b.uvtx as usize >= TRANSFORMS.len(),
            Step(axis) => b.place[axis] % b.block_units()[axis] != 0,
            Past(axis) => b.place[axis] > b.frame_units()[axis],
            TxSide(axis) => TRANSFORMS[b.tx as usize][axis] > b.block_units()[axis],
            UvTxSide(axis) => {
                has_pair && TRANSFORMS[b.uvtx as usize][axis] > b.chroma_units()[axis]
            }
            InterTx => b.is_inter && b.tx != b.largest_tx() && b.tx != 0,
            Reference => b.is_inter && b.reference > 7,
            Short(n) => usize::from(lent.contexts[n]) < b.along()[n],
            Value(n) => {
                let along = &case.memory.contexts[n][..b.along()[n]];
                along.iter().any(|value| *value > RANGES[n])
            }
            Levels => b.levels() > lent.levels.into(),
            Masks => b.masks() > lent.masks.into(),
            Stride => b.stride < b.frame_units()[0],
        }
    }
}

impl Case {
    /// The first fault, whose number is the lowest.
    fn first(&self) -> Option<(Fault, u8)> {
        faults().find(|(fault, _)| fault.is_in(self))
    }

    pub fn fault(&self) -> Option<Fault> {
        self.first().map(|(fault, _)| fault)
    }

    /// The number that 01 asks for.
    pub fn number(&self) -> u8 {
        self.first().map_or(0, |(_, number)| number)
    }

    /// Whether number 7 holds, with others or alone.
    pub fn is_short(&self) -> bool {
        [Levels, Masks, Stride]
            .iter()
            .any(|fault| fault.is_in(self))
    }
}
