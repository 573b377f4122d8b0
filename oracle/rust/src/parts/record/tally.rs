//! What a case shows. The first three groups count every case, the others those that are accepted.

use super::case::{Block, Case, LAYOUTS, RECORD, TRANSFORMS};
use super::refusal::{self, RANGES};
use crate::part::Group;
use crate::src::tables::dav1d_txfm_dimensions;
use std::cmp::Ordering;

pub const GROUPS: &[Group] = &[
    Group::filled("number", &["0", "4", "5", "6", "7"]),
    Group::not_empty("fault", FAULT_NAMES),
    Group::not_empty("number 7 besides", &["4", "5", "6"]),
    Group::filled("kind", &["intra", "inter"]),
    Group::filled("layout", &["400", "420", "422", "444"]),
    Group::filled("records", &["1", "2", "3", "4"]),
    Group::not_empty("block", BLOCK_NAMES),
    Group::not_empty("luma transform", TRANSFORM_NAMES),
    Group::not_empty("chroma transform", TRANSFORM_NAMES),
    Group::filled(
        "luma",
        &["whole", "cut across", "cut down", "cut both ways", "none"],
    ),
    Group::not_empty("chroma of intra", CHROMA),
    Group::not_empty("chroma of inter", CHROMA),
    Group::not_empty("chroma of intra, 4 luma samples", SIDE),
    Group::not_empty("chroma of inter, 4 luma samples", SIDE),
    Group::not_empty("chroma of intra, at an odd end", SIDE),
    Group::not_empty("chroma of inter, at an odd end", SIDE),
    Group::filled("no pair, chroma transform", &["a code", "none"]),
    Group::filled("intra splits", &["0", "1", "2", "in no stream"]),
    Group::filled("inter transform", &["largest", "4x4 in a larger block"]),
    Group::filled("inter splits, not skipped", &["0", "1", "2"]),
    Group::not_empty(
        "square, of its quarters split again",
        &["none", "1", "2", "3", "4", "several"],
    ),
    Group::not_empty("wide, of its halves split again", AGAIN),
    Group::not_empty("high, of its halves split again", AGAIN),
    Group::not_empty("inner column classes", &["rise", "even", "fall"]),
    Group::not_empty("inner row classes", &["rise", "even", "fall"]),
    Group::filled("skip", &["off", "on"]),
    Group::filled("mode", &["off", "on"]),
    Group::filled("reference", &["0", "1", "2", "3", "4", "5", "6", "7"]),
    Group::filled("top class", &["0", "1", "2"]),
    Group::filled("left class", &["0", "1", "2"]),
    Group::filled("top class in chroma", &["0", "1"]),
    Group::filled("left class in chroma", &["0", "1"]),
    Group::filled("top class from", FROM),
    Group::filled("left class from", FROM),
    Group::filled("top class in chroma from", FROM),
    Group::filled("left class in chroma from", FROM),
    Group::filled("halves of rows", HALVES),
    Group::filled("halves of columns", HALVES),
    Group::filled("halves of chroma rows", HALVES),
    Group::filled("halves of chroma columns", HALVES),
    Group::not_empty("halves of inner rows of intra", INNER),
    Group::not_empty("halves of inner rows of inter", INNER_OF_INTER),
    Group::not_empty("halves of inner columns of intra", INNER),
    Group::not_empty("halves of inner columns of inter", INNER_OF_INTER),
    Group::not_empty("halves of inner chroma rows of intra", INNER),
    Group::not_empty("halves of inner chroma rows of inter", INNER_OF_INTER),
    Group::not_empty("halves of inner chroma columns of intra", INNER),
    Group::not_empty("halves of inner chroma columns of inter", INNER_OF_INTER),
    Group::filled("masks before", &["empty", "used", "used, none new"]),
    Group::filled("stride", ROOM),
    Group::filled("levels lent", ROOM),
    Group::filled("masks lent", ROOM),
    Group::filled("contexts lent", ROOM),
];

const FAULT_NAMES: &[&str] = &[
    "layout",
    "pair at 400",
    "width 0",
    "height 0",
    "width above 16384",
    "height above 16384",
    "block code",
    "transform code",
    "chroma transform code",
    "x no multiple",
    "y no multiple",
    "x past",
    "y past",
    "transform wider",
    "transform higher",
    "chroma transform wider",
    "chroma transform higher",
    "inter transform",
    "reference",
    "above short",
    "left short",
    "above short in chroma",
    "left short in chroma",
    "above value",
    "left value",
    "above value in chroma",
    "left value in chroma",
    "levels",
    "masks",
    "stride",
];

const BLOCK_NAMES: &[&str] = &[
    "4x4", "4x8", "8x4", "8x8", "8x16", "16x8", "16x16", "16x32", "32x16", "32x32", "32x64",
    "64x32", "64x64", "64x128", "128x64", "128x128", "4x16", "16x4", "8x32", "32x8", "16x64",
    "64x16",
];

const TRANSFORM_NAMES: &[&str] = &[
    "4x4", "8x8", "16x16", "32x32", "64x64", "4x8", "8x4", "8x16", "16x8", "16x32", "32x16",
    "32x64", "64x32", "4x16", "16x4", "8x32", "32x8", "16x64", "64x16",
];

const CHROMA: &[&str] = &["no pair", "with luma", "without luma", "none"];
const SIDE: &[&str] = &["across", "down", "both ways"];
const AGAIN: &[&str] = &["none", "1", "2", "both"];
const FROM: &[&str] = &["context", "both", "transform"];
const HALVES: &[&str] = &["first", "second", "both"];
const INNER: &[&str] = &["no inner", "first", "second", "both"];
const INNER_OF_INTER: &[&str] = &["no inner", "first", "second", "both", "skipped"];
const ROOM: &[&str] = &["least", "more"];

impl Block {
    /// The luma transform at a unit of the block, and how often it was split.
    fn leaf(&self, [x, y]: [u32; 2]) -> (u32, usize) {
        let (mut tx, mut depth) = (self.tx, 0);
        while self.is_inter && tx != 0 && depth < 2 {
            let [w, h] = TRANSFORMS[tx as usize];
            if self.tx_masks[depth] >> (y / h * 4 + x / w) & 1 == 0 {
                break;
            }
            tx = dav1d_txfm_dimensions[tx as usize].sub as u32;
            depth += 1;
        }
        (tx, depth)
    }

    /// The recorded units at which an inter block may have another leaf.
    fn grid(&self) -> impl Iterator<Item = [u32; 2]> {
        let ([w, h], step) = (self.recorded()[0], self.grid_step());
        let lines = (0..h).step_by(step[1] as usize);
        lines.flat_map(move |y| (0..w).step_by(step[0] as usize).map(move |x| [x, y]))
    }

    fn grid_step(&self) -> [u32; 2] {
        TRANSFORMS[self.tx as usize].map(|n| n.div_ceil(4))
    }

    /// The deepest split of an inter block's recorded part.
    fn inter_depth(&self) -> usize {
        self.grid().map(|at| self.leaf(at).1).max().unwrap()
    }

    /// Of an inter block's first transform, if it is split: whether it is square, wide or high, and
    /// which part is split again: 0 if none, the last cell if several.
    fn split_again(&self) -> Option<(Ordering, usize)> {
        let [w, h] = TRANSFORMS[self.tx as usize];
        let shape = w.cmp(&h);
        let parts = match shape {
            Ordering::Equal => vec![[0, 0], [w / 2, 0], [0, h / 2], [w / 2, h / 2]],
            Ordering::Greater => vec![[0, 0], [w / 2, 0]],
            Ordering::Less => vec![[0, 0], [0, h / 2]],
        };
        let [across, down] = self.recorded()[0];
        let is_split = |[x, y]: [u32; 2]| x < across && y < down && self.leaf([x, y]).1 == 2;
        let split: Vec<_> = (0..parts.len()).filter(|n| is_split(parts[*n])).collect();
        let cell = match split[..] {
            [] => 0,
            [part] => 1 + part,
            _ => 1 + parts.len(),
        };
        (self.leaf([0, 0]).1 > 0).then_some((shape, cell))
    }

    /// Whether an inter block's classes rise, are even, or fall along an axis.
    fn slope(&self, axis: usize) -> usize {
        let class = |at| class(self.leaf(at).0, axis, 2);
        let mut slopes = self.grid().filter(|at| at[axis] > 0).map(|at| {
            let mut before = at;
            before[axis] -= self.grid_step()[axis];
            class(before).cmp(&class(at))
        });
        let slope = slopes.find(|slope| slope.is_ne());
        (slope.unwrap_or(Ordering::Equal) as i8 + 1) as usize
    }

    /// Whether transforms begin inside the recorded luma along an axis.
    fn has_inner(&self, axis: usize) -> bool {
        let step = |at| TRANSFORMS[self.leaf(at).0 as usize][axis];
        let begins = |at: [u32; 2]| at[axis] > 0 && at[axis].is_multiple_of(step(at));
        match self.is_inter {
            true => self.grid().any(begins),
            false => TRANSFORMS[self.tx as usize][axis] < self.recorded()[0][axis],
        }
    }

    /// How many splits lead from the largest luma transform to the given one: 3 if two do not.
    fn intra_depth(&self) -> usize {
        let mut tx = self.largest_tx();
        (0..3)
            .find(|_| {
                let found = tx == self.tx;
                tx = dav1d_txfm_dimensions[tx as usize].sub as u32;
                found
            })
            .unwrap_or(3)
    }
}

/// The class of a transform along an axis.
fn class(tx: u32, axis: usize, highest: u8) -> u8 {
    (TRANSFORMS[tx as usize][axis].ilog2() as u8).min(highest)
}

pub fn cells(case: &Case, answer: &[u8]) -> Vec<Option<usize>> {
    let b = &case.block;
    let (number, fault) = (case.number(), case.fault());
    let mut cells = vec![
        [0, 4, 5, 6, 7].iter().position(|n| *n == number),
        refusal::faults().position(|(other, _)| Some(other) == fault),
        (case.is_short() && matches!(number, 4..=6)).then(|| usize::from(number) - 4),
    ];
    if number != 0 {
        cells.resize(GROUPS.len(), None);
        return cells;
    }

    let [luma, chroma] = b.recorded();
    let has = [luma, chroma].map(|units| units != [0; 2]);
    let cut = (0..2).filter(|axis| luma[*axis] < b.block_units()[*axis]);
    let cut = match has[0] {
        true => cut.map(|axis| axis + 1).sum(),
        false => 4,
    };
    let pair = match (b.chroma, has) {
        (0, _) => 0,
        (_, [true, true]) => 1,
        (_, [false, true]) => 2,
        _ => 3,
    };
    let records = b.records();
    cells.extend([
        Some(b.is_inter.into()),
        LAYOUTS.iter().position(|layout| *layout == b.layout),
        Some((records[0] * records[1]) as usize - 1),
        Some(b.size as usize),
        has[0].then_some(b.tx as usize),
        has[1].then_some(b.uvtx as usize),
        Some(cut),
    ]);
    // Along which axes, of those in which chroma is subsampled.
    let along = |is_so: &dyn Fn(usize) -> bool| {
        let axes = (0..2).filter(|axis| has[1] && b.ss()[*axis] == 1 && is_so(*axis));
        axes.map(|axis| axis + 1).sum::<usize>().checked_sub(1)
    };
    let is_short = |axis: usize| b.block_units()[axis] == 1;
    let is_at_odd_end = |axis: usize| {
        let end = b.frame_units()[axis];
        end % 2 == 1 && b.place[axis] + b.block_units()[axis] >= end
    };
    let by_kind = |cell: Option<usize>| [cell.filter(|_| !b.is_inter), cell.filter(|_| b.is_inter)];
    cells.extend(by_kind(Some(pair)));
    cells.extend(by_kind(along(&is_short)));
    cells.extend(by_kind(along(&is_at_odd_end)));
    cells.push((b.chroma == 0).then_some((b.uvtx > 18).into()));

    let inter = |cell: usize| b.is_inter.then_some(cell);
    let splits = b.is_inter && has[0];
    let shows = splits && b.skip == 0;
    let split_again = if shows { b.split_again() } else { None };
    let again = |shape| split_again.and_then(|(its, cell)| (its == shape).then_some(cell));
    cells.extend([
        (!b.is_inter && has[0]).then(|| b.intra_depth()),
        (splits && b.size > 0).then(|| (b.tx == 0).into()),
        shows.then(|| b.inter_depth()),
        again(Ordering::Equal),
        again(Ordering::Greater),
        again(Ordering::Less),
        shows.then(|| b.slope(0)),
        shows.then(|| b.slope(1)),
        inter((b.skip != 0).into()),
        inter((b.mode != 0).into()),
        inter(b.reference as usize),
    ]);

    // The block's own edges at its first unit: top in luma, left in luma, top and left in chroma.
    let edge = |n: usize| {
        let tx = if n < 2 { b.leaf([0; 2]).0 } else { b.uvtx };
        let class = class(tx, 1 - n % 2, RANGES[n]);
        (class, case.memory.contexts[n][0])
    };
    let edges = |cell: fn((u8, u8)) -> usize| move |n: usize| has[n / 2].then(|| cell(edge(n)));
    cells.extend((0..4).map(edges(|(class, context)| class.min(context).into())));
    cells.extend((0..4).map(edges(|(class, context)| {
        (context.cmp(&class) as i8 + 1) as usize
    })));
    // The same four passes: in which halves bits lie, and whether inner edges have some there.
    let halves = |n: usize| {
        let (axis, ss) = (n % 2, if n < 2 { 0 } else { b.ss()[n % 2] });
        let first = (b.place[axis] % 32) >> ss;
        let last = first + [luma, chroma][n / 2][axis] - 1;
        match [first, last].map(|bit| bit < 16 >> ss) {
            [true, true] => 0,
            [false, false] => 1,
            _ => 2,
        }
    };
    cells.extend((0..4).map(|n| has[n / 2].then(|| halves(n))));
    for n in 0..4 {
        let across = 1 - n % 2;
        let has_inner = || match n {
            0 | 1 => b.has_inner(across),
            _ => TRANSFORMS[b.uvtx as usize][across] < chroma[across],
        };
        let inner = has[n / 2].then(|| match has_inner() {
            false => 0,
            true if b.is_inter && b.skip != 0 => 4,
            true => 1 + halves(n),
        });
        cells.extend(by_kind(inner));
    }

    let after = Case::answered(answer);
    let at = (b.place[1] / 32 * records[0] + b.place[0] / 32) as usize * RECORD;
    let masks = (has != [false; 2]).then(|| {
        let is_used = case.memory.masks[at..at + RECORD]
            .iter()
            .any(|word| *word != 0);
        match after.masks == case.memory.masks {
            true => 2,
            false => is_used.into(),
        }
    });
    let room = |is_more: bool| Some(usize::from(is_more));
    let along = b.along().map(|n| n as u8);
    cells.extend([
        masks,
        room(b.stride > b.frame_units()[0]),
        room(u64::from(case.lent.levels) > b.levels()),
        room(u64::from(case.lent.masks) > b.masks()),
        room(case.lent.contexts != along),
    ]);
    cells
}
