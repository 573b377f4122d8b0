//! The frames that the gate replays.

use super::case::{Kind, Pass, KINDS};
use super::make::{made_up, recorded, sized};
use super::refusal::{Above, Fault, FAULTS, PAIRS};
use crate::part::Record;
use crate::rng::Rng;

/// Width, height, layout, superblock, the depth of u16 samples or none, base levels of chroma, and whether
/// masks are recorded.
type Sort = (u32, u32, u32, u32, Option<u32>, [u32; 2], bool);

const SORTS: [Sort; 9] = [
    (125, 118, 400, 64, None, [0, 0], false),
    (90, 101, 420, 64, None, [63, 20], false),
    (130, 67, 420, 64, None, [0, 41], true),
    (128, 128, 422, 64, None, [0, 0], false),
    (69, 127, 444, 64, None, [7, 63], true),
    (128, 77, 400, 64, Some(12), [0, 0], true),
    (99, 122, 420, 64, Some(10), [63, 1], false),
    (43, 50, 422, 128, Some(8), [33, 0], false),
    (127, 71, 444, 64, Some(12), [20, 50], false),
];

/// Whether a call of this kind can have a fault.
fn can_have(kind: Kind, fault: Fault) -> bool {
    use Fault::*;
    match (kind, fault) {
        (_, Layout | NoSide(_) | LongSide(_) | Superblock | ShortMasks | Row) => true,
        (Kind::Filter(pass), Level(_, Above::Yes) | Sample(_, Above::Yes)) => pass == Pass::Rows,
        (Kind::Filter(_), fault) => !matches!(fault, ShortContext(_) | ContextValue(_) | Start),
        (_, ShortContext(_) | ContextValue(_)) => true,
        (kind, fault) => kind == Kind::CorrectColumn && fault == Start,
    }
}

/// Of a fault of the gap rule all pairs; in chroma those one unit apart alone can be too close.
fn pairs(fault: usize) -> impl Iterator<Item = usize> {
    let (end, step) = match FAULTS[fault].0 {
        Fault::Gap(0) => (PAIRS.len(), 1),
        Fault::Gap(_) => (PAIRS.len(), 3),
        _ => (1, 1),
    };
    (0..end).step_by(step)
}

/// Each kind of call has every fault that it can have in front of it somewhere, and each call a store
/// beside the limits of what it looks at.
pub fn fixed() -> Vec<Record> {
    let all = KINDS
        .into_iter()
        .flat_map(|kind| (0..FAULTS.len()).map(move |fault| (kind, fault)));
    let mut left: Vec<_> = all
        .filter(|(kind, fault)| can_have(*kind, FAULTS[*fault].0))
        .flat_map(|(kind, fault)| pairs(fault).map(move |pair| (kind, fault, pair)))
        .collect();
    let mut records = vec![];
    for (n, sort) in SORTS.into_iter().enumerate() {
        let (width, height, layout, superblock, depth, chroma, is_recorded) = sort;
        let (rng, is_wide) = (&mut Rng::new(11, n as u64), depth.is_some());
        let mut call = sized([width, height], layout, is_wide, rng);
        (call.superblock, call.chroma) = (superblock, chroma);
        call.depth = depth.unwrap_or(8);
        let frame = match is_recorded {
            true => recorded(call, is_wide, rng),
            false => made_up(call, is_wide, rng),
        };
        records.push(frame.all_faults(&mut left, rng).write());
    }
    let left: Vec<_> = left
        .iter()
        .map(|(kind, fault, pair)| (kind, FAULTS[*fault].2, pair))
        .collect();
    assert!(left.is_empty(), "no frame has {left:?}");
    records
}
