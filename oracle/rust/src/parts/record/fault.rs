//! Cases that 01 refuses, and their neighbours.

use super::case::{Case, LEVELS, RECORD, TRANSFORMS};
use super::make::{flag, isolated, up_to};
use super::refusal::{Fault, RANGES, ROWS};
use crate::rng::Rng;
use Fault::*;

/// A case whose first fault is this one, most often just past the limit.
pub fn faulty(fault: Fault, rng: &mut Rng) -> Case {
    loop {
        let mut case = isolated(rng.next(), rng);
        spoil(&mut case, fault, rng);
        if case.fault() == Some(fault) {
            return case;
        }
    }
}

/// A case with faults of two numbers, if both can be put in.
pub fn twice_faulty(rng: &mut Rng) -> Case {
    let numbers = rng.pick(&[[4, 5], [4, 6], [4, 7], [5, 6], [5, 7], [6, 7]]);
    let [first, second] = numbers.map(|number| loop {
        let (its, faults) = rng.pick(&ROWS);
        if its == number {
            break rng.pick(faults);
        }
    });
    let mut case = isolated(rng.next(), rng);
    spoil(&mut case, second, rng);
    spoil(&mut case, first, rng);
    case
}

/// A case just short of a fault. It is accepted, but for a frame of 16384, which no case has room for.
pub fn neighbour(fault: Fault, rng: &mut Rng) -> Case {
    loop {
        let mut case = isolated(rng.next(), rng);
        if bring_near(&mut case, fault) {
            return case;
        }
    }
}

/// The neighbour with the fault just past the limit, if a few tries find it.
pub fn step(neighbour: &Case, fault: Fault, rng: &mut Rng) -> Option<Case> {
    let mut tries = (0..100).map(|_| {
        let mut case = neighbour.clone();
        just_past(&mut case, fault, rng);
        case
    });
    tries.find(|case| case.fault() == Some(fault))
}

fn spoil(case: &mut Case, fault: Fault, rng: &mut Rng) {
    match rng.once_in(3) {
        true => far_past(case, fault, rng),
        false => just_past(case, fault, rng),
    }
}

/// Puts in a fault just past the limit, or tries to.
fn just_past(case: &mut Case, fault: Fault, rng: &mut Rng) {
    let (b, lent) = (&mut case.block, &mut case.lent);
    match fault {
        Layout => b.layout = rng.pick(&[399, 401, 419, 421, 423, 443, 445]),
        PairAt400 => (b.layout, b.chroma) = (400, flag(true, rng)),
        NoSide(axis) => b.frame[axis] = 0,
        LongSide(axis) => b.frame[axis] = 16385,
        Size => b.size = 22,
        Tx => b.tx = 19,
        UvTx => b.uvtx = 19,
        Step(axis) => b.place[axis] += 1,
        Past(axis) => {
            let units = b.block_units()[axis];
            b.place[axis] = b.frame_units()[axis] / units * units + units;
        }
        TxSide(_) | InterTx => b.tx = up_to(18, rng),
        UvTxSide(_) => b.uvtx = up_to(18, rng),
        Reference => b.reference = 8,
        Short(n) => lent.contexts[n] = b.along()[n].saturating_sub(1) as u8,
        Value(n) => {
            let last = b.along()[n].saturating_sub(1);
            case.memory.contexts[n][last] = RANGES[n] + 1;
        }
        Levels => lent.levels = b.levels() as u32 - 1,
        Masks => lent.masks = b.masks() as u32 - 1,
        Stride => b.stride = b.frame_units()[0] - 1,
    }
}

/// Puts in a fault further past the limit, or tries to.
fn far_past(case: &mut Case, fault: Fault, rng: &mut Rng) {
    let (b, lent) = (&mut case.block, &mut case.lent);
    let any = rng.next() as u32;
    // A number with low bytes that are legal, or one of the last of all.
    let mut far = |last| rng.pick(&[256, 65536, 1 << 31, u32::MAX - last]) + any % (last + 1);
    match fault {
        Layout => b.layout = rng.pick(&[0, 411, 440, 65536 + 420, u32::MAX]),
        LongSide(axis) => b.frame[axis] = far(16384),
        Size => b.size = far(21),
        Tx => b.tx = far(18),
        UvTx => b.uvtx = far(18),
        Step(axis) => b.place[axis] += b.block_units()[axis] / 2,
        Past(axis) => b.place[axis] = 0u32.wrapping_sub(b.block_units()[axis]),
        Reference => b.reference = far(7),
        Short(n) => lent.contexts[n] = 0,
        Value(n) => {
            let along = b.along()[n].max(1);
            case.memory.contexts[n][any as usize % along] = rng.pick(&[128, 255]);
        }
        Levels => match rng.once_in(2) {
            true => b.stride = rng.pick(&[LEVELS as u32, 1 << 30, u32::MAX]),
            false => b.frame[1] = 16384,
        },
        Masks => match rng.once_in(2) {
            true => lent.masks = any % b.masks() as u32 / RECORD as u32 * RECORD as u32,
            false => {
                // Five records, whose levels fit.
                (b.frame[0], b.stride) = (513, 129);
                lent.levels = LEVELS as u32;
            }
        },
        Stride => b.stride = any % b.frame_units()[0],
        _ => just_past(case, fault, rng),
    }
}

/// Brings a case to the limit of all faults of this one's row, if that can be done.
fn bring_near(case: &mut Case, fault: Fault) -> bool {
    let (b, lent) = (&mut case.block, &mut case.lent);
    match fault {
        Layout | PairAt400 => {
            (b.layout, b.chroma) = (400, 0);
            true
        }
        NoSide(_) => {
            (b.frame, b.place) = ([1; 2], [0; 2]);
            true
        }
        LongSide(_) => {
            (b.frame, b.place) = ([16384; 2], [0; 2]);
            case.number() == 7
        }
        Size | Tx => b.size == 21 && b.tx == 18,
        UvTx => b.chroma != 0 && b.uvtx == 18,
        Step(_) => !b.block_units().contains(&1) && !b.place.contains(&0),
        Past(axis) => b.place[axis] == b.frame_units()[axis],
        TxSide(_) | UvTxSide(_) => {
            let uvtx = || TRANSFORMS[b.uvtx as usize];
            let is_whole = TRANSFORMS[b.tx as usize] == b.block_units();
            is_whole && b.chroma != 0 && uvtx() == b.chroma_units()
        }
        InterTx | Reference => {
            b.reference = 7;
            b.is_inter && b.size > 0
        }
        Short(_) | Value(_) => {
            for (n, along) in b.along().into_iter().enumerate() {
                let Some(last) = along.checked_sub(1) else {
                    return false;
                };
                lent.contexts[n] = along as u8;
                let context = &mut case.memory.contexts[n];
                context[last] = RANGES[n];
                context[along..].fill(RANGES[n] + 1);
            }
            true
        }
        Levels | Masks | Stride => {
            b.stride = b.frame_units()[0];
            (lent.levels, lent.masks) = (b.levels() as u32, b.masks() as u32);
            true
        }
    }
}
