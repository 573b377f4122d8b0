//! Lines of every sort: most random lines fail the limit test and show nothing.

use super::case::{Case, Test};
use crate::rng::Rng;
use std::array::from_fn;

pub const WIDTHS: [u8; 4] = [4, 6, 8, 16];
pub const DEPTHS: [u8; 3] = [8, 10, 12];

/// p and q by their distance from the edge, wherever 0 may lie.
type Sides = [[i32; 7]; 2];

pub fn make(number: u64, rng: &mut Rng) -> Case {
    let [width, depth, sort] = [number % 4, number / 4 % 3, number / 12 % 10];
    let (lowest, sharpest) = (rng.pick(&[0, 1, 1, 1]), rng.pick(&[0, 7, 7]));
    let mut case = Case {
        width: WIDTHS[width as usize],
        depth: DEPTHS[depth as usize],
        level: rng.range(lowest, 63) as u8,
        sharpness: rng.range(0, sharpest) as u8,
        samples: [0; 14],
    };
    let t = case.thresholds();
    // With a small gap, and close to 0 or the maximum, results are clipped.
    let gap = rng.pick(&[t.blimit * 2 / 5, t.limit, t.thresh]);
    let sides = match sort {
        0 => any(case.maximum().into(), rng),
        1 => walk(t.one, gap, rng),
        2 => walk(t.thresh.max(1), gap, rng),
        3 => walk(t.limit, gap, rng),
        4 => flat(t.one, t.one, gap, rng),
        5 => flat(t.one, rng.pick(&[t.one + 1, t.limit]), gap, rng),
        _ => at_threshold(&case, rng),
    };
    place(&mut case, sides, rng);
    if rng.once_in(2) {
        hide(&mut case, rng);
    }
    case
}

fn any(maximum: i32, rng: &mut Rng) -> Sides {
    from_fn(|_| from_fn(|_| rng.range(0, maximum)))
}

/// Walks away from the edge in steps up to `step`, with a gap at the edge up to `gap`.
fn walk(step: i32, gap: i32, rng: &mut Rng) -> Sides {
    [0, rng.range(-gap, gap)].map(|edge| {
        let mut side = [edge; 7];
        for k in 1..7 {
            side[k] = side[k - 1] + rng.range(-step, step);
        }
        side
    })
}

/// Stays up to `near` from the samples at the edge as far as p3 and q3, then up to `far`.
fn flat(near: i32, far: i32, gap: i32, rng: &mut Rng) -> Sides {
    [0, rng.range(-gap, gap)].map(|edge| {
        let reach = [0, near, near, near, far, far, far];
        reach.map(|reach| edge + rng.range(-reach, reach))
    })
}

/// The tests that a width asks for; what few widths ask for stands more often.
fn tests(width: u8) -> &'static [Test] {
    use Test::*;
    match width {
        4 => &[First, Combined, Hev],
        6 => &[First, Combined, Second, Second, Flat, Hev],
        8 => &[First, Combined, Second, Second, Third, Third, Flat, Hev],
        _ => &[
            First, Combined, Second, Third, Third, Flat, Flat2, Flat2, Flat2, Hev,
        ],
    }
}

/// Meets one test just so, or by one more, or misses it by one, and passes most of the others.
fn at_threshold(case: &Case, rng: &mut Rng) -> Sides {
    let t = case.thresholds();
    let past = rng.pick(&[-1, 0, 0, 1, 1]);
    let side = rng.range(0, 1) as usize;
    let mut sides = flat(0, 0, t.blimit / 4, rng);
    if rng.once_in(2) && t.limit > t.one {
        // The other side is not flat.
        for sample in &mut sides[1 - side][2..] {
            *sample += t.one + 1;
        }
    }
    let (places, by) = match rng.pick(tests(case.width)) {
        Test::First => (1..7, t.limit),
        Test::Second => (2..7, t.limit),
        Test::Third => (3..7, t.limit),
        Test::Hev => (1..7, t.thresh),
        Test::Combined => return at_combined(case, t.blimit + past, rng),
        Test::Flat => (one_of(1..4, rng), t.one),
        Test::Flat2 => (one_of(4..7, rng), t.one),
    };
    let by = rng.pick(&[-1, 1]) * (by + past).max(0);
    for sample in &mut sides[side][places] {
        *sample += by;
    }
    sides
}

fn one_of(places: std::ops::Range<usize>, rng: &mut Rng) -> std::ops::Range<usize> {
    let at = rng.range(places.start as i32, places.end as i32 - 1) as usize;
    at..at + 1
}

/// Has `sum` for the combined test, or nearly so.
fn at_combined(case: &Case, sum: i32, rng: &mut Rng) -> Sides {
    let limit = case.thresholds().limit;
    let mut sides = [[0; 7]; 2];
    for _ in 0..16 {
        // p1 and q1 are this much further apart than p0 and q0.
        let more = rng.range(-2 * limit, 2 * limit);
        let gap = (2 * sum - more).div_euclid(5) + rng.range(0, 1);
        let (p1, q1) = (-(more / 2), gap + more - more / 2);
        sides = [[p1; 7], [q1; 7]];
        (sides[0][0], sides[1][0]) = (0, gap);
        if 2 * gap + ((p1 - q1).abs() >> 1) == sum {
            break;
        }
    }
    if rng.once_in(2) {
        sides.reverse();
    }
    sides
}

/// Moves a line so that it touches 0 or the maximum, or to somewhere between.
fn place(case: &mut Case, sides: Sides, rng: &mut Rng) {
    let maximum = i32::from(case.maximum());
    let all = sides.as_flattened();
    let low = -*all.iter().min().unwrap();
    let high = maximum - *all.iter().max().unwrap();
    let between = rng.range(low.min(high), low.max(high));
    let by = rng.pick(&[low, high, between, between]);
    let [p, q] = sides.map(|side| side.map(|n| (n + by).clamp(0, maximum) as u16));
    case.samples = from_fn(|n| if n < 7 { p[6 - n] } else { q[n - 7] });
}

/// Samples that the width does not read are any.
fn hide(case: &mut Case, rng: &mut Rng) {
    let reads = match case.width {
        4 => 2,
        6 => 3,
        8 => 4,
        _ => 7,
    };
    for k in reads..7 {
        for place in [6 - k, 7 + k] {
            case.samples[place] = rng.range(0, case.maximum().into()) as u16;
        }
    }
}
