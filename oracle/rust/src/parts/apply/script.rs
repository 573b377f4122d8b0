//! A frame's calls, and beside them calls that 01 refuses, or nearly.

use super::case::{Call, Case, Kind, Memory, Part, Pass, Step, PASSES};
use super::make::{highest, up_to, Frame};
use super::refusal::{Fault, Look, FAULTS};
use crate::rng::Rng;
use Fault::*;

/// The calls in an order that a decoder may take: row by row, or pass by pass.
fn calls(frame: &Frame, rng: &mut Rng) -> Vec<Call> {
    let [columns, rows] = PASSES.map(|pass| move |row| (Kind::Filter(pass), row));
    let count = frame.call.superblocks()[1];
    let mut calls = vec![];
    match rng.once_in(3) {
        true => {
            for row in 0..count {
                corrections(frame, row, &mut calls, rng);
            }
            let order = (0..count).map(columns).chain((0..count).map(rows));
            calls.extend(order.map(|(kind, row)| filter(frame, kind, row)));
        }
        false => {
            for row in 0..count {
                corrections(frame, row, &mut calls, rng);
                let order = [columns(row), rows(row)];
                calls.extend(order.map(|(kind, row)| filter(frame, kind, row)));
            }
        }
    }
    calls
}

fn filter(frame: &Frame, kind: Kind, row: u32) -> Call {
    Call {
        kind,
        row,
        ..frame.call.clone()
    }
}

/// A row's corrections; of those at 0, which do nothing, some.
fn corrections(frame: &Frame, row: u32, to: &mut Vec<Call>, rng: &mut Rng) {
    for start in &frame.starts[0] {
        if *start > 0 || rng.once_in(8) {
            let contexts = frame.left.get(&(*start, row)).cloned();
            to.push(correction(
                frame,
                Kind::CorrectColumn,
                row,
                *start,
                contexts,
                rng,
            ));
        }
    }
    if frame.starts[1].contains(&row) && (row > 0 || rng.once_in(8)) {
        let contexts = frame.above.get(&row).cloned();
        to.push(correction(frame, Kind::CorrectRow, row, 0, contexts, rng));
    }
}

/// Contexts have as little as 01 allows, or more, which may be anything.
fn correction(
    frame: &Frame,
    kind: Kind,
    row: u32,
    start: u32,
    contexts: Option<[Vec<u8>; 2]>,
    rng: &mut Rng,
) -> Call {
    let mut call = Call {
        kind,
        row,
        start,
        contexts: contexts.unwrap_or_default(),
        ..frame.call.clone()
    };
    // No arguments of a correction.
    (call.depth, call.chroma, call.stride, call.strides) = (0, [0; 2], 0, [0; 2]);
    (call.lent.levels, call.lent.planes) = (0, [0; 3]);
    for (n, corrected) in call.corrected().into_iter().enumerate() {
        call.contexts[n].truncate(corrected);
        call.contexts[n].resize(corrected, 0);
        if rng.once_in(3) {
            let more = [0; 3].map(|_| rng.next() as u8);
            call.contexts[n].extend(&more[..up_to(3, rng) as usize]);
        }
    }
    call
}

/// Steps as they grow, with memory as corrections and stores leave it.
pub struct Script {
    is_wide: bool,
    memory: Memory,
    steps: Vec<Step>,
}

/// What is stored before a call.
type Puts = Vec<(Part, usize, u16)>;

impl Script {
    fn new(frame: &Frame) -> Self {
        Self {
            is_wide: frame.is_wide,
            memory: frame.memory.clone(),
            steps: vec![],
        }
    }

    /// The first fault of a call after stores, which are undone.
    fn fault_of(&mut self, call: &Call, puts: &Puts) -> Option<usize> {
        self.look(call, puts, |look| look.fault())
    }

    /// Looks at a call after stores, which are undone.
    fn look<T>(&mut self, call: &Call, puts: &Puts, ask: impl Fn(&Look) -> T) -> T {
        let before = self.before(puts);
        for (part, at, value) in puts {
            self.memory.put(*part, *at, *value);
        }
        let found = ask(&Look {
            call,
            is_wide: self.is_wide,
            memory: &self.memory,
        });
        for (part, at, value) in before.into_iter().rev() {
            self.memory.put(part, at, value);
        }
        found
    }

    /// What stores would change.
    fn before(&self, puts: &Puts) -> Puts {
        let get = |(part, at, _): &(Part, usize, u16)| (*part, *at, self.memory.get(*part, *at));
        puts.iter().map(get).collect()
    }

    /// A call with a fault, or two of them, or just short of one: all numbers alike often, if a few tries
    /// find them.
    fn spoilt(&mut self, call: &Call, rng: &mut Rng) -> (Call, Puts) {
        let number = rng.pick(match call.kind {
            Kind::Filter(_) => &[2, 3, 4, 7, 8, 8, 8, 8, 9, 9, 9, 10, 11, 11, 11, 11, 12, 12],
            _ => &[4, 6, 6, 6, 7, 10],
        });
        let faults: Vec<_> = FAULTS.iter().filter(|(_, its, _)| *its == number).collect();
        let (fault, _, _) = *rng.pick(&faults);
        let (mut near, mut puts) = (call.clone(), vec![]);
        for _ in 0..16 {
            (near, puts) = (call.clone(), vec![]);
            match fault {
                Level(..) => puts.extend(level(call, &self.memory, rng)),
                Sample(..) if self.is_wide => puts.extend(sample(call, &self.memory, rng)),
                Gap(_) => puts = close(call, &self.memory, rng),
                OutsideFrame(_) | OutsideHalf => puts.extend(stray(call, &self.memory, rng)),
                fault => spoil(&mut near, fault, rng),
            }
            let found = self.fault_of(&near, &puts);
            let is_near = found.is_none() && (near != *call || !puts.is_empty()) && rng.once_in(8);
            if is_near || found.is_some_and(|n| FAULTS[n].0 == fault) {
                break;
            }
        }
        if rng.once_in(8) {
            spoil(&mut near, rng.pick(&FAULTS).0, rng);
        }
        (near, puts)
    }

    fn put(&mut self, (part, at, value): (Part, usize, u16)) {
        self.memory.put(part, at, value);
        self.steps.push(Step::Put { part, at, value });
    }

    /// Stores, calls, and stores back what was there. The answer is whether the call is accepted.
    fn call(&mut self, call: Call, puts: Puts) -> bool {
        let before = self.before(&puts);
        let is_accepted = self.fault_of(&call, &puts).is_none();
        puts.into_iter().for_each(|put| self.put(put));
        if is_accepted && !matches!(call.kind, Kind::Filter(_)) {
            Case::correct(&call, &mut self.memory);
        }
        self.steps.push(Step::Call(call));
        before.into_iter().rev().for_each(|put| self.put(put));
        is_accepted
    }
}

impl Frame {
    fn case(&self, script: Script) -> Case {
        Case {
            is_wide: self.is_wide,
            e: self.e,
            i: self.i,
            memory: self.memory.clone(),
            steps: script.steps,
        }
    }

    /// The frame's calls, and in front of some of them one with faults, or nearly so.
    pub fn script(&self, rare: i32, rng: &mut Rng) -> Case {
        let mut script = Script::new(self);
        for call in calls(self, rng) {
            let mut is_done = false;
            if rng.once_in(rare) {
                let (near, puts) = script.spoilt(&call, rng);
                is_done = script.call(near, puts);
            }
            if !is_done {
                assert!(script.call(call, vec![]), "the frame breaks the gap rule");
            }
        }
        self.case(script)
    }

    /// The frame's calls, and in front of each all faults that a few tries find and `left` holds, which
    /// loses them, and some stores that 01 accepts.
    pub fn all_faults(&self, left: &mut Vec<(Kind, usize, usize)>, rng: &mut Rng) -> Case {
        let mut script = Script::new(self);
        for call in calls(self, rng) {
            for _ in 0..2000 {
                let (near, puts) = script.spoilt(&call, rng);
                let found = script.look(&near, &puts, |look| {
                    let fault = look.fault()?;
                    Some((look.call.kind, fault, look.pair(fault)))
                });
                if found.is_some_and(|found| left.contains(&found)) {
                    left.retain(|other| Some(*other) != found);
                    assert!(!script.call(near, puts));
                }
            }
            let mut near = (call.clone(), vec![]);
            for _ in 0..100 {
                let (other, puts) = script.spoilt(&call, rng);
                if other == call && !puts.is_empty() && script.fault_of(&call, &puts).is_none() {
                    near = (call, puts);
                    break;
                }
            }
            assert!(script.call(near.0, near.1));
        }
        self.case(script)
    }
}

/// Puts a fault into the arguments, or tries to; most often just past the limit.
fn spoil(call: &mut Call, fault: Fault, rng: &mut Rng) {
    let any = rng.next() as u32;
    let is_legal_frame = call.frame.iter().all(|side| (1..=16384).contains(side));
    if !is_legal_frame || ![64, 128].contains(&call.superblock) {
        return;
    }
    let less = |least: u32| {
        [
            least.wrapping_sub(1),
            least.wrapping_sub(1),
            0,
            any % least.max(1),
        ]
    };
    match fault {
        Base(n) => call.chroma[n] = rng.pick(&[64, 64, 65, 255, 256 + any % 64, 1 << 31, u32::MAX]),
        BaseAt400(n) => call.chroma[n] = rng.pick(&[1, 63]),
        Depth => call.depth = rng.pick(&[0, 7, 9, 11, 13, 14, 16, 256 + 8, u32::MAX]),
        Layout => {
            let near = rng.pick(&[399, 401, 419, 421, 423, 443, 445]);
            call.layout = rng.pick(&[near, near, 0, 411, 440, 65536 + 420, u32::MAX]);
        }
        NoSide(axis) => call.frame[axis] = 0,
        LongSide(axis) => {
            let far = 65536 + call.frame[axis];
            call.frame[axis] = rng.pick(&[16384, 16385, 16385, far, u32::MAX]);
        }
        Superblock => {
            call.superblock = rng.pick(&[0, 32, 63, 65, 127, 129, 256, 65536 + 64, u32::MAX]);
        }
        ShortContext(n) if call.row < call.superblocks()[1] => {
            let corrected = call.corrected()[n];
            let short = corrected.saturating_sub(1);
            call.contexts[n].truncate(rng.pick(&[short, short, 0]));
        }
        ContextValue(n) if call.row < call.superblocks()[1] => {
            let corrected = call.corrected()[n].min(call.contexts[n].len());
            if corrected > 0 {
                let at = rng.pick(&[0, corrected - 1, any as usize % corrected]);
                call.contexts[n][at] = rng.pick(&[3 - n as u8, 3 - n as u8, 128, 255]);
            }
        }
        Stride => call.stride = u64::from(rng.pick(&less(call.frame_units()[0]))),
        ShortLevels => match rng.once_in(3) {
            true => {
                call.stride = rng.pick(&[1 << 32, 1 << 62, 1 << 50, u64::MAX, u64::MAX / 4 + 1])
            }
            false => {
                let least = call
                    .stride
                    .wrapping_mul(4 * u64::from(call.frame_units()[1]))
                    as u32;
                call.lent.levels = rng.pick(&less(least)).min(call.lent.levels);
            }
        },
        ShortMasks => {
            let least = 640 * call.records()[0] * call.records()[1];
            call.lent.masks = rng.pick(&less(least)).min(call.lent.masks);
        }
        PlaneStride(n) => call.strides[n] = u64::from(rng.pick(&less(call.stored(n == 0)[0]))),
        ShortPlane(plane) => match rng.once_in(4) {
            true => {
                let far = [1 << 32, 1 << 57, 1 << 58, u64::MAX, u64::MAX / 128 + 1];
                call.strides[plane.min(1)] = rng.pick(&far);
            }
            false => {
                let least =
                    call.strides[plane.min(1)].wrapping_mul(call.stored(plane == 0)[1].into());
                let short = rng.pick(&less(least as u32));
                call.lent.planes[plane] = short.min(call.lent.planes[plane]);
            }
        },
        Row => {
            let count = call.superblocks()[1];
            call.row = rng.pick(&[count, count, count + 1, 1 << 26, 1 << 28, u32::MAX]);
        }
        Start => {
            let count = call.superblocks()[0];
            call.start = rng.pick(&[count, count, count + 1, 1 << 26, 1 << 28, u32::MAX]);
        }
        _ => {}
    }
}

fn pass_of(call: &Call) -> Pass {
    match call.kind {
        Kind::Filter(pass) => pass,
        Kind::CorrectColumn => Pass::Columns,
        Kind::CorrectRow => Pass::Rows,
    }
}

/// A level byte above 63, at the row's ends or the frame's.
fn level(call: &Call, memory: &Memory, rng: &mut Rng) -> Option<(Part, usize, u16)> {
    let pass = pass_of(call);
    let own = [pass as u32, 2, 3];
    let byte = rng.pick(&[own[0], own[0], 2, 3, 1 - own[0]]);
    let grid = call.grid(byte < 2);
    let (rows, wide) = (grid.rows(call.row), grid.units[0]);
    let y = rng.pick(&[
        rows.start.wrapping_sub(2),
        rows.start.wrapping_sub(1),
        rows.start.wrapping_sub(1),
        rows.start,
        rows.end - 1,
        rows.end,
    ]);
    let any = up_to(wide - 1, rng);
    let x = rng.pick(&[0, wide - 1, wide - 1, wide, any]);
    let at = 4 * (u128::from(y) * u128::from(call.stride) + u128::from(x)) + u128::from(byte);
    let value = rng.pick(&[64, 64, 128, 255]);
    (at < memory.levels.len() as u128).then_some((Part::Level, at as usize, value))
}

/// A sample above the depth's highest, at the row's ends or the plane's.
fn sample(call: &Call, memory: &Memory, rng: &mut Rng) -> Option<(Part, usize, u16)> {
    let plane = rng.pick(&[0, 0, 1, 2]);
    let lines = 4 * call.grid(plane == 0).sb[1];
    let first = call.row * lines;
    let wide = call.stored(plane == 0)[0];
    let y = rng.pick(&[
        first.wrapping_sub(9),
        first.wrapping_sub(8),
        first.wrapping_sub(8),
        first.wrapping_sub(1),
        first,
        first + lines - 1,
        first + lines,
    ]);
    let any = up_to(wide - 1, rng);
    let x = rng.pick(&[0, wide - 1, wide - 1, wide, any]);
    let at = u128::from(y) * u128::from(call.strides[plane.min(1)]) + u128::from(x);
    let top = highest(call.depth);
    let value = rng.pick(&[top + 1, top + 1, 32768, u16::MAX]);
    (at < memory.planes[plane].len() as u128).then_some((Part::Sample(plane), at as usize, value))
}

/// Two neighbours on a line of the row, all other edges near them taken away: their classes just fit
/// their distance, or one is too high.
fn close(call: &Call, memory: &Memory, rng: &mut Rng) -> Puts {
    let pass = pass_of(call);
    let grid = call.grid(call.layout == 400 || rng.once_in(2));
    let rows = grid.rows(call.row);
    let high = rows.end - rows.start;
    let (count, end, lines) = match pass {
        Pass::Columns => (grid.units[0], grid.records * grid.side(0), high),
        Pass::Rows => (high, grid.sb[1], grid.units[0]),
    };
    let line = up_to(lines - 1, rng);
    let distance = rng.range(1, 4) as u32;
    let first = match rng.range(0, 3) {
        0 => 0,
        1 | 2 => end.saturating_sub(distance),
        _ => up_to(count - 1, rng),
    };
    let allowed = [0, 0, 1, 1, 2][distance as usize];
    let mut class = || {
        rng.pick(&[allowed, allowed, allowed + 1, 0])
            .min(grid.classes() - 1)
    };
    let pair = [(first, class()), (first + distance, class())];
    // The start need not have an edge.
    let is_bare = first == 0 && rng.once_in(2);
    let mut puts = vec![];
    for place in first.saturating_sub(4)..count.min(first + distance + 5) {
        let edge = pair
            .iter()
            .skip(is_bare.into())
            .find(|(at, _)| *at == place);
        let unit = match pass {
            Pass::Columns => [place, rows.start + line],
            Pass::Rows => [line, rows.start + place],
        };
        for class in 0..grid.classes() {
            let (word, bit) = grid.bit(pass, class, unit);
            let is_set = edge.is_some_and(|(_, its)| *its == class);
            let value = memory.masks[word] & !(1 << bit) | u16::from(is_set) << bit;
            if value != memory.masks[word] {
                puts.push((Part::Mask, word, value));
            }
        }
    }
    puts
}

/// A bit anywhere in the row's records, mostly just past the frame, the row or a half.
fn stray(call: &Call, memory: &Memory, rng: &mut Rng) -> Option<(Part, usize, u16)> {
    let pass = pass_of(call);
    let grid = call.grid(call.layout == 400 || rng.once_in(2));
    let rows = grid.rows(call.row);
    let pass = rng.pick(&[pass, pass, pass, PASSES[1 - pass as usize]]);
    let class = up_to(grid.classes() as u32 - 1, rng) as usize;
    let record_row = call.row * (call.superblock / 64) / 2;
    if rng.once_in(3) {
        // Any bit of a half.
        let record = record_row * grid.records + up_to(grid.records - 1, rng);
        let word = grid.word(record, pass, up_to(31, rng), class, up_to(1, rng));
        let half = 16 >> grid.ss[1 - pass as usize];
        let any = up_to(15, rng);
        let bit = rng.pick(&[half % 16, half % 16, 15, any]);
        return Some((Part::Mask, word, memory.masks[word] | 1 << bit));
    }
    let any = [up_to(grid.units[0] - 1, rng), rows.start];
    let x = rng.pick(&[any[0], grid.units[0], grid.units[0] - 1]);
    let y = rng.pick(&[any[1], rows.end, rows.end, rows.end - 1]);
    let end = [grid.records * grid.side(0), (record_row + 1) * grid.side(1)];
    if x >= end[0] || y >= end[1] {
        return None;
    }
    let (word, bit) = grid.bit(pass, class, [x, y]);
    Some((Part::Mask, word, memory.masks[word] | 1 << bit))
}
