//! The level values of a frame: [segment][kind][reference][mode], the kinds being luma columns, luma
//! rows, U and V.

use crate::include::dav1d::headers::Rav1dFrameHeader;
use crate::part::{Group, Part, Record};
use crate::rng::Rng;
use crate::src::align::Align16;
use crate::src::lf_mask::rav1d_calc_lf_values;
use std::array::from_fn;
use std::fmt::Write;

pub struct Levels;

const LAYOUTS: [u32; 4] = [400, 420, 422, 444];

struct Case {
    layout: u32,
    base: [u8; 4],
    delta_enabled: u8,
    ref_delta: [i8; 8],
    mode_delta: [i8; 2],
    multi: u8,
    lf_delta: [i8; 4],
    segmentation: u8,
    seg_delta: [[i8; 4]; 8],
    before: [u8; 512],
}

/// What document 01 refuses, in the order of the tally.
#[derive(Clone, Copy)]
enum Fault {
    Base,
    Reference,
    Mode,
    Lf,
    Segment,
    Chroma,
    Layout,
}

const FAULTS: [Fault; 7] = [
    Fault::Base,
    Fault::Reference,
    Fault::Mode,
    Fault::Lf,
    Fault::Segment,
    Fault::Chroma,
    Fault::Layout,
];

impl Case {
    fn read(record: &[u8]) -> Self {
        let mut at = 0;
        let mut take = |n| {
            at += n;
            &record[at - n..at]
        };
        let signed = |bytes: &[u8]| -> Vec<i8> { bytes.iter().map(|b| *b as i8).collect() };
        Self {
            layout: u32::from_le_bytes(take(4).try_into().unwrap()),
            base: take(4).try_into().unwrap(),
            delta_enabled: take(1)[0],
            ref_delta: signed(take(8)).try_into().unwrap(),
            mode_delta: signed(take(2)).try_into().unwrap(),
            multi: take(1)[0],
            lf_delta: signed(take(4)).try_into().unwrap(),
            segmentation: take(1)[0],
            seg_delta: from_fn(|_| signed(take(4)).try_into().unwrap()),
            before: take(512).try_into().unwrap(),
        }
    }

    fn write(&self) -> Record {
        let bytes = |signed: &[i8]| signed.iter().map(|d| *d as u8).collect::<Vec<_>>();
        let mut record = self.layout.to_le_bytes().to_vec();
        record.extend(self.base);
        record.push(self.delta_enabled);
        record.extend(bytes(&self.ref_delta));
        record.extend(bytes(&self.mode_delta));
        record.push(self.multi);
        record.extend(bytes(&self.lf_delta));
        record.push(self.segmentation);
        record.extend(bytes(self.seg_delta.as_flattened()));
        record.extend(self.before);
        record.resize(Levels.sizes().0, 0);
        record
    }

    fn has(&self, fault: Fault) -> bool {
        let outside = |deltas: &[i8], low: i8| deltas.iter().any(|d| !(low..=63).contains(d));
        match fault {
            Fault::Base => self.base.iter().any(|base| *base > 63),
            Fault::Reference => outside(&self.ref_delta, -64),
            Fault::Mode => outside(&self.mode_delta, -64),
            Fault::Lf => outside(&self.lf_delta, -63),
            Fault::Segment => outside(self.seg_delta.as_flattened(), -63),
            Fault::Chroma => self.layout == 400 && self.base[2..] != [0, 0],
            Fault::Layout => !LAYOUTS.contains(&self.layout),
        }
    }

    fn number(&self) -> u8 {
        let [number_2 @ .., layout] = FAULTS;
        match number_2.into_iter().any(|fault| self.has(fault)) {
            true => 2,
            false if self.has(layout) => 4,
            false => 0,
        }
    }

    /// The level of a segment and kind before reference and mode deltas.
    fn clipped(&self, segment: usize, kind: usize) -> i32 {
        let lf = self.lf_delta[if self.multi != 0 { kind } else { 0 }];
        let level = (i32::from(self.base[kind]) + i32::from(lf)).clamp(0, 63);
        let delta = self.seg_delta[segment][kind] * i8::from(self.segmentation != 0);
        (level + i32::from(delta)).clamp(0, 63)
    }

    fn legal(rng: &mut Rng) -> Self {
        let delta = |rng: &mut Rng, low| match rng.range(0, 5) {
            0 => 0,
            1 => rng.pick(&[low, 63]) as i8,
            2 => rng.range(-3, 3) as i8,
            _ => rng.range(low, 63) as i8,
        };
        let base = |rng: &mut Rng| match rng.range(0, 3) {
            0 => rng.pick(&[0, 1, 31, 32, 62, 63]),
            _ => rng.range(0, 63) as u8,
        };
        let flag = |rng: &mut Rng| rng.pick(&[0, 0, 0, 1, 1, 255]);
        let mut case = Self {
            layout: rng.pick(&LAYOUTS),
            base: from_fn(|_| base(rng)),
            delta_enabled: flag(rng),
            ref_delta: from_fn(|_| delta(rng, -64)),
            mode_delta: from_fn(|_| delta(rng, -64)),
            multi: flag(rng),
            lf_delta: from_fn(|_| delta(rng, -63)),
            segmentation: flag(rng),
            seg_delta: from_fn(|_| from_fn(|_| delta(rng, -63))),
            before: from_fn(|_| rng.next() as u8),
        };
        match rng.range(0, 9) {
            0 => case.base[0] = 0,
            1 => case.base[1] = 0,
            2 => case.base[..2].fill(0),
            3 => case.base[2] = 0,
            4 => case.base[3] = 0,
            _ => {}
        }
        if case.layout == 400 {
            case.base[2..].fill(0);
        }
        if rng.once_in(2) {
            case.aim(rng);
        }
        case
    }

    /// Moves the level before reference and mode deltas to a limit, or to one past it.
    fn aim(&mut self, rng: &mut Rng) {
        for segment in 0..8 {
            for kind in 0..4 {
                let by = rng.pick(&[-1, 0, 31, 32, 33, 63, 64]) - self.clipped(segment, kind);
                let delta = match self.segmentation {
                    0 => &mut self.lf_delta[if self.multi != 0 { kind } else { 0 }],
                    _ => &mut self.seg_delta[segment][kind],
                };
                *delta = (i32::from(*delta) + by).clamp(-63, 63) as i8;
            }
        }
    }

    /// Puts in a fault, most often just past the limit.
    fn spoil(&mut self, fault: Fault, rng: &mut Rng) {
        let past = |rng: &mut Rng, low: i8| match rng.once_in(2) {
            true => rng.pick(&[low - 1, low - 1, -128]),
            false => rng.pick(&[64, 64, 127]),
        };
        match fault {
            Fault::Base => {
                let kinds = if self.layout == 400 { 2 } else { 4 };
                self.base[rng.range(0, kinds - 1) as usize] = rng.pick(&[64, 64, 128, 255])
            }
            Fault::Reference => self.ref_delta[rng.range(0, 7) as usize] = past(rng, -64),
            Fault::Mode => self.mode_delta[rng.range(0, 1) as usize] = past(rng, -64),
            Fault::Lf => self.lf_delta[rng.range(0, 3) as usize] = past(rng, -63),
            Fault::Segment => {
                let segment = rng.range(0, 7) as usize;
                self.seg_delta[segment][rng.range(0, 3) as usize] = past(rng, -63);
            }
            Fault::Chroma => {
                self.layout = 400;
                self.base[rng.range(2, 3) as usize] = rng.pick(&[1, 63]);
            }
            Fault::Layout => {
                let near = rng.pick(&LAYOUTS);
                let far = rng.pick(&[0, 1, 2, 3, 411, 440, near + (1 << 16), u32::MAX]);
                self.layout = rng.pick(&[near - 1, near + 1, far]);
            }
        }
    }
}

impl Part for Levels {
    fn name(&self) -> &'static str {
        "levels"
    }

    fn sizes(&self) -> (usize, usize) {
        (576, 520)
    }

    /// The first 80 cases, and of the next the faulty ones.
    fn fixed(&self) -> Vec<Record> {
        let numbers = (0..800).filter(|n| *n < 80 || n % 80 < 8);
        let case = |n| self.case(n, &mut Rng::new(0, n));
        numbers.map(case).collect()
    }

    /// Of 80 cases seven have one fault each, and one has two: number 2 comes before 4.
    fn case(&self, number: u64, rng: &mut Rng) -> Record {
        let mut case = Case::legal(rng);
        match number % 80 {
            n @ 0..7 => case.spoil(FAULTS[n as usize], rng),
            7 => {
                case.spoil(rng.pick(&FAULTS[..5]), rng);
                case.spoil(Fault::Layout, rng);
            }
            _ => {}
        }
        case.write()
    }

    fn answer(&self, case: &[u8]) -> Record {
        let case = Case::read(case);
        let number = case.number();
        let mut values = case.before;
        if number == 0 {
            let mut header = Rav1dFrameHeader::default();
            let filter = &mut header.loopfilter;
            filter.level_y = [case.base[0], case.base[1]];
            filter.level_u = case.base[2];
            filter.level_v = case.base[3];
            filter.mode_ref_delta_enabled = case.delta_enabled;
            filter.mode_ref_deltas.ref_delta = case.ref_delta;
            filter.mode_ref_deltas.mode_delta = case.mode_delta;
            header.delta.lf.multi = case.multi;
            header.segmentation.enabled = case.segmentation;
            for (to, from) in header
                .segmentation
                .seg_data
                .d
                .iter_mut()
                .zip(case.seg_delta)
            {
                [
                    to.delta_lf_y_v,
                    to.delta_lf_y_h,
                    to.delta_lf_u,
                    to.delta_lf_v,
                ] = from;
            }
            let value = |s, k, r, m| values[((s * 4 + k) * 8 + r) * 2 + m];
            let mut lent = from_fn(|s| {
                let kind = |k| from_fn(|r| from_fn(|m| value(s, k, r, m)));
                Align16(from_fn(kind))
            });
            rav1d_calc_lf_values(&mut lent, &header, &case.lf_delta);
            let lent = lent.map(|segment| segment.0);
            values.copy_from_slice(lent.as_flattened().as_flattened().as_flattened());
        }
        let mut answer = vec![number];
        answer.extend(values);
        answer.resize(self.sizes().1, 0);
        answer
    }

    fn describe(&self, case: &[u8], answers: &[(&str, &[u8])]) -> String {
        let case = Case::read(case);
        let mut text = format!(
            "layout {}, base levels {:?} (luma columns, luma rows, U, V)\n\
             deltas enabled {}, reference deltas {:?}, mode deltas {:?}\n\
             multi {}, lf deltas {:?}\n\
             segmentation {}, segment deltas {:?}\n",
            case.layout,
            case.base,
            case.delta_enabled,
            case.ref_delta,
            case.mode_delta,
            case.multi,
            case.lf_delta,
            case.segmentation,
            case.seg_delta,
        );
        for (who, answer) in answers {
            writeln!(text, "{who}: number {}", answer[0]).unwrap();
        }
        for row in 0..32 {
            let values = |list: &[u8]| format!("{:?}", &list[row * 16..][..16]);
            let (segment, kind, before) = (row / 4, row % 4, values(&case.before));
            writeln!(text, "segment {segment} kind {kind}: before {before}").unwrap();
            for (who, answer) in answers {
                writeln!(text, "  {who} {}", values(&answer[1..])).unwrap();
            }
        }
        text
    }

    fn groups(&self) -> &'static [Group] {
        const GROUPS: &[Group] = &[
            Group::filled("number", &["0", "2", "4"]),
            Group::filled(
                "fault",
                &[
                    "base level",
                    "reference delta",
                    "mode delta",
                    "lf delta",
                    "segment delta",
                    "chroma at 400",
                    "layout",
                    "several",
                ],
            ),
            Group::filled("layout", &["400", "420", "422", "444"]),
            Group::filled("deltas", &["off", "on"]),
            Group::filled("multi", &["off", "on"]),
            Group::filled("segmentation", &["off", "on"]),
            Group::filled("luma base", &["not 0", "one 0", "both 0"]),
            Group::filled("chroma base", &["not 0", "one 0", "both 0"]),
            Group::filled("level before deltas", &["below 31", "31", "32", "above 32"]),
        ];
        GROUPS
    }

    /// Cells below the faults count accepted cases alone.
    fn cells(&self, case: &[u8], answer: &[u8]) -> Vec<Option<usize>> {
        let case = Case::read(case);
        let faults: Vec<_> = (0..7).filter(|n| case.has(FAULTS[*n])).collect();
        let fault = match faults[..] {
            [] => None,
            [fault] => Some(fault),
            _ => Some(7),
        };
        let accepted = answer[0] == 0;
        let on = |flag| accepted.then_some(usize::from(flag != 0));
        let zeros = |base: &[u8]| base.iter().filter(|base| **base == 0).count();
        let level = match case.clipped(0, 0) {
            0..31 => 0,
            31 => 1,
            32 => 2,
            _ => 3,
        };
        vec![
            Some(usize::from(answer[0]) / 2),
            fault,
            LAYOUTS
                .iter()
                .position(|layout| accepted && *layout == case.layout),
            on(case.delta_enabled),
            on(case.multi),
            on(case.segmentation),
            accepted.then(|| zeros(&case.base[..2])),
            accepted.then(|| zeros(&case.base[2..])),
            accepted.then_some(level),
        ]
    }
}
