//! The limit table of a sharpness.

use crate::part::{Group, Part, Record};
use crate::rng::Rng;
use crate::src::lf_mask::{rav1d_calc_eih, Av1FilterLUT};
use std::fmt::Write;

pub struct Limits;

fn sharpness(case: &[u8]) -> u32 {
    u32::from_le_bytes(case.try_into().unwrap())
}

impl Part for Limits {
    fn name(&self) -> &'static str {
        "limits"
    }

    fn sizes(&self) -> (usize, usize) {
        (4, 1 + 64 + 64 + 16)
    }

    /// Every byte, and numbers whose low bytes are a legal sharpness, or whose sign bit is set.
    fn all(&self) -> Option<Vec<Record>> {
        let large = [8, 16, 24, 31].map(|bit| 1 << bit);
        let large = large
            .into_iter()
            .flat_map(|n: u32| [n - 1, n, n + 7, n + 8]);
        let all = (0..=255).chain(large).chain([u32::MAX - 7, u32::MAX]);
        Some(all.map(|n| n.to_le_bytes().to_vec()).collect())
    }

    fn fixed(&self) -> Vec<Record> {
        self.all().unwrap()
    }

    fn case(&self, _: u64, rng: &mut Rng) -> Record {
        let high = rng.pick(&[7, 15, 255, i32::MAX]);
        let top = rng.pick(&[0, 0, 0, 1 << 31]);
        (rng.range(0, high) as u32 + top).to_le_bytes().into()
    }

    fn answer(&self, case: &[u8]) -> Record {
        let mut lut = Av1FilterLUT::default();
        let refused = sharpness(case) > 7;
        if !refused {
            rav1d_calc_eih(&mut lut, sharpness(case) as u8);
        }
        let mut answer = vec![u8::from(refused)];
        answer.extend(lut.e);
        answer.extend(lut.i);
        answer.extend(lut.sharp.map(u64::to_le_bytes).as_flattened());
        answer
    }

    fn describe(&self, case: &[u8], answers: &[(&str, &[u8])]) -> String {
        let mut text = format!("sharpness {}\n", sharpness(case));
        for (who, answer) in answers {
            let (number, e, i) = (answer[0], &answer[1..65], &answer[65..129]);
            let sharp: Vec<_> = answer[129..]
                .chunks(8)
                .map(|word| u64::from_le_bytes(word.try_into().unwrap()))
                .collect();
            writeln!(
                text,
                "{who}: number {number}\n  e {e:?}\n  i {i:?}\n  sharp {sharp:?}"
            )
            .unwrap();
        }
        text
    }

    fn groups(&self) -> &'static [Group] {
        const GROUPS: &[Group] = &[
            Group::filled("number", &["0", "1"]),
            Group::counted("sharpness", &["0", "1", "2", "3", "4", "5", "6", "7"]),
        ];
        GROUPS
    }

    fn cells(&self, case: &[u8], answer: &[u8]) -> Vec<Option<usize>> {
        let sharpness = sharpness(case) as usize;
        vec![
            Some(usize::from(answer[0])),
            (sharpness < 8).then_some(sharpness),
        ]
    }
}
