//! A frame recorded and filtered: the frame of program `two_workers`, 128 by 128 samples at 4:2:0, in two superblock
//! rows. What is expected of it is what that program prints.

use deblock::*;
use std::sync::{Barrier, Mutex};
use std::thread;

const FRAME: Frame = Frame {
    width: 128,
    height: 128,
    layout: Layout::I420,
    superblock: 64,
};
const BASE: [u8; 4] = [32, 28, 24, 20];

/// The transform of a block of 16x16 is 4x4, 8x8 or 16x16, that of its chroma 4x4 or 8x8.
fn transform(bx: usize, by: usize, chroma: bool) -> TxSize {
    let largest = if chroma { 1 } else { 2 };
    let tx = (bx.div_ceil(2) + by.div_ceil(2)) % 3;
    [TxSize::Tx4x4, TxSize::Tx8x8, TxSize::Tx16x16][tx.min(largest)]
}

/// Small steps from transform to transform, a grain of 1, and some blocks that stand far higher.
fn sample(x: usize, y: usize, chroma: bool) -> u16 {
    let side = if chroma { 8 } else { 16 };
    let (bx, by) = (x / side, y / side);
    let step = transform(bx, by, chroma).width() as usize;
    let lift = if (bx * 3 + by) % 11 == 5 { 60 } else { 0 };
    (100 + (x / step * 3 + y / step * 5) % 8 + (x * 3 + y * 7) / 5 % 2 + lift) as u16
}

/// Luma, U and V, which is U turned along its diagonal; `scale` is 1, or that of a depth.
fn samples(scale: u16) -> [Vec<u16>; 3] {
    let luma = (0..128 * 128).map(|k| sample(k % 128, k / 128, false) * scale);
    let u = (0..64 * 64).map(|k| sample(k % 64, k / 64, true) * scale);
    let v = (0..64 * 64).map(|k| sample(k / 64, k % 64, true) * scale);
    [luma.collect(), u.collect(), v.collect()]
}

fn bytes(samples: [Vec<u16>; 3]) -> [Vec<u8>; 3] {
    samples.map(|plane| plane.iter().map(|&sample| sample as u8).collect())
}

fn planes<T>([luma, u, v]: &mut [Vec<T>; 3]) -> Planes<'_, T> {
    Planes {
        luma,
        luma_stride: 128,
        u,
        v,
        chroma_stride: 64,
    }
}

struct Recorded {
    base: [u8; 4],
    levels: [u8; 4096],
    masks: [u16; 640],
    limits: Limits,
}

impl Recorded {
    fn new(base: [u8; 4]) -> Recorded {
        let header = Header {
            base,
            ..Header::default()
        };
        let mut values = [0; 512];
        levels(&mut values, FRAME.layout, &header).unwrap();
        let mut recorded = Recorded {
            base,
            levels: [0; 4096],
            masks: [0; 640],
            limits: Limits::new(0).unwrap(),
        };
        recorded.record(segment(&values, 0).unwrap());
        recorded
    }

    fn record(&mut self, values: &[u8; 64]) {
        let mut contexts = Contexts {
            above: &mut [2; 32],
            left: &mut [2; 32],
            above_uv: &mut [1; 16],
            left_uv: &mut [1; 16],
        };
        for n in 0..64 {
            let (bx, by) = (n % 8, n / 8);
            let block = Block {
                x: 4 * bx as u32,
                y: 4 * by as u32,
                size: BlockSize::Block16x16,
                tx: transform(bx, by, false),
                chroma: Some(transform(bx, by, true)),
            };
            let mut records = Records {
                levels: &mut self.levels,
                level_stride: 32,
                masks: &mut self.masks,
            };
            let mut contexts = contexts.at(&FRAME, block.x, block.y);
            record_intra(&mut records, values, &FRAME, &block, &mut contexts).unwrap();
        }
    }

    fn pass(&self) -> Pass<'_> {
        Pass {
            frame: FRAME,
            levels: &self.levels,
            level_stride: 32,
            masks: &self.masks,
            limits: &self.limits,
            level_u: self.base[2].into(),
            level_v: self.base[3].into(),
        }
    }

    /// Columns of superblock rows 0 and 1 are calls 0 and 1, rows are calls 2 and 3.
    fn filtered(&self, order: [u32; 4]) -> [Vec<u8>; 3] {
        let mut held = bytes(samples(1));
        for call in order {
            let filter = if call < 2 { columns_8 } else { rows_8 };
            assert_eq!(
                filter(&mut planes(&mut held), &self.pass(), call % 2),
                Ok(())
            );
        }
        held
    }

    fn filtered_16(&self, depth: Depth, scale: u16) -> [Vec<u16>; 3] {
        let mut held = samples(scale);
        for call in 0..4 {
            let filter = if call < 2 { columns_16 } else { rows_16 };
            let answer = filter(&mut planes(&mut held), depth, &self.pass(), call % 2);
            assert_eq!(answer, Ok(()));
        }
        held
    }
}

fn differing<T: PartialEq>(one: &[Vec<T>; 3], other: &[Vec<T>; 3]) -> [usize; 3] {
    [0, 1, 2].map(|p| one[p].iter().zip(&other[p]).filter(|(a, b)| a != b).count())
}

fn checksum(plane: &[u8]) -> u32 {
    let mixed = |sum: u32, &sample: &u8| (sum * 31 + u32::from(sample)) % 65521;
    plane.iter().fold(0, mixed)
}

#[test]
fn eight_bits() {
    let after = Recorded::new(BASE).filtered([0, 1, 2, 3]);
    assert_eq!(differing(&after, &bytes(samples(1))), [10519, 2199, 2172]);
    assert_eq!(after.each_ref().map(|p| checksum(p)), [25559, 16786, 2322]);
}

#[test]
fn sixteen_bits_at_depth_8_are_the_same() {
    let recorded = Recorded::new(BASE);
    let after = recorded.filtered_16(Depth::Eight, 1);
    assert_eq!(bytes(after), recorded.filtered([0, 1, 2, 3]));
}

#[test]
fn ten_and_twelve_bits() {
    for (depth, scale) in [(Depth::Ten, 4), (Depth::Twelve, 16)] {
        let after = Recorded::new(BASE).filtered_16(depth, scale);
        let changed = differing(&after, &samples(scale));
        assert!(changed.iter().all(|&n| n > 2000), "{changed:?}");
    }
}

#[test]
fn a_plane_of_level_0_stays() {
    for (base, stays) in [([32, 28, 0, 20], 1), ([32, 28, 24, 0], 2)] {
        let after = Recorded::new(base).filtered([0, 1, 2, 3]);
        let changed = differing(&after, &bytes(samples(1)));
        assert_eq!(changed.map(|n| n == 0), [0, 1, 2].map(|p| p == stays));
    }
}

#[test]
fn allowed_orders_agree() {
    let recorded = Recorded::new(BASE);
    let first = recorded.filtered([0, 1, 2, 3]);
    for order in [[0, 2, 1, 3], [0, 1, 3, 2], [1, 0, 2, 3], [1, 0, 3, 2]] {
        assert_eq!(recorded.filtered(order), first);
    }
    let not_allowed = [
        ([2, 0, 1, 3], [1007, 219, 204]),
        ([1, 3, 0, 2], [129, 36, 45]),
    ];
    for (order, expected) in not_allowed {
        assert_eq!(differing(&recorded.filtered(order), &first), expected);
    }
}

/// Each worker has a superblock row, and the planes are lent to one call at a time.
#[test]
fn two_workers_agree() {
    let recorded = Recorded::new(BASE);
    let first = recorded.filtered([0, 1, 2, 3]);
    for _ in 0..10 {
        let held = Mutex::new(bytes(samples(1)));
        let columns_done = Barrier::new(2);
        thread::scope(|workers| {
            for row in 0..2 {
                let (recorded, held, columns_done) = (&recorded, &held, &columns_done);
                workers.spawn(move || {
                    let pass = recorded.pass();
                    columns_8(&mut planes(&mut held.lock().unwrap()), &pass, row).unwrap();
                    columns_done.wait();
                    rows_8(&mut planes(&mut held.lock().unwrap()), &pass, row).unwrap();
                });
            }
        });
        assert!(held.into_inner().unwrap() == first);
    }
}
