//! rav1d's recorders on masks and levels as rav1d holds them.

use super::case::{Block, Case, Memory, LAYOUTS, RECORD};
use crate::include::dav1d::headers::Rav1dPixelLayout;
use crate::src::align::Align16;
use crate::src::disjoint_mut::DisjointMut;
use crate::src::internal::Bxy;
use crate::src::levels::{BlockSize, TxfmSize};
use crate::src::lf_mask::{rav1d_create_lf_mask_inter, rav1d_create_lf_mask_intra, Av1Filter};
use crate::src::relaxed_atomic::RelaxedAtomic;
use std::array::from_fn;

pub struct Recorder {
    records: Vec<Av1Filter>,
    levels: DisjointMut<Vec<u8>>,
}

/// A record's words in 01's order.
fn words(record: &Av1Filter) -> impl Iterator<Item = &RelaxedAtomic<u16>> {
    let luma = record.filter_y.as_flattened().as_flattened();
    let chroma = record.filter_uv.as_flattened().as_flattened();
    luma.as_flattened().iter().chain(chroma.as_flattened())
}

/// Whole records of masks.
pub fn records(masks: &[u16]) -> Vec<Av1Filter> {
    let record = |masks: &[u16]| {
        let record = Av1Filter::default();
        for (word, mask) in words(&record).zip(masks) {
            word.set(*mask);
        }
        record
    };
    masks.chunks_exact(RECORD).map(record).collect()
}

/// Stores records at the start of masks.
pub fn store(records: &[Av1Filter], masks: &mut [u16]) {
    for (mask, word) in masks.iter_mut().zip(records.iter().flat_map(words)) {
        *mask = word.get();
    }
}

impl Recorder {
    /// Whole records of masks, and levels.
    pub fn new(masks: &[u16], levels: &[u8]) -> Self {
        Self {
            records: records(masks),
            levels: DisjointMut::new(levels.to_vec()),
        }
    }

    /// Stores masks and levels at the start of these.
    pub fn store(self, masks: &mut [u16], levels: &mut [u8]) {
        store(&self.records, masks);
        let from = self.levels.into_inner();
        levels[..from.len()].copy_from_slice(&from);
    }

    /// One call. The contexts begin at the block.
    pub fn record(&self, b: &Block, contexts: [&mut [u8]; 4]) {
        let [x, y] = b.place;
        let at = y / 32 * b.records()[0] + x / 32;
        match self.records.get(at as usize) {
            Some(record) => self.record_in(record, b, contexts),
            None => {
                // At the frame's end: nothing is recorded.
                let record = Av1Filter::default();
                self.record_in(&record, b, contexts);
                assert!(words(&record).all(|word| word.get() == 0));
            }
        }
    }

    fn record_in(&self, record: &Av1Filter, b: &Block, contexts: [&mut [u8]; 4]) {
        self.call(record, &Call::new(b), contexts);
    }

    /// rav1d's call, on one record.
    fn call(&self, record: &Av1Filter, c: &Call, contexts: [&mut [u8]; 4]) {
        let [above, left, above_uv, left_uv] = contexts;
        let pair = c.has_pair.then_some((above_uv, left_uv));
        let levels = &self.levels;
        let [w4, h4] = c.frame;
        if c.is_inter {
            rav1d_create_lf_mask_inter(
                record,
                levels,
                c.stride,
                &c.values,
                c.reference,
                c.mode,
                c.place,
                w4,
                h4,
                c.skip,
                c.size,
                c.tx,
                &c.tx_masks,
                c.uvtx,
                c.layout,
                above,
                left,
                pair,
            );
        } else {
            rav1d_create_lf_mask_intra(
                record, levels, c.stride, &c.values, c.place, w4, h4, c.size, c.tx, c.uvtx,
                c.layout, above, left, pair,
            );
        }
    }

    /// One call whose record is told.
    pub fn call_at(&self, record: usize, call: &Call, contexts: [&mut [u8]; 4]) {
        self.call(&self.records[record], call, contexts);
    }
}

/// A block as rav1d's calls take it.
pub struct Call {
    is_inter: bool,
    has_pair: bool,
    skip: bool,
    mode: bool,
    stride: isize,
    values: Align16<[[[u8; 2]; 8]; 4]>,
    reference: usize,
    place: Bxy,
    frame: [i32; 2],
    size: BlockSize,
    tx: TxfmSize,
    uvtx: TxfmSize,
    tx_masks: [u16; 2],
    layout: Rav1dPixelLayout,
}

impl Call {
    pub fn new(b: &Block) -> Self {
        let [x, y] = b.place.map(|n| n as i32);
        let value = |kind, reference, mode| b.values[(kind * 8 + reference) * 2 + mode];
        let layout = LAYOUTS.iter().position(|layout| *layout == b.layout);
        let has_pair = b.chroma != 0;
        Self {
            is_inter: b.is_inter,
            has_pair,
            skip: b.skip != 0,
            mode: b.mode != 0,
            stride: b.stride as isize,
            values: Align16(from_fn(|k| from_fn(|r| from_fn(|m| value(k, r, m))))),
            reference: b.reference as usize,
            place: Bxy { x, y },
            frame: b.frame_units().map(|n| n as i32),
            size: BlockSize::from_standard(b.size as u8).unwrap(),
            tx: TxfmSize::from_repr(b.tx as usize).unwrap(),
            uvtx: match has_pair {
                true => TxfmSize::from_repr(b.uvtx as usize).unwrap(),
                false => TxfmSize::default(),
            },
            tx_masks: b.tx_masks,
            layout: Rav1dPixelLayout::from_repr(layout.unwrap()).unwrap(),
        }
    }
}

impl Case {
    /// Memory after the call, which must be one that 01 accepts.
    pub fn after(&self) -> Memory {
        let mut memory = self.memory.clone();
        let recorder = Recorder::new(
            &memory.masks[..self.block.masks() as usize],
            &memory.levels[..self.lent.levels as usize],
        );
        let mut lens = self.lent.contexts.into_iter();
        let contexts = memory.contexts.each_mut();
        let lent = contexts.map(|context| &mut context[..lens.next().unwrap().into()]);
        recorder.record(&self.block, lent);
        recorder.store(&mut memory.masks, &mut memory.levels);
        memory
    }
}
