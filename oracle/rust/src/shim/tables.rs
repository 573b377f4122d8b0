//! Block and transform sizes, by the rules of the standard. `check` holds them to `tables.json`.

use crate::include::dav1d::headers::{Rav1dWarpedMotionParams, Rav1dWarpedMotionType};
use crate::json::Json;
use crate::src::levels::{BlockSize, TxfmSize};

/// A transform's width and height in units, their logarithms, and what it splits into.
#[derive(Clone, Copy)]
pub struct TxfmInfo {
    pub w: u8,
    pub h: u8,
    pub lw: u8,
    pub lh: u8,
    pub sub: TxfmSize,
}

/// The logarithms of a transform's units: the squares, then each side twice and four times the other.
const fn txfm_log2(tx: usize) -> (u8, u8) {
    let n = tx as u8;
    let (short, ratio) = match n {
        0..=4 => return (n, n),
        5..=12 => ((n - 5) / 2, 1),
        _ => ((n - 13) / 2, 2),
    };
    if n % 2 == 1 {
        (short, short + ratio)
    } else {
        (short + ratio, short)
    }
}

#[allow(non_upper_case_globals)]
pub static dav1d_txfm_dimensions: [TxfmInfo; TxfmSize::COUNT] = {
    let four = TxfmSize::S4x4;
    let mut all = [TxfmInfo {
        w: 1,
        h: 1,
        lw: 0,
        lh: 0,
        sub: four,
    }; TxfmSize::COUNT];
    let mut tx = 0;
    while tx < TxfmSize::COUNT {
        let (lw, lh) = txfm_log2(tx);
        // The longer side is halved, both sides of a square.
        let sub_w = 4 << lw.saturating_sub((lw >= lh) as u8);
        let sub_h = 4 << lh.saturating_sub((lh >= lw) as u8);
        let sub = TxfmSize::from_wh(sub_w, sub_h);
        all[tx] = TxfmInfo {
            w: 1 << lw,
            h: 1 << lh,
            lw,
            lh,
            sub,
        };
        tx += 1;
    }
    all
};

/// The logarithms of a block's units by the standard's code: 4x4; for each N from 8 to 128 (N/2)xN,
/// Nx(N/2), NxN; for each N from 16 to 64 (N/4)xN, Nx(N/4).
const fn block_log2(code: u8) -> (u8, u8) {
    match code {
        0 => (0, 0),
        1..=15 => {
            let n = 1 + (code - 1) / 3;
            match (code - 1) % 3 {
                0 => (n - 1, n),
                1 => (n, n - 1),
                _ => (n, n),
            }
        }
        _ => {
            let n = 2 + (code - 16) / 2;
            if code % 2 == 0 {
                (n - 2, n)
            } else {
                (n, n - 2)
            }
        }
    }
}

/// Width and height in units and their logarithms, in rav1d's order: the widest first, and of equal
/// widths the highest first.
static BLOCK_DIMENSIONS: [[u8; 4]; BlockSize::COUNT] = {
    let mut all = [[0; 4]; BlockSize::COUNT];
    let mut code = 0;
    while code < BlockSize::COUNT as u8 {
        let (lw, lh) = block_log2(code);
        let (mut place, mut other) = (0, 0);
        while other < BlockSize::COUNT as u8 {
            let (w, h) = block_log2(other);
            place += (w > lw || w == lw && h > lh) as usize;
            other += 1;
        }
        all[place] = [1 << lw, 1 << lh, lw, lh];
        code += 1;
    }
    all
};

impl BlockSize {
    pub fn dimensions(self) -> [u8; 4] {
        BLOCK_DIMENSIONS[self as usize]
    }

    /// The block of a standard's code. Nothing else turns one numbering into the other.
    pub fn from_standard(code: u8) -> Option<Self> {
        let (lw, lh) = (code < Self::COUNT as u8).then(|| block_log2(code))?;
        let place = BLOCK_DIMENSIONS.iter().position(|b| b[2..] == [lw, lh])?;
        Self::from_repr(place as u8)
    }
}

/// A part of the frame header that the loop filter does not read.
impl Default for Rav1dWarpedMotionParams {
    fn default() -> Self {
        Self {
            r#type: Rav1dWarpedMotionType::Identity,
            matrix: [0, 0, 1 << 16, 0, 0, 1 << 16],
            abcd: Default::default(),
        }
    }
}

/// Holds every entry above to `tables.json`.
pub fn check() {
    let tables = Json::parse(include_str!("../../tables.json"));
    let (blocks, transforms) = (
        tables.get("blocks").items(),
        tables.get("transforms").items(),
    );
    assert_eq!(
        (blocks.len(), transforms.len()),
        (BlockSize::COUNT, TxfmSize::COUNT)
    );
    assert!(BlockSize::from_standard(BlockSize::COUNT as u8).is_none());
    for (code, want) in (0..).zip(blocks) {
        let block = BlockSize::from_standard(code).unwrap();
        let keys = ["code", "rav1d_code", "w4", "h4", "w4log2", "h4log2"];
        let [w, h, lw, lh] = block.dimensions();
        let have = [code, block as u8, w, h, lw, lh];
        assert_eq!(
            keys.map(|key| want.get(key).int()),
            have.map(i64::from),
            "{keys:?} in tables.json"
        );
        let name = format!("BLOCK_{}X{}", 4 * u16::from(w), 4 * u16::from(h));
        assert_eq!(want.get("name").text(), name);
    }
    for (code, want) in (0..).zip(transforms) {
        let t = dav1d_txfm_dimensions[usize::from(code)];
        let keys = ["code", "w4", "h4", "w4log2", "h4log2", "split"];
        let have = [code, t.w, t.h, t.lw, t.lh, t.sub as u8];
        assert_eq!(
            keys.map(|key| want.get(key).int()),
            have.map(i64::from),
            "{keys:?} in tables.json"
        );
        assert_eq!(
            want.get("name").text(),
            format!("TX_{}X{}", 4 * t.w, 4 * t.h)
        );
        let same = TxfmSize::from_wh(4 * usize::from(t.w), 4 * usize::from(t.h));
        assert_eq!(same as u8, code);
    }
}
