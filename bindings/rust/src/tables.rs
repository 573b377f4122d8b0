use crate::ffi;
use crate::refusal::done;
use crate::{Layout, Refusal};

/// The limit table of a sharpness, by level. The calls that filter read it.
#[derive(Clone, Debug, PartialEq, Eq)]
pub struct Limits {
    /// This is the limit across an edge, 2*(level+2)+i. The standard calls it blimit.
    pub e: [u8; 64],
    /// This is the limit between neighbours on one side. The standard calls it limit.
    pub i: [u8; 64],
    /// These are the shift and the cap of the sharpness. They are filled because dav1d's and rav1d's tables have them
    /// for their assembly. No call reads them.
    pub sharp: [u64; 2],
}

impl Limits {
    /// Answers the limit table of a sharpness, 0 to 7.
    ///
    /// Refused with [`Refusal::Sharpness`].
    pub fn new(sharpness: u32) -> Result<Limits, Refusal> {
        let mut table = Limits::default();
        limits(&mut table, sharpness)?;
        Ok(table)
    }
}

/// Answers a table of zeros, which [`limits`] can fill.
impl Default for Limits {
    fn default() -> Self {
        Limits {
            e: [0; 64],
            i: [0; 64],
            sharp: [0; 2],
        }
    }
}

/// Fills a table that the caller lends with the limits of a sharpness, 0 to 7. [`Limits::new`] makes a new one.
///
/// Refused with [`Refusal::Sharpness`].
pub fn limits(table: &mut Limits, sharpness: u32) -> Result<(), Refusal> {
    let Limits { e, i, sharp } = table;
    // SAFETY: tables have the declared sizes, and the archive takes any sharpness.
    done(unsafe { ffi::deblock_limits(e, i, sharp, sharpness) })
}

/// What a frame header says of levels.
///
/// The areas are luma columns, luma rows, U and V, in this order. Decoders keep deltas as `i32`: narrow them with
/// [`delta`] and [`segment_delta`], since `as i8` would turn some that are out of range into others that are not.
#[derive(Clone, Copy, Debug, Default, PartialEq, Eq)]
pub struct Header {
    /// This is the base level of each area, 0 to 63. At 4:0:0 chroma's are 0. A frame whose two luma levels are 0 is
    /// not filtered: the caller skips it.
    pub base: [u8; 4],
    /// This says whether the two tables of deltas below count.
    pub delta_enabled: bool,
    /// These are the deltas by reference, -64 to 63. Reference 0 is intra.
    pub ref_delta: [i8; 8],
    /// These are the deltas by mode, -64 to 63.
    pub mode_delta: [i8; 2],
    /// This says whether each area has an lf delta of its own. If not, the first counts for all.
    pub multi: bool,
    /// These are the lf deltas by area, -63 to 63.
    pub lf_delta: [i8; 4],
    /// This says whether segments count. If not, only segment 0 is written.
    pub segmentation: bool,
    /// These are the segment deltas, segment after segment, four areas each, -63 to 63. A stream may hold -64, which
    /// [`segment_delta`] clips.
    pub seg_delta: [i8; 32],
}

/// Narrows a reference, mode or lf delta of a header. A value that `i8` cannot hold becomes -128 or 127. So what is
/// out of range stays out of range, and [`levels`] refuses it with [`Refusal::Level`].
pub fn delta(value: i32) -> i8 {
    value.clamp(i8::MIN.into(), i8::MAX.into()) as i8
}

/// Narrows a segment's delta to -63 to 63, as the standard clips it when it reads the header.
pub fn segment_delta(value: i32) -> i8 {
    value.clamp(-63, 63) as i8
}

/// Works out the level values of a frame. They stand segment after segment, in each area after area, reference after
/// reference, mode after mode. A call that records takes the 64 of its block's segment ([`segment`]). Without
/// segmentation only those of segment 0 are written, and the rest stay as they were.
///
/// Refused with [`Refusal::Level`]. Deltas that are not in use count too.
pub fn levels(values: &mut [u8; 512], layout: Layout, header: &Header) -> Result<(), Refusal> {
    // SAFETY: tables have the declared sizes, and the archive takes any content.
    done(unsafe {
        ffi::deblock_levels(
            values,
            layout.number(),
            &header.base,
            header.delta_enabled.into(),
            &header.ref_delta,
            &header.mode_delta,
            header.multi.into(),
            &header.lf_delta,
            header.segmentation.into(),
            &header.seg_delta,
        )
    })
}

/// Answers the 64 level values of a segment, 0 to 7, or `None` where there is no such segment. Without segmentation
/// [`levels`] writes segment 0 alone, so take that one for every block.
pub fn segment(values: &[u8; 512], segment: usize) -> Option<&[u8; 64]> {
    values.get(segment.checked_mul(64)?..)?.first_chunk()
}
