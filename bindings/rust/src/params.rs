use crate::ffi;
use crate::refusal::done;
use crate::{Header, Refusal};
use std::array;

/// The loop filter parameters that a frame header's bits hold, section 5.9.11 of the standard.
///
/// ```
/// use deblock::*;
///
/// # fn main() -> Result<(), Refusal> {
/// // They are at places 5 to 57: five bits of the header come before them, and six after.
/// let header = [0xb2, 0x8c, 0x18, 0x63, 0xc3, 0xf4, 0x20, 0x96];
/// let given = ParamsGiven::new(3);
/// let (params, count) = Params::read(&header, 5, &given)?;
/// assert_eq!((count, params.level, params.sharpness), (53, [20, 24, 12, 12], 3));
/// assert_eq!(params.ref_delta, [1, 0, 0, 0, -3, 0, -1, -1]);
/// assert_eq!(params.mode_delta, [0, 2]);
///
/// // The calls that begin a frame take them on.
/// let limits = Limits::new(params.sharpness.into())?;
/// let mut values = [0; 512];
/// levels(&mut values, Layout::I420, &Header::from(params))?;
///
/// // Written, they are the same bits. The others stay.
/// let mut written = [0xff; 8];
/// assert_eq!(params.write(&mut written, 5, &given), Ok(53));
/// assert_eq!(written, [0xfa, 0x8c, 0x18, 0x63, 0xc3, 0xf4, 0x20, 0xbf]);
///
/// // A frame that has this one as its primary reference frame begins with its deltas.
/// let given = ParamsGiven { ref_delta: params.ref_delta, mode_delta: params.mode_delta, ..given };
/// assert_eq!(Params::read(&header[..7], 5, &given), Err(Refusal::Bits));
/// # Ok(())
/// # }
/// ```
#[derive(Clone, Copy, Debug, PartialEq, Eq)]
pub struct Params {
    /// These are the levels of luma columns, luma rows, U and V, 0 to 63. Those of U and V are in the bits if there is
    /// chroma and a luma level is not 0.
    pub level: [u8; 4],
    /// This is the sharpness, 0 to 7.
    pub sharpness: u8,
    /// This says whether the deltas below count.
    pub delta_enabled: bool,
    /// This says whether deltas are updated. It is in the bits if `delta_enabled` is true.
    pub delta_update: bool,
    /// These say which deltas by reference are in the bits. They are in the bits themselves if `delta_update` is true.
    pub update_ref: [bool; 8],
    /// These say the same of the deltas by mode.
    pub update_mode: [bool; 2],
    /// These are the deltas by reference: INTRA, LAST, LAST2, LAST3, GOLDEN, BWDREF, ALTREF2 and ALTREF. Those in the
    /// bits are -64 to 63.
    pub ref_delta: [i8; 8],
    /// These are the deltas by mode. Those in the bits are -64 to 63.
    pub mode_delta: [i8; 2],
}

/// What reading and writing [`Params`] must know.
#[derive(Clone, Copy, Debug, PartialEq, Eq)]
pub struct ParamsGiven {
    /// This is the standard's NumPlanes. Above 1 there is chroma.
    pub planes: u32,
    /// This is the standard's CodedLossless.
    pub lossless: bool,
    /// This is the standard's allow_intrabc.
    pub intrabc: bool,
    /// These are the deltas by reference that the primary reference frame ended with, or the defaults if there is no
    /// such frame.
    pub ref_delta: [i8; 8],
    /// These are the deltas by mode before, as `ref_delta` is those by reference.
    pub mode_delta: [i8; 2],
}

impl ParamsGiven {
    /// Answers what is given where there is no primary reference frame: the standard's default deltas, both flags
    /// false.
    pub fn new(planes: u32) -> ParamsGiven {
        ParamsGiven {
            planes,
            lossless: false,
            intrabc: false,
            ref_delta: [1, 0, 0, 0, -1, 0, -1, -1],
            mode_delta: [0, 0],
        }
    }
}

impl Params {
    /// Reads the parameters from place `at` of the bytes on. Places count bits, from the highest bit of the first byte.
    /// Answers them, and how many bits they are: 0, or 16 to 109.
    ///
    /// A delta that is not in the bits stays as before. All else that is not in the bits is 0 or false. With lossless
    /// or intrabc no bits are read, and the deltas become the defaults.
    ///
    /// Refused with [`Refusal::Bits`].
    pub fn read(bytes: &[u8], at: usize, given: &ParamsGiven) -> Result<(Params, usize), Refusal> {
        let (mut level, mut bits, mut update, mut count) = ([0; 4], [0; 3], [0; 10], [0]);
        let (mut ref_delta, mut mode_delta) = (given.ref_delta, given.mode_delta);
        // SAFETY: the pointer stands with the length of its slice, and tables have the declared sizes. The archive
        // takes any content.
        done(unsafe {
            ffi::deblock_read_params(
                bytes.as_ptr(),
                bytes.len(),
                at,
                given.planes,
                given.lossless.into(),
                given.intrabc.into(),
                &mut level,
                &mut bits,
                &mut update,
                &mut ref_delta,
                &mut mode_delta,
                &mut count,
            )
        })?;
        let params = Params {
            level,
            sharpness: bits[0],
            delta_enabled: bits[1] != 0,
            delta_update: bits[2] != 0,
            update_ref: array::from_fn(|i| update[i] != 0),
            update_mode: array::from_fn(|i| update[8 + i] != 0),
            ref_delta,
            mode_delta,
        };
        Ok((params, count[0] as usize))
    }

    /// Writes the parameters from place `at` of the bytes on, and answers how many bits they are. Every other bit of
    /// the bytes is as before.
    ///
    /// Refused with [`Refusal::Unwritable`] where no bits with these update choices read back as these values, else
    /// with [`Refusal::Bits`]. With lossless or intrabc no bits are written, and the call is refused unless the deltas
    /// are the defaults and all else is 0 or false. Without them it is refused with [`Refusal::Unwritable`] if one of
    /// these holds:
    ///
    /// - A level is above 63, the sharpness is above 7, or a delta in the bits is outside -64 to 63.
    /// - `delta_update` is true without `delta_enabled`, or an update is true without `delta_update`.
    /// - A level of U or V is not 0 and not in the bits.
    /// - A delta that is not in the bits differs from the one before.
    pub fn write(
        &self,
        bytes: &mut [u8],
        at: usize,
        given: &ParamsGiven,
    ) -> Result<usize, Refusal> {
        let bits = [
            self.sharpness,
            self.delta_enabled.into(),
            self.delta_update.into(),
        ];
        let update = array::from_fn(|i| match i {
            0..=7 => self.update_ref[i].into(),
            _ => self.update_mode[i - 8].into(),
        });
        let mut count = [0];
        // SAFETY: the pointer stands with the length of its slice, and tables have the declared sizes. The archive
        // takes any content.
        done(unsafe {
            ffi::deblock_write_params(
                bytes.as_mut_ptr(),
                bytes.len(),
                at,
                given.planes,
                given.lossless.into(),
                given.intrabc.into(),
                &given.ref_delta,
                &given.mode_delta,
                &self.level,
                &bits,
                &update,
                &self.ref_delta,
                &self.mode_delta,
                &mut count,
            )
        })?;
        Ok(count[0] as usize)
    }
}

/// Takes what [`levels`](crate::levels) needs of the parameters. What else a header has is 0 or false.
impl From<Params> for Header {
    fn from(params: Params) -> Self {
        Header {
            base: params.level,
            delta_enabled: params.delta_enabled,
            ref_delta: params.ref_delta,
            mode_delta: params.mode_delta,
            ..Header::default()
        }
    }
}
