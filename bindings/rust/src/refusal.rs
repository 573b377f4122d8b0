use std::error::Error;
use std::fmt;

/// Why a call was refused. The numbers are those of the repository's docs/SPECIFICATION.md, and the names are those of
/// the archive's source and of the C header. A call gives a number exactly when what it says holds. If several hold,
/// the lowest is given, except that `Unwritable` comes before `Bits`. A refused call has stored nothing.
#[derive(Clone, Copy, Debug, PartialEq, Eq, Hash)]
#[repr(u32)]
pub enum Refusal {
    /// The sharpness is above 7.
    Sharpness = 1,
    /// A base level is above 63, a reference or mode delta is outside -64 to 63, an lf or segment delta is outside
    /// -63 to 63, or chroma has a base level other than 0 at 4:0:0.
    Level = 2,
    /// The depth is not 8, 10 or 12. [`Depth`](crate::Depth) has no such value, so only its `TryFrom` gives this.
    Depth = 3,
    /// A frame side is outside 1 to 16,384, the superblock size is not 64 or 128, or a chroma pair is given at 4:0:0.
    /// [`Layout`](crate::Layout) has no wrong value, so only its `TryFrom` gives this for a layout.
    Shape = 4,
    /// The block's place is not a multiple of its own width and height, or lies past the frame. Or a transform is
    /// wider or higher than the block in its plane. Or an inter block has a luma transform that is neither the
    /// block's own size cut at 64 each way nor 4x4. Or the reference is above 7. [`BlockSize`](crate::BlockSize) and
    /// [`TxSize`](crate::TxSize) have no wrong value, so only their conversions give this for a code.
    Block = 5,
    /// A context has fewer bytes than the units recorded or corrected along it, or it holds a value above its range
    /// among those.
    Context = 6,
    /// The level bytes or the masks are too short, or `level_stride` is less than the frame's width in units.
    Length = 7,
    /// A level byte of this pass is above 63, at a unit of the superblock row or, for rows, of the unit line above
    /// it.
    LevelByte = 8,
    /// A plane is too short, its stride is less than the stored width, or a sample is above the depth's maximum among
    /// the superblock row's stored lines and, for rows, the 8 above.
    Plane = 9,
    /// The superblock row, or the tile start counted in superblocks, lies outside the frame.
    Outside = 10,
    /// An edge breaks the gap rule in this superblock row: it is too close to another for its width. A forgotten
    /// [`correct_column`](crate::correct_column) does this in most frames.
    Gap = 11,
    /// A mask bit of this superblock row lies outside the frame, or outside the bits that its half may hold. Masks
    /// that were not cleared can do this.
    MaskBit = 12,
    /// The bytes end before the parameters do: bits run out in reading, or room in writing.
    Bits = 23,
    /// No bits with these update choices read back as these values. [`Params::write`](crate::Params::write) says which
    /// values these are.
    Unwritable = 24,
}

impl Refusal {
    /// This is every refusal, in the order of the numbers.
    pub const ALL: [Refusal; 14] = [
        Refusal::Sharpness,
        Refusal::Level,
        Refusal::Depth,
        Refusal::Shape,
        Refusal::Block,
        Refusal::Context,
        Refusal::Length,
        Refusal::LevelByte,
        Refusal::Plane,
        Refusal::Outside,
        Refusal::Gap,
        Refusal::MaskBit,
        Refusal::Bits,
        Refusal::Unwritable,
    ];

    /// Answers the number, 1 to 12, 23 or 24.
    pub fn number(self) -> u32 {
        self as u32
    }
}

/// Takes a number that a call of the archive has answered. A number that is no refusal comes back.
impl TryFrom<u32> for Refusal {
    type Error = u32;

    fn try_from(number: u32) -> Result<Self, u32> {
        let named = |refusal: &Refusal| refusal.number() == number;
        Self::ALL.into_iter().find(named).ok_or(number)
    }
}

/// Writes the sentence that C's `deblock_text` has for the number.
impl fmt::Display for Refusal {
    fn fmt(&self, f: &mut fmt::Formatter) -> fmt::Result {
        f.write_str(match self {
            Self::Sharpness => "the sharpness is above 7",
            Self::Level => "a base level or a delta is out of its range, or chroma has a base level at 4:0:0",
            Self::Depth => "the depth is not 8, 10 or 12",
            Self::Shape => "the layout, a frame side or the superblock size is wrong, or a block has chroma at 4:0:0",
            Self::Block => "the block's size, transform, place or reference is not allowed",
            Self::Context => "a context is too short, or holds a value above its range",
            Self::Length => "the level bytes or the masks are too short, or level_stride is less than the frame's width in units",
            Self::LevelByte => "a level byte is above 63",
            Self::Plane => "a plane is too short, its stride is less than the stored width, or a sample is above the depth's maximum",
            Self::Outside => "the superblock row or the tile start lies outside the frame",
            Self::Gap => {
                "an edge breaks the gap rule: it lies too close to another edge or to a boundary for its class"
            }
            Self::MaskBit => "a mask bit lies outside the frame, or outside the bits that its half may hold",
            Self::Bits => "the bytes end before the parameters do",
            Self::Unwritable => "no bits with these update choices read back as these values",
        })
    }
}

impl Error for Refusal {}

/// What the archive's answer says.
pub(crate) fn done(number: u32) -> Result<(), Refusal> {
    match number {
        0 => Ok(()),
        _ => Err(Refusal::try_from(number).expect("the archive answers 0 or a refusal's number")),
    }
}
