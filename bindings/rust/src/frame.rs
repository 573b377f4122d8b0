use crate::Refusal;

/// Which planes a frame has, and how chroma is subsampled.
#[derive(Clone, Copy, Debug, PartialEq, Eq, Hash)]
#[repr(u32)]
pub enum Layout {
    /// At 4:0:0 there is luma alone.
    I400 = 400,
    /// At 4:2:0 chroma is halved both ways.
    I420 = 420,
    /// At 4:2:2 chroma is halved across.
    I422 = 422,
    /// At 4:4:4 chroma is as large as luma.
    I444 = 444,
}

impl Layout {
    /// Answers 400, 420, 422 or 444.
    pub fn number(self) -> u32 {
        self as u32
    }

    /// Whether there is chroma.
    pub(crate) fn has_chroma(self) -> bool {
        self != Self::I400
    }

    /// How often chroma is halved across, and how often down.
    pub(crate) fn ss(self) -> (u32, u32) {
        match self {
            Self::I400 | Self::I422 => (1, 0),
            Self::I420 => (1, 1),
            Self::I444 => (0, 0),
        }
    }
}

/// Takes 400, 420, 422 or 444. Any other number is [`Refusal::Shape`].
impl TryFrom<u32> for Layout {
    type Error = Refusal;

    fn try_from(number: u32) -> Result<Self, Refusal> {
        match number {
            400 => Ok(Self::I400),
            420 => Ok(Self::I420),
            422 => Ok(Self::I422),
            444 => Ok(Self::I444),
            _ => Err(Refusal::Shape),
        }
    }
}

/// How many bits a sample has.
#[derive(Clone, Copy, Debug, PartialEq, Eq, Hash)]
#[repr(u32)]
pub enum Depth {
    /// A sample has 8 bits, up to 255. The calls on `u8` planes have this depth, and those on `u16` planes accept it.
    Eight = 8,
    /// A sample has 10 bits, up to 1,023.
    Ten = 10,
    /// A sample has 12 bits, up to 4,095.
    Twelve = 12,
}

impl Depth {
    /// Answers 8, 10 or 12.
    pub fn bits(self) -> u32 {
        self as u32
    }
}

/// Takes 8, 10 or 12. Any other number is [`Refusal::Depth`].
impl TryFrom<u32> for Depth {
    type Error = Refusal;

    fn try_from(bits: u32) -> Result<Self, Refusal> {
        match bits {
            8 => Ok(Self::Eight),
            10 => Ok(Self::Ten),
            12 => Ok(Self::Twelve),
            _ => Err(Refusal::Depth),
        }
    }
}

/// A frame's size and shape.
///
/// A unit is 4 by 4 samples of its own plane. Luma units and chroma units are counted apart. The methods say how long
/// everything must be that is lent to the calls. They answer something for every frame, also for one that the calls
/// refuse with [`Refusal::Shape`].
#[derive(Clone, Copy, Debug, PartialEq, Eq, Hash)]
pub struct Frame {
    /// The frame is this many luma samples wide, 1 to 16,384.
    pub width: u32,
    /// The frame is this many luma samples high, 1 to 16,384.
    pub height: u32,
    /// The layout says which planes there are.
    pub layout: Layout,
    /// A superblock's side is 64 or 128 luma samples. The calls that record do not look at it.
    pub superblock: u32,
}

impl Frame {
    /// Answers the width in luma units, (width+3)/4.
    pub fn w4(&self) -> u32 {
        self.width.div_ceil(4)
    }

    /// Answers the height in luma units, (height+3)/4.
    pub fn h4(&self) -> u32 {
        self.height.div_ceil(4)
    }

    /// Answers the width in chroma units, 0 at 4:0:0.
    pub fn chroma_w4(&self) -> u32 {
        self.chroma(self.w4(), self.layout.ss().0)
    }

    /// Answers the height in chroma units, 0 at 4:0:0.
    pub fn chroma_h4(&self) -> u32 {
        self.chroma(self.h4(), self.layout.ss().1)
    }

    /// Answers how many superblocks the frame is wide. The last may reach past the frame.
    pub fn superblock_columns(&self) -> u32 {
        self.superblocks(self.width)
    }

    /// Answers how many superblock rows the frame has. The last may reach past the frame.
    pub fn superblock_rows(&self) -> u32 {
        self.superblocks(self.height)
    }

    /// Answers how many words the masks have at least: 640 for each 128 by 128 samples.
    pub fn masks_len(&self) -> usize {
        let records = |units: u32| units.div_ceil(32) as usize;
        640 * records(self.w4()) * records(self.h4())
    }

    /// Answers how many level bytes there are at least: 4 for each unit of each line of `level_stride` units.
    pub fn levels_len(&self, level_stride: usize) -> usize {
        level_stride.saturating_mul(4 * self.h4() as usize)
    }

    /// Answers the width and the height that the luma plane holds at least, in samples. They are the frame's sides,
    /// each rounded up to a multiple of 128. The stride is at least this width, and the plane's length is at least
    /// this height times the stride.
    pub fn stored_luma(&self) -> (usize, usize) {
        (stored(self.width), stored(self.height))
    }

    /// Answers the width and the height that U holds at least, and V, in samples. They are luma's, halved as the
    /// layout says, or 0 and 0 at 4:0:0.
    pub fn stored_chroma(&self) -> (usize, usize) {
        let (hor, ver) = self.layout.ss();
        match self.layout.has_chroma() {
            true => (stored(self.width) >> hor, stored(self.height) >> ver),
            false => (0, 0),
        }
    }

    /// Answers how many bytes [`Contexts::above`](crate::Contexts) has for the frame's whole width.
    pub fn above_len(&self) -> usize {
        self.w4() as usize
    }

    /// Answers how many bytes [`Contexts::left`](crate::Contexts) has for the frame's whole height.
    pub fn left_len(&self) -> usize {
        self.h4() as usize
    }

    /// Answers how many bytes [`Contexts::above_uv`](crate::Contexts) has for the frame's whole width, 0 at 4:0:0.
    pub fn above_uv_len(&self) -> usize {
        self.chroma_w4() as usize
    }

    /// Answers how many bytes [`Contexts::left_uv`](crate::Contexts) has for the frame's whole height, 0 at 4:0:0.
    pub fn left_uv_len(&self) -> usize {
        self.chroma_h4() as usize
    }

    /// Answers how many bytes the four contexts have together, for [`Contexts::within`](crate::Contexts::within).
    pub fn contexts_len(&self) -> usize {
        self.above_len() + self.left_len() + self.above_uv_len() + self.left_uv_len()
    }

    /// The frame's own width and height in chroma samples.
    pub(crate) fn chroma_sides(&self) -> (usize, usize) {
        let (hor, ver) = self.layout.ss();
        let side = |side, ss| self.chroma(side, ss) as usize;
        (side(self.width, hor), side(self.height, ver))
    }

    /// A side of luma as chroma has it, rounded up.
    fn chroma(&self, side: u32, ss: u32) -> u32 {
        match self.layout.has_chroma() {
            true => side.div_ceil(1 << ss),
            false => 0,
        }
    }

    /// A wrong superblock size counts as 64: then there is a superblock, and its call refuses the frame.
    fn superblocks(&self, side: u32) -> u32 {
        side.div_ceil(if self.superblock == 128 { 128 } else { 64 })
    }
}

fn stored(side: u32) -> usize {
    side.div_ceil(128) as usize * 128
}
