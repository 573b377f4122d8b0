use crate::Refusal;

/// An enum of sizes, each with its code and its sides, and what can be asked of it.
macro_rules! sizes {
    ($(#[$about:meta])* $Size:ident, $last:literal, $($name:ident = $code:literal => ($width:literal, $height:literal),)*) => {
        $(#[$about])*
        #[allow(missing_docs)]
        #[derive(Clone, Copy, Debug, PartialEq, Eq, Hash)]
        #[repr(u32)]
        pub enum $Size {
            $($name = $code,)*
        }

        impl $Size {
            /// This is every size, in the order of the codes.
            pub const ALL: [$Size; $last + 1] = [$($Size::$name,)*];

            /// Answers the standard's code.
            pub fn code(self) -> u32 {
                self as u32
            }

            /// Answers the width in samples.
            pub fn width(self) -> u32 {
                [$($width,)*][self as usize]
            }

            /// Answers the height in samples.
            pub fn height(self) -> u32 {
                [$($height,)*][self as usize]
            }
        }

        #[doc = concat!("Takes the standard's code. A code above ", $last, " is [`Refusal::Block`].")]
        impl TryFrom<u32> for $Size {
            type Error = Refusal;

            fn try_from(code: u32) -> Result<Self, Refusal> {
                at(&Self::ALL, code)
            }
        }
    };
}

sizes! {
    /// The size of a block, width by height in luma samples. The codes are the standard's, 0 to 21.
    ///
    /// A decoder that has dav1d's or rav1d's `BlockSize` converts it with [`from_dav1d`](Self::from_dav1d). If codes of
    /// the two kinds are mixed up, only some blocks are refused.
    BlockSize, 21,
    Block4x4 = 0 => (4, 4),
    Block4x8 = 1 => (4, 8),
    Block8x4 = 2 => (8, 4),
    Block8x8 = 3 => (8, 8),
    Block8x16 = 4 => (8, 16),
    Block16x8 = 5 => (16, 8),
    Block16x16 = 6 => (16, 16),
    Block16x32 = 7 => (16, 32),
    Block32x16 = 8 => (32, 16),
    Block32x32 = 9 => (32, 32),
    Block32x64 = 10 => (32, 64),
    Block64x32 = 11 => (64, 32),
    Block64x64 = 12 => (64, 64),
    Block64x128 = 13 => (64, 128),
    Block128x64 = 14 => (128, 64),
    Block128x128 = 15 => (128, 128),
    Block4x16 = 16 => (4, 16),
    Block16x4 = 17 => (16, 4),
    Block8x32 = 18 => (8, 32),
    Block32x8 = 19 => (32, 8),
    Block16x64 = 20 => (16, 64),
    Block64x16 = 21 => (64, 16),
}

sizes! {
    /// The size of a transform, width by height in samples of its own plane. The codes are the standard's. Those of dav1d
    /// and rav1d are the same, so `TryFrom` takes them too.
    TxSize, 18,
    Tx4x4 = 0 => (4, 4),
    Tx8x8 = 1 => (8, 8),
    Tx16x16 = 2 => (16, 16),
    Tx32x32 = 3 => (32, 32),
    Tx64x64 = 4 => (64, 64),
    Tx4x8 = 5 => (4, 8),
    Tx8x4 = 6 => (8, 4),
    Tx8x16 = 7 => (8, 16),
    Tx16x8 = 8 => (16, 8),
    Tx16x32 = 9 => (16, 32),
    Tx32x16 = 10 => (32, 16),
    Tx32x64 = 11 => (32, 64),
    Tx64x32 = 12 => (64, 32),
    Tx4x16 = 13 => (4, 16),
    Tx16x4 = 14 => (16, 4),
    Tx8x32 = 15 => (8, 32),
    Tx32x8 = 16 => (32, 8),
    Tx16x64 = 17 => (16, 64),
    Tx64x16 = 18 => (64, 16),
}

use BlockSize::*;

/// The sizes by dav1d's code: the widest first, and of equal widths the highest first.
const OF_DAV1D: [BlockSize; 22] = [
    Block128x128,
    Block128x64,
    Block64x128,
    Block64x64,
    Block64x32,
    Block64x16,
    Block32x64,
    Block32x32,
    Block32x16,
    Block32x8,
    Block16x64,
    Block16x32,
    Block16x16,
    Block16x8,
    Block16x4,
    Block8x32,
    Block8x16,
    Block8x8,
    Block8x4,
    Block4x16,
    Block4x8,
    Block4x4,
];

impl BlockSize {
    /// Answers the size that has this code in dav1d and in rav1d. Both number their `BlockSize` from 0, 128x128, to
    /// 21, 4x4. A code above 21 is [`Refusal::Block`].
    pub fn from_dav1d(code: u32) -> Result<BlockSize, Refusal> {
        at(&OF_DAV1D, code)
    }
}

fn at<Size: Copy>(sizes: &[Size], code: u32) -> Result<Size, Refusal> {
    sizes.get(code as usize).copied().ok_or(Refusal::Block)
}
