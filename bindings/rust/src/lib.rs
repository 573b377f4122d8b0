//! The deblocking filter of AV1, verified: a safe interface to the archive of crate `deblock`. Every call of the
//! archive is proved to end on all input, to answer its number exactly when the repository's docs/SPECIFICATION.md says
//! so, and to give the samples of section 7.14 of the standard and the header values of section 5.9.11. What is proved
//! is the archive. This crate passes slices to it. A test holds the crate's declarations to the archive's source.
//!
//! A frame goes through these calls:
//!
//! 1. [`Limits::new`] and [`levels`] take what the frame header says.
//! 2. [`record_intra`] or [`record_inter`] takes each block, in the order of decoding.
//! 3. [`correct_column`] and [`correct_row`] correct the edges at the start of each tile.
//! 4. [`columns_8`] and [`rows_8`], or [`columns_16`] and [`rows_16`], filter each superblock row.
//!
//! The program `examples/frame.rs` takes a frame of four tiles through all of this. `cargo run --example frame` runs
//! it.
//!
//! [`Params::read`] reads the loop filter parameters of a frame header from its bits, for a decoder that does not do so
//! itself, and [`Params::write`] writes them. [`list`] lists the edges of a script's blocks.
//!
//! ```
//! use deblock::*;
//!
//! # fn main() -> Result<(), Refusal> {
//! let frame = Frame { width: 16, height: 8, layout: Layout::I400, superblock: 64 };
//! let limits = Limits::new(0)?;
//! let mut values = [0; 512];
//! levels(&mut values, frame.layout, &Header { base: [32, 32, 0, 0], ..Header::default() })?;
//! let values = segment(&values, 0).unwrap();
//!
//! // Two intra blocks of 8x8 have one transform each: there is one edge, at unit 2.
//! let level_stride = frame.w4() as usize;
//! let (mut bytes, mut masks) = (vec![0; frame.levels_len(level_stride)], vec![0; frame.masks_len()]);
//! let mut records = Records { levels: &mut bytes, level_stride, masks: &mut masks };
//! let mut context_bytes = vec![0; frame.contexts_len()];
//! let mut contexts = Contexts::within(&mut context_bytes, &frame);
//! contexts.start_above();
//! contexts.start_left();
//! for x in [0, 2] {
//!     let block = Block { x, y: 0, size: BlockSize::Block8x8, tx: TxSize::Tx8x8, chroma: None };
//!     record_intra(&mut records, values, &frame, &block, &mut contexts.at(&frame, x, 0))?;
//! }
//!
//! let (luma_stride, lines) = frame.stored_luma();
//! let mut luma = vec![0; luma_stride * lines];
//! for line in luma.chunks_mut(luma_stride).take(8) {
//!     line[..8].fill(100);
//!     line[8..16].fill(104);
//! }
//! let pass =
//!     Pass { frame, levels: &bytes, level_stride, masks: &masks, limits: &limits, level_u: 0, level_v: 0 };
//! let mut planes =
//!     Planes { luma: &mut luma, luma_stride, u: &mut [], v: &mut [], chroma_stride: 0 };
//! columns_8(&mut planes, &pass, 0)?;
//! rows_8(&mut planes, &pass, 0)?;
//! assert_eq!(luma[4..12], [100, 101, 101, 102, 103, 103, 104, 104]);
//!
//! // A refusal says why, and stores nothing.
//! assert_eq!(Limits::new(8), Err(Refusal::Sharpness));
//! assert_eq!(Refusal::Sharpness.to_string(), "the sharpness is above 7");
//! # Ok(())
//! # }
//! ```
//!
//! # What the caller must do
//!
//! The calls cannot notice all of these mistakes.
//!
//! - Convert block codes that are dav1d's or rav1d's with [`BlockSize::from_dav1d`], and add 1 to their reference.
//! - Give [`Params::read`] the deltas of the primary reference frame, and set its flags `lossless` and `intrabc`.
//! - If your decoder reads the header itself, narrow its deltas with [`delta`]. Clip those of segments, which a stream
//!   may hold at -64, with [`segment_delta`].
//! - Skip a frame whose two luma levels are both 0.
//! - Clear the masks for each frame. Recording adds bits and takes none away.
//! - Clear the padding of the planes for each frame, before it is decoded: [`Planes::clear_padding`].
//! - Set `above` to its start values at the top of each tile row, and `left` at the start of each superblock row of each
//!   tile. Before you do, save what the corrections need ([Tiles](#tiles)).
//! - Make the corrections of a superblock row before both of its passes.
//! - Filter the rows of superblock row k after the columns of k and of k - 1. Beyond that every order gives the same
//!   samples.
//!
//! # Tiles
//!
//! A context byte is the class of the transform that ends at its unit. In each tile the contexts begin again: `above` at
//! the tile's top ([`Contexts::start_above`]), and `left` at the start of each of its superblock rows
//! ([`Contexts::start_left`]). The corrections need the bytes that stood there, so save them before you set them anew:
//!
//! - Save `left` and `left_uv` after the last block of each superblock row of a tile. [`correct_column`] takes them,
//!   for the same superblock row and the tile on the right.
//! - Save `above` and `above_uv` after the last superblock row of a tile row, along the frame's whole width.
//!   [`correct_row`] takes them, for the first superblock row of the tile row below.
//!
//! Or copy nothing: keep `above` and `above_uv` for each tile row, and `left` and `left_uv` for each tile column, of the
//! lengths that [`Frame`] gives. The contexts of a tile are then
//! `Contexts { above: &mut above[tile_row], left: &mut left[tile_column], .. }`, and `left` is set anew only from the
//! superblock row's first unit y on: `contexts.at(&frame, 0, y).start_left()`.
//!
//! [`Refusal::Gap`], number 11, notices a forgotten column correction in most frames. No number notices a forgotten
//! row correction: the samples are wrong and every call is accepted.
//!
//! # Threads
//!
//! What is said above of orders is proved for calls one after another. Planes, masks and levels are lent to one call
//! at a time: with this crate, workers that share a frame take turns. The repository's docs/USING.md has a table of
//! the archive's calls that may be in progress at the same moment. That table is checked by runs, and not proved.

#![warn(missing_docs)]

mod corrections;
mod ffi;
mod filtering;
mod frame;
mod listing;
mod params;
mod recording;
mod refusal;
mod sizes;
mod tables;
mod version;

pub use corrections::{correct_column, correct_row};
pub use filtering::{columns_16, columns_8, rows_16, rows_8, Pass, Planes};
pub use frame::{Depth, Frame, Layout};
pub use listing::list;
pub use params::{Params, ParamsGiven};
pub use recording::{record_inter, record_intra, Block, Contexts, Inter, Records};
pub use refusal::Refusal;
pub use sizes::{BlockSize, TxSize};
pub use tables::{delta, levels, limits, segment, segment_delta, Header, Limits};
pub use version::{version, VERSION};
