// Verified AV1 deblocking: the calls of libdeblock.a, which `tools/prove deblock` builds. deblock_frame.h has the same
// calls with structs, and the lengths of everything that is lent: begin there.
//
// Every call returns on all input, keeps no state and checks its own arguments. It answers a number (deblock_list answers
// a length, deblock_version the version): 0 when it is done, another when it refuses. docs/SPECIFICATION.md says exactly
// when each number is given. If several hold, the lowest is given, except that 24 comes before 23. A call that refuses has
// stored nothing. What a call answers and stores is its contract in crate `deblock`, and the contract is proved
// (docs/CONTRACTS.md). C leaves this to the caller:
//   A pointer is aligned and not null, even if its length is 0.
//   It has as many elements behind it as its length says, or as the number in brackets.
//   What is lent to a call and is not const overlaps nothing else that is lent to the same call.
//
// Calls on several threads may be lent the same arrays. docs/USING.md says which elements each call may load and store,
// and so which calls may be in progress together. That page is checked by runs. The proofs are about calls that are made
// one after another.
#ifndef DEBLOCK_H
#define DEBLOCK_H

#include <stddef.h>
#include <stdint.h>

#ifdef __cplusplus
extern "C" {
#endif

// 10000 * major + 100 * minor + patch. deblock_version answers the archive's own: compare the two when you start.
#define DEBLOCK_VERSION 300
uint32_t deblock_version(void);

enum deblock_number {
    DEBLOCK_DONE = 0,
    DEBLOCK_SHARPNESS = 1,  // the sharpness is above 7
    DEBLOCK_LEVEL = 2,      // a base level is above 63, a delta is out of its range, or chroma has a base level at 400
    DEBLOCK_DEPTH = 3,      // the depth is not 8, 10 or 12
    DEBLOCK_SHAPE = 4,      // the layout, a frame side or the superblock size is wrong, or a block has chroma at 400
    DEBLOCK_BLOCK = 5,      // the block's size, transform, place or reference is not allowed
    DEBLOCK_CONTEXT = 6,    // a context is too short, or holds a value above its range
    DEBLOCK_LENGTH = 7,     // the level bytes or the masks are too short, or level_stride is below w4
    DEBLOCK_LEVEL_BYTE = 8, // a level byte is above 63
    DEBLOCK_PLANE = 9,      // a plane is too short, its stride is below the stored width, or a sample is above the maximum
    DEBLOCK_OUTSIDE = 10,   // the superblock row or the tile start lies outside the frame
    DEBLOCK_GAP = 11,       // an edge breaks the gap rule: it lies too close to another edge or to a boundary for its class
    DEBLOCK_MASK_BIT = 12,  // a mask bit lies outside the frame, or outside the bits that its half may hold
    DEBLOCK_BITS = 23,      // the bytes end before the parameters do: bits run out in reading, or room in writing
    DEBLOCK_UNWRITABLE = 24 // no bits with these update choices read back as these values
};
// DEBLOCK_GAP comes most often from masks that were not cleared, from a forgotten deblock_correct_column, or from contexts
// that did not begin at the block. A half is one of the two mask words of a class at a unit: it holds 16 units, or 8 where
// chroma is halved along it.

// Block and transform sizes, by the standard's codes.
enum deblock_block_size {
    DEBLOCK_BLOCK_4X4 = 0, DEBLOCK_BLOCK_4X8 = 1, DEBLOCK_BLOCK_8X4 = 2, DEBLOCK_BLOCK_8X8 = 3,
    DEBLOCK_BLOCK_8X16 = 4, DEBLOCK_BLOCK_16X8 = 5, DEBLOCK_BLOCK_16X16 = 6, DEBLOCK_BLOCK_16X32 = 7,
    DEBLOCK_BLOCK_32X16 = 8, DEBLOCK_BLOCK_32X32 = 9, DEBLOCK_BLOCK_32X64 = 10, DEBLOCK_BLOCK_64X32 = 11,
    DEBLOCK_BLOCK_64X64 = 12, DEBLOCK_BLOCK_64X128 = 13, DEBLOCK_BLOCK_128X64 = 14, DEBLOCK_BLOCK_128X128 = 15,
    DEBLOCK_BLOCK_4X16 = 16, DEBLOCK_BLOCK_16X4 = 17, DEBLOCK_BLOCK_8X32 = 18, DEBLOCK_BLOCK_32X8 = 19,
    DEBLOCK_BLOCK_16X64 = 20, DEBLOCK_BLOCK_64X16 = 21
};

enum deblock_tx_size {
    DEBLOCK_TX_4X4 = 0, DEBLOCK_TX_8X8 = 1, DEBLOCK_TX_16X16 = 2, DEBLOCK_TX_32X32 = 3,
    DEBLOCK_TX_64X64 = 4, DEBLOCK_TX_4X8 = 5, DEBLOCK_TX_8X4 = 6, DEBLOCK_TX_8X16 = 7,
    DEBLOCK_TX_16X8 = 8, DEBLOCK_TX_16X32 = 9, DEBLOCK_TX_32X16 = 10, DEBLOCK_TX_32X64 = 11,
    DEBLOCK_TX_64X32 = 12, DEBLOCK_TX_4X16 = 13, DEBLOCK_TX_16X4 = 14, DEBLOCK_TX_8X32 = 15,
    DEBLOCK_TX_32X8 = 16, DEBLOCK_TX_16X64 = 17, DEBLOCK_TX_64X16 = 18
};

// The block size of a code of dav1d or rav1d, whose BlockSize has another order: a call refuses only some mix-ups. Their
// transform codes are the standard's.
static const uint8_t deblock_block_of_dav1d[22] = {
    DEBLOCK_BLOCK_128X128, DEBLOCK_BLOCK_128X64, DEBLOCK_BLOCK_64X128, DEBLOCK_BLOCK_64X64,
    DEBLOCK_BLOCK_64X32, DEBLOCK_BLOCK_64X16, DEBLOCK_BLOCK_32X64, DEBLOCK_BLOCK_32X32,
    DEBLOCK_BLOCK_32X16, DEBLOCK_BLOCK_32X8, DEBLOCK_BLOCK_16X64, DEBLOCK_BLOCK_16X32,
    DEBLOCK_BLOCK_16X16, DEBLOCK_BLOCK_16X8, DEBLOCK_BLOCK_16X4, DEBLOCK_BLOCK_8X32,
    DEBLOCK_BLOCK_8X16, DEBLOCK_BLOCK_8X8, DEBLOCK_BLOCK_8X4, DEBLOCK_BLOCK_4X16,
    DEBLOCK_BLOCK_4X8, DEBLOCK_BLOCK_4X4
};

// What is lent, and what the caller must do:
//   width, height  1 to 16384 samples. The frame has w4 = (width + 3) / 4 by h4 = (height + 3) / 4 luma units. A unit is
//                  4 by 4 samples of its own plane.
//   layout         400, 420, 422 or 444. A superblock is 64 or 128. A flag is true if it is not 0.
//   levels         4 bytes for each unit. Luma columns and luma rows are at 4 * (y * level_stride + x) and one on, by the
//                  luma unit. U and V are two and three on, by the chroma unit. level_stride is at least w4, and there
//                  are 4 * level_stride * h4 bytes or more. They need no clearing where blocks cover the frame.
//   masks          640 words for each 128 by 128 samples, ((w4 + 31) / 32) * ((h4 + 31) / 32) times, in raster order.
//                  Clear them for each frame: recording adds bits and takes none away.
//   above, left    contexts, a byte for each unit: luma 0 to 2, chroma (_uv) 0 to 1. A block needs a byte for each of its
//                  units that lie in the frame. See "Tiles".
//   luma, u, v     planes. Each holds the frame's sides rounded up to 128 samples, chroma's halved as the layout says.
//                  Strides are in samples. Clear the padding for each frame before it is decoded: DEBLOCK_PLANE looks at
//                  whole stored lines, and a frame of another size or depth may have been there before. Do not clear it
//                  after decoding. A block at the frame's right or bottom side reaches into the padding, and the filter
//                  may read what decoding stored there, up to 7 samples from an edge.
// Chroma's slices may have length 0 where no chroma is recorded, corrected or filtered.
//
// Tiles. A context byte is the class of the transform that ends at its unit: luma 0, 1, 2 for a side of 4, 8, 16 samples
// or more, chroma 0, 1 for a side of 4, 8 or more. Contexts start anew with each tile. At the top of a tile set its above
// to 2 and its above_uv to 1. At the start of each superblock row of a tile set left to 2 and left_uv to 1. The corrections
// need the bytes that stood there, so save these before you set them anew:
//   left, left_uv    after the last block of each superblock row of a tile. deblock_correct_column takes them, for the
//                    same superblock row and the tile to the right.
//   above, above_uv  after the last superblock row of a tile row, along the frame's whole width. deblock_correct_row
//                    takes them, for the first superblock row of the tile row below.
// Or keep an above for each tile row and a left for each tile column, and copy nothing: then set only the bytes of the
// superblock row that begins, since the others are still needed. Correct a superblock row after its blocks are recorded
// and before both of its passes. DEBLOCK_GAP notices a forgotten deblock_correct_column in most frames. No call notices a
// forgotten deblock_correct_row, or contexts that were not set anew.

// The loop filter parameters of a frame header (5.9.11 of the standard), read from its bits and written into them. Places
// count bits: place 0 is the highest bit of byte 0, place 7 its lowest, place 8 the highest bit of byte 1. The parameters
// begin at place `at`. count is how many bits were read or written: 0, or 16 to 109. A refusal leaves it as it was, too.
//   planes             the standard's NumPlanes. Above 1 there is chroma.
//   lossless, intrabc  flags, the standard's CodedLossless and allow_intrabc
//   level              luma columns, luma rows, U and V, each 0 to 63. deblock_levels takes them as base.
//   bits               sharpness, 0 to 7, then delta_enabled and delta_update, 0 or 1
//   update             0 or 1 for each delta, 1 if it is in the bits: eight references, then two modes
//   ref_delta          of INTRA, LAST, LAST2, LAST3, GOLDEN, BWDREF, ALTREF2 and ALTREF. In the bits it is -64 to 63.
//   mode_delta         of the two modes. In the bits it is -64 to 63.
// The deltas before are those that the primary reference frame ended with. Without one (primary_ref_frame 7) they are the
// defaults: 1, 0, 0, 0, -1, 0, -1, -1 by reference, and 0, 0 by mode. Any deltas before are taken.
//
// Reading takes the deltas before in ref_delta and mode_delta, and leaves the new ones there. A delta that is not in the
// bits stays as before. All else that is not in the bits is 0. The levels of U and V are not in them if both luma levels
// are 0, or if planes is at most 1. With lossless or intrabc no bits are read, and the deltas become the defaults. Refuses
// with 23. When done, all six arrays are filled.
uint32_t deblock_read_params(const uint8_t *bytes, size_t bytes_len, size_t at, uint32_t planes, uint32_t lossless,
                             uint32_t intrabc, uint8_t level[4], uint8_t bits[3], uint8_t update[10],
                             int8_t ref_delta[8], int8_t mode_delta[2], uint32_t count[1]);

// Writing takes the values that reading leaves, and beside them the deltas before, in ref_before and mode_before. Refuses
// with 24 if no bits with these updates read back as these values, else with 23 if there is no room. With lossless or
// intrabc no bits are written, and 24 is given unless the deltas are the defaults and all else is 0. Without them 24 is
// given if one of these holds:
//   A value is out of its range. A delta that is not in the bits has none.
//   delta_update is 1 without delta_enabled, or an update is 1 without delta_update.
//   A level of U or V is not 0 and not in the bits.
//   A delta that is not in the bits differs from the one before.
// When done, the bits and count are stored. Every other bit of the bytes is as before.
uint32_t deblock_write_params(uint8_t *bytes, size_t bytes_len, size_t at, uint32_t planes, uint32_t lossless,
                              uint32_t intrabc, const int8_t ref_before[8], const int8_t mode_before[2],
                              const uint8_t level[4], const uint8_t bits[3], const uint8_t update[10],
                              const int8_t ref_delta[8], const int8_t mode_delta[2], uint32_t count[1]);

// The limits of each level: e and i are the standard's blimit and limit, sharp is the shift and the cap. No call reads
// sharp: rav1d has it for its assembly. Refuses with 1. When done, all three arrays are filled.
uint32_t deblock_limits(uint8_t e[64], uint8_t i[64], uint64_t sharp[2], uint32_t sharpness);

// The level values [8 segments][4 areas][8 references][2 modes] of a frame header, as the standard works them out. The
// areas are luma columns, luma rows, U and V. base has a level for each area. ref_delta and mode_delta are -64 to 63.
// lf_delta are the standard's DeltaLF, and multi is delta_lf_multi: without it lf_delta[0] counts for all areas. Work the
// values out again where they change inside a frame. lf_delta and seg_delta ([8 segments][4 areas]) are -63 to 63. A stream
// may hold -64 for a segment: the caller clips it, as the standard does. Decoders keep deltas as ints: narrow them so that
// what is out of range stays out of range (deblock_delta and deblock_segment_delta of deblock_frame.h). The caller skips a
// frame whose two luma levels are both 0. Refuses with 2 or 4. When done, all 512 bytes are written, without segmentation
// the first 64.
uint32_t deblock_levels(uint8_t *values /* [512] */, uint32_t layout, const uint8_t base[4], uint32_t delta_enabled,
                        const int8_t ref_delta[8], const int8_t mode_delta[2], uint32_t multi, const int8_t lf_delta[4],
                        uint32_t segmentation, const int8_t *seg_delta /* [32] */);

// One block: its level bytes, the mask bits of its edges, and its last column and row as contexts. Contexts begin at the
// block. values are the 64 of its segment. x and y are luma units, multiples of the block's own width and height. size is
// an enum deblock_block_size, tx and uvtx are an enum deblock_tx_size that fit into the block. chroma is true where the
// block has chroma (dav1d's has_chroma). For an inter block tx is the block's size, each side at most 64 (dav1d's
// max_ytx), or 4x4 in a lossless segment. tx_masks say which transforms are split at depth 0 and 1: bit y * 4 + x, where x
// and y count transforms of that depth (dav1d's tx_split0 and tx_split1). They count in a skipped block too. reference is
// 0 for intra, 1 to 7 for LAST to ALTREF (dav1d's ref[0] + 1). mode is 0 for GLOBALMV and GLOBAL_GLOBALMV, else 1. Refuses
// with 4, 5, 6 or 7. When done, the block is recorded, and every other byte and bit is as before.
uint32_t deblock_record_intra(uint8_t *levels, size_t levels_len, size_t level_stride, uint16_t *masks,
                              size_t masks_len, const uint8_t *values /* [64] */, uint32_t width, uint32_t height,
                              uint32_t layout, uint32_t x, uint32_t y, uint32_t size, uint32_t tx, uint8_t *above, size_t above_len,
                              uint8_t *left, size_t left_len, uint32_t chroma, uint32_t uvtx, uint8_t *above_uv,
                              size_t above_uv_len, uint8_t *left_uv, size_t left_uv_len);
uint32_t deblock_record_inter(uint8_t *levels, size_t levels_len, size_t level_stride, uint16_t *masks,
                              size_t masks_len, const uint8_t *values /* [64] */, uint32_t width, uint32_t height,
                              uint32_t layout, uint32_t x, uint32_t y, uint32_t size, uint32_t tx, const uint16_t tx_masks[2],
                              uint32_t skip, uint32_t reference, uint32_t mode, uint8_t *above, size_t above_len,
                              uint8_t *left, size_t left_len, uint32_t chroma, uint32_t uvtx, uint8_t *above_uv,
                              size_t above_uv_len, uint8_t *left_uv, size_t left_uv_len);

// The edges at a tile's start in superblock row `row`: each takes the lesser of its class and its context's. The contexts
// are what the tile before left ("Tiles"). _column is for the tile whose first superblock is `start`, counted from the
// frame's left side. Its left begins at the superblock row's first unit. _row is for a tile row that starts at `row`, along
// the frame's whole width. Refuses with 4, 6, 7 or 10. When done, the edges are corrected, and every other bit is as
// before. _column stores nothing at start 0, and _row nothing at row 0.
uint32_t deblock_correct_column(uint16_t *masks, size_t masks_len, uint32_t width, uint32_t height, uint32_t layout,
                                uint32_t superblock, uint32_t row, uint32_t start, const uint8_t *left,
                                size_t left_len, const uint8_t *left_uv, size_t left_uv_len);
uint32_t deblock_correct_row(uint16_t *masks, size_t masks_len, uint32_t width, uint32_t height, uint32_t layout,
                             uint32_t superblock, uint32_t row, const uint8_t *above, size_t above_len,
                             const uint8_t *above_uv, size_t above_uv_len);

// One pass of superblock row `row`, over luma, U and V. Chroma is left out at layout 400, and where both of its base
// levels (level_u, level_v) are 0. Call rows of superblock row k after columns of k and of k - 1. docs/USING.md says which
// calls may change places. depth is 8, 10 or 12. Refuses with 2, 3 (_16 alone), 4, 7, 8, 9, 10, 11 or 12. When done, the
// planes are filtered.
uint32_t deblock_columns_8(uint8_t *luma, size_t luma_len, size_t luma_stride, uint8_t *u, size_t u_len, uint8_t *v,
                           size_t v_len, size_t chroma_stride, const uint8_t *levels, size_t levels_len,
                           size_t level_stride, const uint16_t *masks, size_t masks_len, const uint8_t e[64],
                           const uint8_t i[64], uint32_t width, uint32_t height, uint32_t layout,
                           uint32_t superblock, uint32_t level_u, uint32_t level_v, uint32_t row);
uint32_t deblock_rows_8(uint8_t *luma, size_t luma_len, size_t luma_stride, uint8_t *u, size_t u_len, uint8_t *v,
                        size_t v_len, size_t chroma_stride, const uint8_t *levels, size_t levels_len,
                        size_t level_stride, const uint16_t *masks, size_t masks_len, const uint8_t e[64],
                        const uint8_t i[64], uint32_t width, uint32_t height, uint32_t layout, uint32_t superblock, uint32_t level_u,
                        uint32_t level_v, uint32_t row);
uint32_t deblock_columns_16(uint16_t *luma, size_t luma_len, size_t luma_stride, uint16_t *u, size_t u_len,
                            uint16_t *v, size_t v_len, size_t chroma_stride, const uint8_t *levels,
                            size_t levels_len, size_t level_stride, const uint16_t *masks, size_t masks_len,
                            const uint8_t e[64], const uint8_t i[64], uint32_t depth, uint32_t width,
                            uint32_t height, uint32_t layout, uint32_t superblock, uint32_t level_u,
                            uint32_t level_v, uint32_t row);
uint32_t deblock_rows_16(uint16_t *luma, size_t luma_len, size_t luma_stride, uint16_t *u, size_t u_len, uint16_t *v,
                         size_t v_len, size_t chroma_stride, const uint8_t *levels, size_t levels_len,
                         size_t level_stride, const uint16_t *masks, size_t masks_len, const uint8_t e[64],
                         const uint8_t i[64], uint32_t depth, uint32_t width, uint32_t height, uint32_t layout, uint32_t superblock,
                         uint32_t level_u, uint32_t level_v, uint32_t row);

// The edge listing of a script (docs/01-scope.md, "Edge listing"). Answers how many bytes its output has, and stores them
// if there is room for all of them, else nothing. 393255 bytes suffice for any script. It takes about 420000 bytes of
// stack.
size_t deblock_list(const uint8_t *script, size_t script_len, uint8_t *out, size_t out_len);

#ifdef __cplusplus
}
#endif

#endif
