// The calls of deblock.h with structs for what travels together, and the helpers that every caller needs.
//
// Everything here is static inline and keeps no state. None of it is in the archive: the archive's calls are proved, and
// this file only hands on what it is given. `examples/run` tests it. examples/frame.c is a whole frame:
//
//   once                     deblock_version() == DEBLOCK_VERSION
//   for each frame header    deblock_fill_params, unless the decoder reads the loop filter parameters itself
//   for each frame           deblock_clear_padding; clear the masks; deblock_fill_limits; deblock_fill_levels
//   for each tile row        deblock_start_above
//   for each tile, and each of its superblock rows
//                            deblock_start_left; deblock_record for each block; save left
//   after each tile row      save above
//   for each superblock row, once its blocks are recorded
//                            deblock_tile_column for each tile start but the first; deblock_tile_row if a tile row starts
//                            there; deblock_columns; deblock_rows
//
// The names of deblock.h for these are deblock_read_params, deblock_limits, deblock_levels, deblock_record_intra and
// deblock_record_inter, deblock_correct_column and deblock_correct_row, deblock_columns_8 or _16, and deblock_rows_8 or _16.
// An encoder has deblock_put_params for deblock_write_params. They answer the same numbers. Start each struct from zeros, as
// `struct deblock_frame frame = {.width = 1920, .height = 1080, ...}` does. The pointers in deblock_records,
// deblock_contexts and deblock_planes, and the bytes of a header, may be null: the length then counts as 0.
#ifndef DEBLOCK_FRAME_H
#define DEBLOCK_FRAME_H

#include "deblock.h"
#include <string.h>

// The text of a number.
static inline const char *deblock_text(uint32_t number) {
    switch (number) {
    case DEBLOCK_DONE: return "done";
    case DEBLOCK_SHARPNESS: return "the sharpness is above 7";
    case DEBLOCK_LEVEL: return "a base level or a delta is out of its range, or chroma has a base level at 4:0:0";
    case DEBLOCK_DEPTH: return "the depth is not 8, 10 or 12";
    case DEBLOCK_SHAPE: return "the layout, a frame side or the superblock size is wrong, or a block has chroma at 4:0:0";
    case DEBLOCK_BLOCK: return "the block's size, transform, place or reference is not allowed";
    case DEBLOCK_CONTEXT: return "a context is too short, or holds a value above its range";
    case DEBLOCK_LENGTH: return "the level bytes or the masks are too short, or level_stride is less than the frame's width in units";
    case DEBLOCK_LEVEL_BYTE: return "a level byte is above 63";
    case DEBLOCK_PLANE: return "a plane is too short, its stride is less than the stored width, or a sample is above the depth's maximum";
    case DEBLOCK_OUTSIDE: return "the superblock row or the tile start lies outside the frame";
    case DEBLOCK_GAP: return "an edge breaks the gap rule: it lies too close to another edge or to a boundary for its class";
    case DEBLOCK_MASK_BIT: return "a mask bit lies outside the frame, or outside the bits that its half may hold";
    case DEBLOCK_BITS: return "the bytes end before the parameters do";
    case DEBLOCK_UNWRITABLE: return "no bits with these update choices read back as these values";
    default: return "no number of this version";
    }
}

// Sides in luma samples; layout 400, 420, 422 or 444; superblock 64 or 128.
struct deblock_frame {
    uint32_t width, height, layout, superblock;
};

static inline uint32_t deblock_ss_hor(const struct deblock_frame *frame) { return frame->layout != 444; }
static inline uint32_t deblock_ss_ver(const struct deblock_frame *frame) { return frame->layout == 420; }
static inline int deblock_has_chroma(const struct deblock_frame *frame) { return frame->layout != 400; }

static inline size_t deblock_parts(size_t side, size_t part) { return side / part + (side % part != 0); }

// The frame in luma units, in chroma units (0 at 400) and in superblocks, and a superblock's side in luma units.
static inline size_t deblock_w4(const struct deblock_frame *frame) { return deblock_parts(frame->width, 4); }
static inline size_t deblock_h4(const struct deblock_frame *frame) { return deblock_parts(frame->height, 4); }
static inline size_t deblock_chroma_w4(const struct deblock_frame *frame) {
    return deblock_has_chroma(frame) ? (deblock_w4(frame) + deblock_ss_hor(frame)) >> deblock_ss_hor(frame) : 0;
}
static inline size_t deblock_chroma_h4(const struct deblock_frame *frame) {
    return deblock_has_chroma(frame) ? (deblock_h4(frame) + deblock_ss_ver(frame)) >> deblock_ss_ver(frame) : 0;
}
static inline uint32_t deblock_superblock_units(const struct deblock_frame *frame) { return frame->superblock == 128 ? 32 : 16; }
static inline uint32_t deblock_superblock_columns(const struct deblock_frame *frame) {
    return (uint32_t)deblock_parts(deblock_w4(frame), deblock_superblock_units(frame));
}
static inline uint32_t deblock_superblock_rows(const struct deblock_frame *frame) {
    return (uint32_t)deblock_parts(deblock_h4(frame), deblock_superblock_units(frame));
}

// Words of masks, and level bytes. level_stride is in units, at least w4.
static inline size_t deblock_masks_len(const struct deblock_frame *frame) {
    return 640 * deblock_parts(deblock_w4(frame), 32) * deblock_parts(deblock_h4(frame), 32);
}
static inline size_t deblock_levels_len(const struct deblock_frame *frame, size_t level_stride) {
    return 4 * level_stride * deblock_h4(frame);
}

// Chroma's sides in samples, 0 at 400.
static inline size_t deblock_chroma_width(const struct deblock_frame *frame) {
    return deblock_has_chroma(frame) ? ((size_t)frame->width + deblock_ss_hor(frame)) >> deblock_ss_hor(frame) : 0;
}
static inline size_t deblock_chroma_height(const struct deblock_frame *frame) {
    return deblock_has_chroma(frame) ? ((size_t)frame->height + deblock_ss_ver(frame)) >> deblock_ss_ver(frame) : 0;
}

// The stored sides of a plane: the least stride, and the least number of lines. Chroma's are 0 at 400.
static inline size_t deblock_stored_width(const struct deblock_frame *frame) {
    return 128 * deblock_parts(frame->width, 128);
}
static inline size_t deblock_stored_height(const struct deblock_frame *frame) {
    return 128 * deblock_parts(frame->height, 128);
}
static inline size_t deblock_stored_chroma_width(const struct deblock_frame *frame) {
    return deblock_has_chroma(frame) ? deblock_stored_width(frame) >> deblock_ss_hor(frame) : 0;
}
static inline size_t deblock_stored_chroma_height(const struct deblock_frame *frame) {
    return deblock_has_chroma(frame) ? deblock_stored_height(frame) >> deblock_ss_ver(frame) : 0;
}

// The least length of a plane, in samples.
static inline size_t deblock_luma_len(const struct deblock_frame *frame, size_t luma_stride) {
    return luma_stride * deblock_stored_height(frame);
}
static inline size_t deblock_chroma_len(const struct deblock_frame *frame, size_t chroma_stride) {
    return chroma_stride * deblock_stored_chroma_height(frame);
}

// The limit table of a sharpness.
struct deblock_limit_table {
    uint8_t e[64], i[64];
};

// sharp may be null.
static inline uint32_t deblock_fill_limits(struct deblock_limit_table *limits, uint64_t *sharp, uint32_t sharpness) {
    uint64_t unread[2];
    return deblock_limits(limits->e, limits->i, sharp ? sharp : unread, sharpness);
}

// The loop filter part of a frame header. Areas are luma columns, luma rows, U, V.
struct deblock_header {
    uint8_t base[4];
    uint32_t delta_enabled;
    int8_t ref_delta[8], mode_delta[2];
    uint32_t multi;
    int8_t lf_delta[4];
    uint32_t segmentation;
    int8_t seg_delta[8][4];
};

// A reference, mode or lf delta as a byte. A value out of a byte's range becomes one that DEBLOCK_LEVEL refuses.
static inline int8_t deblock_delta(int value) { return (int8_t)(value < -128 ? -128 : value > 127 ? 127 : value); }

// A segment's delta as a byte, clipped to -63..63 as the standard does when it reads the header.
static inline int8_t deblock_segment_delta(int value) { return (int8_t)(value < -63 ? -63 : value > 63 ? 63 : value); }

// The 512 level values [segment][area][reference][mode] of a header.
static inline uint32_t deblock_fill_levels(uint8_t *values, const struct deblock_frame *frame,
                                           const struct deblock_header *header) {
    return deblock_levels(values, frame->layout, header->base, header->delta_enabled, header->ref_delta,
                          header->mode_delta, header->multi, header->lf_delta, header->segmentation,
                          &header->seg_delta[0][0]);
}

// The 64 level values of a segment, 0 to 7. Without segmentation it is segment 0: the others are not written.
static inline const uint8_t *deblock_segment(const uint8_t *values, uint32_t segment) { return values + 64 * (segment % 8); }

// The loop filter parameters of a frame header, as deblock_read_params leaves them.
struct deblock_params {
    uint8_t level[4], sharpness, delta_enabled, delta_update, update_ref[8], update_mode[2];
    int8_t ref_delta[8], mode_delta[2];
};

// What reading and writing them must know. These deltas are the deltas before.
struct deblock_params_given {
    uint32_t planes, lossless, intrabc;
    int8_t ref_delta[8], mode_delta[2];
};

// What is given for a frame header, with both flags 0. reference has the parameters of the primary reference frame. It is
// null where there is none: the deltas before are then the defaults.
static inline struct deblock_params_given deblock_params_after(const struct deblock_params *reference, uint32_t planes) {
    struct deblock_params_given given = {planes, 0, 0, {1, 0, 0, 0, -1, 0, -1, -1}, {0, 0}};
    if (!reference) return given;
    memcpy(given.ref_delta, reference->ref_delta, sizeof given.ref_delta);
    memcpy(given.mode_delta, reference->mode_delta, sizeof given.mode_delta);
    return given;
}

// deblock_fill_params reads the parameters from place `at` of the bytes on, and deblock_put_params writes them there. A place
// counts bits from the highest bit of byte 0. count is how many bits were read or written, and may be null. A refusal stores
// nothing.
static inline uint32_t deblock_fill_params(const uint8_t *bytes, size_t len, size_t at,
                                           const struct deblock_params_given *given, struct deblock_params *params,
                                           uint32_t *count) {
    struct deblock_params p;
    uint8_t none[1] = {0}, bits[3], update[10];
    uint32_t unread[1], number;
    memcpy(p.ref_delta, given->ref_delta, sizeof p.ref_delta);
    memcpy(p.mode_delta, given->mode_delta, sizeof p.mode_delta);
    number = deblock_read_params(bytes ? bytes : none, bytes ? len : 0, at, given->planes, given->lossless, given->intrabc,
                                 p.level, bits, update, p.ref_delta, p.mode_delta, count ? count : unread);
    if (number) return number;
    p.sharpness = bits[0], p.delta_enabled = bits[1], p.delta_update = bits[2];
    memcpy(p.update_ref, update, sizeof p.update_ref);
    memcpy(p.update_mode, update + sizeof p.update_ref, sizeof p.update_mode);
    *params = p;
    return DEBLOCK_DONE;
}
static inline uint32_t deblock_put_params(uint8_t *bytes, size_t len, size_t at, const struct deblock_params_given *given,
                                          const struct deblock_params *params, uint32_t *count) {
    uint8_t none[1] = {0}, update[10], bits[3] = {params->sharpness, params->delta_enabled, params->delta_update};
    uint32_t unread[1];
    memcpy(update, params->update_ref, sizeof params->update_ref);
    memcpy(update + sizeof params->update_ref, params->update_mode, sizeof params->update_mode);
    return deblock_write_params(bytes ? bytes : none, bytes ? len : 0, at, given->planes, given->lossless, given->intrabc,
                                given->ref_delta, given->mode_delta, params->level, bits, update, params->ref_delta,
                                params->mode_delta, count ? count : unread);
}

// What deblock_fill_levels takes of the parameters. What else a header has is 0.
static inline struct deblock_header deblock_header_of(const struct deblock_params *params) {
    struct deblock_header header;
    memset(&header, 0, sizeof header);
    memcpy(header.base, params->level, sizeof header.base);
    header.delta_enabled = params->delta_enabled;
    memcpy(header.ref_delta, params->ref_delta, sizeof header.ref_delta);
    memcpy(header.mode_delta, params->mode_delta, sizeof header.mode_delta);
    return header;
}

// The level bytes and masks of a frame.
struct deblock_records {
    uint8_t *levels;
    size_t levels_len, level_stride;
    uint16_t *masks;
    size_t masks_len;
};

// Contexts: one byte per unit, above the units and left of them.
struct deblock_contexts {
    uint8_t *above, *left, *above_uv, *left_uv;
    size_t above_len, left_len, above_uv_len, left_uv_len;
};

// Contexts along a frame's whole width and height, in deblock_contexts_len bytes.
static inline size_t deblock_contexts_len(const struct deblock_frame *frame) {
    return deblock_w4(frame) + deblock_h4(frame) + deblock_chroma_w4(frame) + deblock_chroma_h4(frame);
}
static inline struct deblock_contexts deblock_contexts_in(uint8_t *bytes, const struct deblock_frame *frame) {
    struct deblock_contexts contexts;
    contexts.above = bytes;
    contexts.above_len = deblock_w4(frame);
    contexts.left = contexts.above + contexts.above_len;
    contexts.left_len = deblock_h4(frame);
    contexts.above_uv = contexts.left + contexts.left_len;
    contexts.above_uv_len = deblock_chroma_w4(frame);
    contexts.left_uv = contexts.above_uv + contexts.above_uv_len;
    contexts.left_uv_len = deblock_chroma_h4(frame);
    return contexts;
}

// Contexts at their start values. deblock_start_above is called once for each tile row and not for each tile, since it
// sets the whole width. deblock_start_left is called at the start of each superblock row of a tile. It sets the whole
// height: where left keeps what earlier superblock rows left, hand it deblock_contexts_at of the row's first unit. Save first
// what the corrections need (deblock.h, "Tiles").
static inline void deblock_start_above(const struct deblock_contexts *contexts) {
    if (contexts->above) memset(contexts->above, 2, contexts->above_len);
    if (contexts->above_uv) memset(contexts->above_uv, 1, contexts->above_uv_len);
}
static inline void deblock_start_left(const struct deblock_contexts *contexts) {
    if (contexts->left) memset(contexts->left, 2, contexts->left_len);
    if (contexts->left_uv) memset(contexts->left_uv, 1, contexts->left_uv_len);
}

static inline void deblock_skip(uint8_t **bytes, size_t *len, size_t count) {
    if (!*bytes || count > *len) count = *len;
    if (*bytes) *bytes += count;
    *len -= count;
}

// Contexts that begin at unit 0 of the frame, from luma unit (x, y) on.
static inline struct deblock_contexts deblock_contexts_at(const struct deblock_contexts *contexts,
                                                          const struct deblock_frame *frame, uint32_t x, uint32_t y) {
    struct deblock_contexts at = *contexts;
    deblock_skip(&at.above, &at.above_len, x);
    deblock_skip(&at.left, &at.left_len, y);
    deblock_skip(&at.above_uv, &at.above_uv_len, x >> deblock_ss_hor(frame));
    deblock_skip(&at.left_uv, &at.left_uv_len, y >> deblock_ss_ver(frame));
    return at;
}

// x and y are luma units; size is an enum deblock_block_size, tx and uvtx are an enum deblock_tx_size. uvtx counts only
// if chroma, the flag of the chroma pair, is not 0.
struct deblock_block {
    uint32_t x, y, size, tx, chroma, uvtx;
};

// What an inter block has besides, as deblock_record_inter takes it: dav1d's tx_split0 and tx_split1, whether it is skipped,
// dav1d's ref[0] + 1, and 0 for global motion or 1 for every other mode.
struct deblock_inter {
    uint16_t tx_masks[2];
    uint32_t skip, reference, mode;
};

static inline uint8_t *deblock_given(uint8_t *bytes, size_t *len, uint8_t *none) {
    if (!bytes) *len = 0;
    return bytes ? bytes : none;
}

static inline struct deblock_contexts deblock_given_contexts(const struct deblock_contexts *contexts, uint8_t *none) {
    struct deblock_contexts given = *contexts;
    given.above = deblock_given(given.above, &given.above_len, none);
    given.left = deblock_given(given.left, &given.left_len, none);
    given.above_uv = deblock_given(given.above_uv, &given.above_uv_len, none);
    given.left_uv = deblock_given(given.left_uv, &given.left_uv_len, none);
    return given;
}

static inline struct deblock_records deblock_given_records(const struct deblock_records *records, uint16_t *none) {
    struct deblock_records given = *records;
    given.levels = deblock_given(given.levels, &given.levels_len, (uint8_t *)none);
    if (!given.masks) {
        given.masks = none;
        given.masks_len = 0;
    }
    return given;
}

// One block. inter is null for an intra block. values are the 64 of its segment (deblock_segment). The contexts begin at
// the block (deblock_contexts_at).
static inline uint32_t deblock_record(const struct deblock_records *records, const uint8_t *values,
                                      const struct deblock_frame *frame, const struct deblock_block *block,
                                      const struct deblock_inter *inter, const struct deblock_contexts *contexts) {
    uint16_t none[1] = {0};
    struct deblock_records r = deblock_given_records(records, none);
    struct deblock_contexts c = deblock_given_contexts(contexts, (uint8_t *)none);
    if (inter)
        return deblock_record_inter(r.levels, r.levels_len, r.level_stride, r.masks, r.masks_len, values, frame->width,
                                    frame->height, frame->layout, block->x, block->y, block->size, block->tx,
                                    inter->tx_masks, inter->skip, inter->reference, inter->mode, c.above, c.above_len,
                                    c.left, c.left_len, block->chroma, block->uvtx, c.above_uv, c.above_uv_len,
                                    c.left_uv, c.left_uv_len);
    return deblock_record_intra(r.levels, r.levels_len, r.level_stride, r.masks, r.masks_len, values, frame->width,
                                frame->height, frame->layout, block->x, block->y, block->size, block->tx, c.above,
                                c.above_len, c.left, c.left_len, block->chroma, block->uvtx, c.above_uv, c.above_uv_len,
                                c.left_uv, c.left_uv_len);
}

// The corrections at a tile's start in superblock row `row`, with the contexts that the tile before left.
// deblock_tile_column takes left from the superblock row's first unit on (deblock_contexts_at), and `start` is the tile's
// first superblock. deblock_tile_row takes above along the frame's whole width.
static inline uint32_t deblock_tile_column(const struct deblock_records *records, const struct deblock_frame *frame,
                                           uint32_t row, uint32_t start, const struct deblock_contexts *contexts) {
    uint16_t none[1] = {0};
    struct deblock_records r = deblock_given_records(records, none);
    struct deblock_contexts c = deblock_given_contexts(contexts, (uint8_t *)none);
    return deblock_correct_column(r.masks, r.masks_len, frame->width, frame->height, frame->layout, frame->superblock,
                                  row, start, c.left, c.left_len, c.left_uv, c.left_uv_len);
}
static inline uint32_t deblock_tile_row(const struct deblock_records *records, const struct deblock_frame *frame,
                                        uint32_t row, const struct deblock_contexts *contexts) {
    uint16_t none[1] = {0};
    struct deblock_records r = deblock_given_records(records, none);
    struct deblock_contexts c = deblock_given_contexts(contexts, (uint8_t *)none);
    return deblock_correct_row(r.masks, r.masks_len, frame->width, frame->height, frame->layout, frame->superblock, row,
                               c.above, c.above_len, c.above_uv, c.above_uv_len);
}

// Planes of uint8_t at depth 8, of uint16_t at any other depth. Lengths and strides are in samples.
struct deblock_planes {
    uint32_t depth;
    void *luma, *u, *v;
    size_t luma_len, u_len, v_len, luma_stride, chroma_stride;
};

static inline void deblock_clear_plane(void *plane, size_t len, size_t stride, size_t sample, size_t width, size_t height,
                                       size_t stored_width, size_t stored_height) {
    if (!plane || stored_width > stride) return;
    for (size_t y = 0; y < stored_height; y++) {
        size_t begin = y * stride + (y < height ? width : 0), end = y * stride + stored_width;
        if (end <= len) memset((uint8_t *)plane + begin * sample, 0, (end - begin) * sample);
    }
}

// Sets what is stored outside the frame to 0. Call it for each frame before the frame is decoded, not after: the filter may
// read what decoding stores there.
static inline void deblock_clear_padding(const struct deblock_planes *planes, const struct deblock_frame *frame) {
    size_t sample = planes->depth == 8 ? 1 : 2, width = deblock_chroma_width(frame), height = deblock_chroma_height(frame),
           stored_width = deblock_stored_chroma_width(frame), stored_height = deblock_stored_chroma_height(frame);
    deblock_clear_plane(planes->luma, planes->luma_len, planes->luma_stride, sample, frame->width, frame->height,
                        deblock_stored_width(frame), deblock_stored_height(frame));
    deblock_clear_plane(planes->u, planes->u_len, planes->chroma_stride, sample, width, height, stored_width, stored_height);
    deblock_clear_plane(planes->v, planes->v_len, planes->chroma_stride, sample, width, height, stored_width, stored_height);
}

static inline struct deblock_planes deblock_given_planes(const struct deblock_planes *planes, void *none) {
    struct deblock_planes given = *planes;
    given.luma = deblock_given((uint8_t *)given.luma, &given.luma_len, (uint8_t *)none);
    given.u = deblock_given((uint8_t *)given.u, &given.u_len, (uint8_t *)none);
    given.v = deblock_given((uint8_t *)given.v, &given.v_len, (uint8_t *)none);
    return given;
}

static inline uint32_t deblock_pass(int rowwise, const struct deblock_planes *planes, const struct deblock_frame *frame,
                                    const struct deblock_records *records, const struct deblock_limit_table *limits,
                                    const struct deblock_header *header, uint32_t row) {
    uint16_t none[1] = {0};
    struct deblock_planes p = deblock_given_planes(planes, none);
    struct deblock_records r = deblock_given_records(records, none);
    if (p.depth == 8)
        return (rowwise ? deblock_rows_8 : deblock_columns_8)(
            (uint8_t *)p.luma, p.luma_len, p.luma_stride, (uint8_t *)p.u, p.u_len, (uint8_t *)p.v, p.v_len, p.chroma_stride,
            r.levels, r.levels_len, r.level_stride, r.masks, r.masks_len, limits->e, limits->i, frame->width,
            frame->height, frame->layout, frame->superblock, header->base[2], header->base[3], row);
    return (rowwise ? deblock_rows_16 : deblock_columns_16)(
        (uint16_t *)p.luma, p.luma_len, p.luma_stride, (uint16_t *)p.u, p.u_len, (uint16_t *)p.v, p.v_len, p.chroma_stride,
        r.levels, r.levels_len, r.level_stride, r.masks, r.masks_len, limits->e, limits->i, p.depth, frame->width,
        frame->height, frame->layout, frame->superblock, header->base[2], header->base[3], row);
}

// One pass of superblock row `row`. Call deblock_rows of superblock row k after deblock_columns of k and of k - 1.
static inline uint32_t deblock_columns(const struct deblock_planes *planes, const struct deblock_frame *frame,
                                       const struct deblock_records *records, const struct deblock_limit_table *limits,
                                       const struct deblock_header *header, uint32_t row) {
    return deblock_pass(0, planes, frame, records, limits, header, row);
}
static inline uint32_t deblock_rows(const struct deblock_planes *planes, const struct deblock_frame *frame,
                                    const struct deblock_records *records, const struct deblock_limit_table *limits,
                                    const struct deblock_header *header, uint32_t row) {
    return deblock_pass(1, planes, frame, records, limits, header, row);
}

#endif
