// Holds deblock_frame.h to the archive. With exactly the lengths that it gives a call is accepted, with one element less it
// is refused; null pointers count as length 0; padding is cleared and nothing else; deltas stay refused or are clipped.
#include "deblock_frame.h"
#include <stdio.h>
#include <stdlib.h>

static unsigned checks, wrong;

static void hold(int holds, const char *what, const struct deblock_frame *frame) {
    checks++;
    if (holds) return;
    wrong++;
    printf("%s: %ux%u %u, superblock %u\n", what, frame->width, frame->height, frame->layout, frame->superblock);
}

struct memory {
    struct deblock_records records;
    struct deblock_contexts contexts;
    struct deblock_planes planes;
    struct deblock_limit_table limits;
    struct deblock_header header;
    uint8_t values[8][4][8][2]; // as decoders have them
};

static void make(struct memory *m, const struct deblock_frame *frame, uint32_t depth) {
    size_t w4 = deblock_w4(frame), luma = deblock_luma_len(frame, deblock_stored_width(frame)),
           chroma = deblock_chroma_len(frame, deblock_stored_chroma_width(frame));
    *m = (struct memory){.records = {calloc(deblock_levels_len(frame, w4), 1), deblock_levels_len(frame, w4), w4,
                                     calloc(deblock_masks_len(frame), 2), deblock_masks_len(frame)},
                         .contexts = deblock_contexts_in(malloc(deblock_contexts_len(frame)), frame),
                         .planes = {depth, calloc(2 * luma, 1), calloc(2 * chroma + 1, 1), calloc(2 * chroma + 1, 1), luma, chroma, chroma,
                                    deblock_stored_width(frame), deblock_stored_chroma_width(frame)},
                         .header = {.base = {9, 9, frame->layout == 400 ? 0 : 9, 0}}};
    deblock_start_above(&m->contexts);
    deblock_start_left(&m->contexts);
    hold(!deblock_fill_limits(&m->limits, NULL, 3), "limits without sharp", frame);
    hold(!deblock_fill_levels(&m->values[0][0][0][0], frame, &m->header), "levels", frame);
}

static void drop(struct memory *m) {
    free(m->records.levels), free(m->records.masks), free(m->contexts.above);
    free(m->planes.luma), free(m->planes.u), free(m->planes.v);
}

static uint32_t record(const struct memory *m, const struct deblock_frame *frame) {
    struct deblock_block block = {.size = DEBLOCK_BLOCK_4X4, .tx = DEBLOCK_TX_4X4, .chroma = (uint32_t)deblock_has_chroma(frame)};
    block.x = (uint32_t)deblock_w4(frame) - 1, block.y = (uint32_t)deblock_h4(frame) - 1;
    struct deblock_contexts at = deblock_contexts_at(&m->contexts, frame, block.x, block.y);
    return deblock_record(&m->records, deblock_segment(&m->values[0][0][0][0], 0), frame, &block, NULL, &at);
}

static uint32_t columns(const struct memory *m, const struct deblock_frame *frame) {
    return deblock_columns(&m->planes, frame, &m->records, &m->limits, &m->header, deblock_superblock_rows(frame) - 1);
}

static void lengths(const struct deblock_frame *frame) {
    struct memory m;
    make(&m, frame, 8);
    hold(!record(&m, frame) && !columns(&m, frame), "accepted", frame);
#define ONE_LESS(length, call, number) \
    (length)--, hold(call(&m, frame) == (number), #length " is one less", frame), (length)++
    ONE_LESS(m.records.levels_len, record, DEBLOCK_LENGTH);
    ONE_LESS(m.records.masks_len, record, DEBLOCK_LENGTH);
    ONE_LESS(m.contexts.above_len, record, DEBLOCK_CONTEXT);
    ONE_LESS(m.contexts.left_len, record, DEBLOCK_CONTEXT);
    ONE_LESS(m.planes.luma_len, columns, DEBLOCK_PLANE);
    ONE_LESS(m.planes.luma_stride, columns, DEBLOCK_PLANE);
    if (deblock_has_chroma(frame)) {
        ONE_LESS(m.contexts.above_uv_len, record, DEBLOCK_CONTEXT);
        ONE_LESS(m.contexts.left_uv_len, record, DEBLOCK_CONTEXT);
        ONE_LESS(m.planes.u_len, columns, DEBLOCK_PLANE);
        ONE_LESS(m.planes.v_len, columns, DEBLOCK_PLANE);
        ONE_LESS(m.planes.chroma_stride, columns, DEBLOCK_PLANE);
    }
    drop(&m);
}

static void tile_starts(const struct deblock_frame *frame) {
    struct memory m;
    make(&m, frame, 8);
    uint32_t row = deblock_superblock_rows(frame) - 1, start = deblock_superblock_columns(frame) - 1;
    struct deblock_contexts at = deblock_contexts_at(&m.contexts, frame, 0, row * deblock_superblock_units(frame));
    hold(!deblock_tile_column(&m.records, frame, row, start, &at), "the last tile start", frame);
    hold(!deblock_tile_row(&m.records, frame, row, &m.contexts), "the last superblock row", frame);
    hold(deblock_tile_column(&m.records, frame, row, start + 1, &at) == DEBLOCK_OUTSIDE, "a tile start outside", frame);
    hold(deblock_tile_row(&m.records, frame, row + 1, &m.contexts) == DEBLOCK_OUTSIDE, "a superblock row outside", frame);
    drop(&m);
}

static void nulls(const struct deblock_frame *frame) {
    struct memory m, less;
    make(&m, frame, 8);
    less = m, less.records.levels = NULL;
    hold(record(&less, frame) == DEBLOCK_LENGTH, "no levels", frame);
    less = m, less.records.masks = NULL;
    hold(record(&less, frame) == DEBLOCK_LENGTH, "no masks", frame);
    less = m, less.contexts = (struct deblock_contexts){.above_len = 9999, .left_len = 9999};
    hold(record(&less, frame) == DEBLOCK_CONTEXT, "no contexts", frame);
    less = m, less.planes.luma = NULL;
    hold(columns(&less, frame) == DEBLOCK_PLANE, "no luma", frame);
    less = m, less.planes.u = less.planes.v = NULL;
    hold(columns(&less, frame) == (deblock_has_chroma(frame) ? DEBLOCK_PLANE : DEBLOCK_DONE), "no chroma", frame);
    drop(&m);
}

static void fill(void *plane, size_t len) { memset(plane, 0xff, 2 * len); }

static int cleared(const uint16_t *plane, size_t stride, size_t lines, size_t width, size_t height) {
    for (size_t y = 0; y < lines; y++)
        for (size_t x = 0; x < stride; x++)
            if (plane[y * stride + x] != (x < width && y < height ? 0xffff : 0)) return 0;
    return 1;
}

static void padding(const struct deblock_frame *frame) {
    struct memory m;
    make(&m, frame, 10);
    fill(m.planes.luma, m.planes.luma_len), fill(m.planes.u, m.planes.u_len), fill(m.planes.v, m.planes.v_len);
    deblock_clear_padding(&m.planes, frame);
    hold(cleared((uint16_t *)m.planes.luma, m.planes.luma_stride, deblock_stored_height(frame), frame->width, frame->height), "luma", frame);
    size_t width = deblock_chroma_width(frame), height = deblock_chroma_height(frame), lines = deblock_stored_chroma_height(frame);
    hold(cleared((uint16_t *)m.planes.u, m.planes.chroma_stride, lines, width, height), "u", frame);
    hold(cleared((uint16_t *)m.planes.v, m.planes.chroma_stride, lines, width, height), "v", frame);
    hold(columns(&m, frame) == DEBLOCK_PLANE, "samples above the maximum", frame);
    drop(&m);
}

static void deltas(const struct deblock_frame *frame) {
    struct memory m;
    make(&m, frame, 8);
    hold(deblock_delta(-64) == -64 && deblock_delta(63) == 63 && deblock_delta(-1000) < -64 && deblock_delta(1000) > 63, "delta", frame);
    hold(deblock_segment_delta(-64) == -63 && deblock_segment_delta(-1000) == -63 && deblock_segment_delta(1000) == 63, "segment's delta", frame);
    m.header.ref_delta[7] = deblock_delta(256);
    hold(deblock_fill_levels(&m.values[0][0][0][0], frame, &m.header) == DEBLOCK_LEVEL, "a delta of 256", frame);
    m.header.ref_delta[7] = 0, m.header.segmentation = 1, m.header.seg_delta[7][3] = deblock_segment_delta(-64);
    hold(!deblock_fill_levels(&m.values[0][0][0][0], frame, &m.header), "a segment's delta of -64", frame);
    hold(deblock_segment(&m.values[0][0][0][0], 7) == &m.values[7][0][0][0], "segment 7", frame);
    drop(&m);
}

static void numbers(const struct deblock_frame *frame) {
    hold(deblock_version() == DEBLOCK_VERSION, "version", frame);
    static const uint32_t named[] = {0, 1, 2, 3, 4, 5, 6, 7, 8, 9, 10, 11, 12, DEBLOCK_BITS, DEBLOCK_UNWRITABLE};
    for (size_t one = 0; one < 15; one++) {
        hold(strcmp(deblock_text(named[one]), deblock_text(13)) != 0, "a number's text", frame);
        for (size_t other = 0; other < one; other++)
            hold(strcmp(deblock_text(named[one]), deblock_text(named[other])) != 0, "text", frame);
    }
}

int main(void) {
    static const uint32_t layouts[] = {400, 420, 422, 444}, sides[] = {1, 4, 5, 64, 65, 127, 128, 129, 260};
    for (size_t n = 0; n < 4 * 9 * 9 * 2; n++) {
        struct deblock_frame frame = {sides[n / 4 % 9], sides[n / 36 % 9], layouts[n % 4], n / 324 ? 128 : 64};
        lengths(&frame), tile_starts(&frame), nulls(&frame), padding(&frame), deltas(&frame);
        if (n == 0) numbers(&frame);
    }
    printf("%u checks, %u wrong\n", checks, wrong);
    return wrong > 0;
}
