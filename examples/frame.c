// A frame as a decoder has it: 4:2:0, 10 bits, two tiles each way, three superblock rows. Its blocks are recorded tile by
// tile, the tile starts are corrected, and each superblock row is filtered. dav1d's names stand in brackets.
#include "deblock_frame.h"
#include <stdio.h>
#include <stdlib.h>

enum { WIDTH = 200, HEIGHT = 152, SB4 = 16, STRIDE = 256, STRIDE_UV = 128, TILES = 2, FORGET_COLUMNS = 1, FORGET_ROWS = 2 };

// Where tiles start, in superblocks [tiling.col_start_sb, tiling.row_start_sb].
static const uint32_t col_start_sb[TILES + 1] = {0, 2, 4}, row_start_sb[TILES + 1] = {0, 1, 3};

static const struct deblock_frame frame = {.width = WIDTH, .height = HEIGHT, .layout = 420, .superblock = 64};

// [Dav1dFrameHeader.loopfilter] Deltas of a decoder that holds ints go through deblock_delta.
static const struct deblock_header header = {
    .base = {32, 28, 24, 20}, .delta_enabled = 1, .ref_delta = {1, 0, 0, 0, -1, 0, -1, -1}};
static const uint32_t sharpness = 1;

static uint16_t luma[STRIDE * 256], u[STRIDE_UV * 128], v[STRIDE_UV * 128];
static const struct deblock_planes planes = {
    .depth = 10, .luma = luma, .luma_len = STRIDE * 256, .luma_stride = STRIDE, .u = u, .u_len = STRIDE_UV * 128,
    .v = v, .v_len = STRIDE_UV * 128, .chroma_stride = STRIDE_UV};

static struct deblock_limit_table limits; // [Av1FilterLUT]
static uint8_t values[512];               // [lflvl]
static struct deblock_records records;    // [lf.level and lf.mask]
static uint32_t blocks;

static void must(uint32_t number) {
    if (number == DEBLOCK_DONE) return;
    fprintf(stderr, "refused with %u: %s\n", number, deblock_text(number));
    exit(1);
}

// One block of 16x16, intra or inter. The contexts are the frame's [a->tx_lpf_y, t->l.tx_lpf_y]: the call takes them
// from the block on.
static void record_block(const struct deblock_contexts *contexts, uint32_t x, uint32_t y) {
    uint32_t bx = x / 4, by = y / 4, is_intra = (bx + 2 * by) % 3 == 0, is_split = is_intra && (bx + by) % 2 == 0;
    struct deblock_block block = {.x = x, .y = y, .size = DEBLOCK_BLOCK_16X16, .chroma = 1,
                                  .tx = is_split ? DEBLOCK_TX_8X8 : DEBLOCK_TX_16X16,
                                  .uvtx = is_split ? DEBLOCK_TX_4X4 : DEBLOCK_TX_8X8};
    struct deblock_inter inter = {.tx_masks = {bx % 2, 0}, .skip = by % 4 == 3, .reference = 1 + bx % 7, .mode = 1};
    struct deblock_contexts at = deblock_contexts_at(contexts, &frame, x, y);
    must(deblock_record(&records, deblock_segment(values, 0), &frame, &block, is_intra ? NULL : &inter, &at));
    blocks++;
}

// The 16 blocks of a superblock, quadrant by quadrant, but those that start outside the frame.
static void record_superblock(const struct deblock_contexts *contexts, uint32_t sbx, uint32_t sby) {
    for (uint32_t n = 0; n < 16; n++) {
        uint32_t x = SB4 * sbx + 8 * (n / 4 % 2) + 4 * (n % 2), y = SB4 * sby + 8 * (n / 8) + 4 * (n / 2 % 2);
        if (x < deblock_w4(&frame) && y < deblock_h4(&frame)) record_block(contexts, x, y);
    }
}

static void copy(uint8_t *to, const uint8_t *from, size_t len, size_t most) { memcpy(to, from, len < most ? len : most); }

// One tile. left is set anew at the start of each of its superblock rows. What a row leaves there is saved first: the tile to
// the right is corrected with it [lf.tx_lpf_right_edge].
static void record_tile(const struct deblock_contexts *contexts, const struct deblock_contexts *saved, int tile_col, int tile_row) {
    for (uint32_t row = row_start_sb[tile_row]; row < row_start_sb[tile_row + 1]; row++) {
        deblock_start_left(contexts);
        for (uint32_t sbx = col_start_sb[tile_col]; sbx < col_start_sb[tile_col + 1]; sbx++)
            record_superblock(contexts, sbx, row);
        struct deblock_contexts from = deblock_contexts_at(contexts, &frame, 0, SB4 * row);
        struct deblock_contexts to = deblock_contexts_at(saved, &frame, 0, SB4 * row);
        copy(to.left, from.left, from.left_len, SB4);
        copy(to.left_uv, from.left_uv, from.left_uv_len, SB4 / 2);
    }
}

// All tiles. above is set anew at the top of each tile row. What a tile row leaves there is saved first: the tile row below
// is corrected with it [f->a of the tile row above]. saved[k] has left of tile column k, and above of tile row k.
static void record_frame(const struct deblock_contexts *contexts, const struct deblock_contexts *saved) {
    for (int tile_row = 0; tile_row < TILES; tile_row++) {
        deblock_start_above(contexts);
        for (int tile_col = 0; tile_col < TILES; tile_col++) record_tile(contexts, &saved[tile_col], tile_col, tile_row);
        memcpy(saved[tile_row].above, contexts->above, contexts->above_len);
        memcpy(saved[tile_row].above_uv, contexts->above_uv, contexts->above_uv_len);
    }
}

static void correct_row(const struct deblock_contexts *saved, uint32_t row, int forgotten) {
    for (int tile = 1; tile < TILES; tile++) {
        struct deblock_contexts at = deblock_contexts_at(&saved[tile - 1], &frame, 0, SB4 * row);
        if (!(forgotten & FORGET_COLUMNS)) must(deblock_tile_column(&records, &frame, row, col_start_sb[tile], &at));
        if (!(forgotten & FORGET_ROWS) && row == row_start_sb[tile])
            must(deblock_tile_row(&records, &frame, row, &saved[tile - 1]));
    }
}

// [dav1d_loopfilter_sbrow_cols, dav1d_loopfilter_sbrow_rows] A superblock row is corrected before both of its passes, and
// its columns come before its rows. Answers the first number that is not DEBLOCK_DONE.
static uint32_t filter_row(const struct deblock_contexts *saved, uint32_t row, int forgotten) {
    correct_row(saved, row, forgotten);
    uint32_t number = deblock_columns(&planes, &frame, &records, &limits, &header, row);
    return number ? number : deblock_rows(&planes, &frame, &records, &limits, &header, row);
}

// The padding is cleared before samples arrive: the planes come from a pool, and any frame may have been there.
static void decode_samples(void) {
    deblock_clear_padding(&planes, &frame);
    for (int y = 0; y < HEIGHT; y++)
        for (int x = 0; x < WIDTH; x++) luma[y * STRIDE + x] = 400 + 24 * ((x / 16 + y / 16) % 3) + (x * 5 + y * 3) % 7;
    for (int y = 0; y < HEIGHT / 2; y++)
        for (int x = 0; x < WIDTH / 2; x++) {
            u[y * STRIDE_UV + x] = 500 + 16 * ((x / 8 + y / 8) % 3) + (x * 3 + y) % 5;
            v[y * STRIDE_UV + x] = 450 + 16 * ((x / 8 + 2 * (y / 8)) % 3) + (x + 3 * y) % 5;
        }
}

static uint32_t decode_frame(int forgotten) {
    size_t len = deblock_contexts_len(&frame);
    uint8_t *bytes = malloc((TILES + 1) * len);
    struct deblock_contexts contexts = deblock_contexts_in(bytes, &frame), saved[TILES];
    for (int tile = 0; tile < TILES; tile++) saved[tile] = deblock_contexts_in(bytes + (tile + 1) * len, &frame);
    memset(records.masks, 0, records.masks_len * sizeof *records.masks);
    blocks = 0;
    decode_samples();
    record_frame(&contexts, saved);
    uint32_t number = DEBLOCK_DONE;
    for (uint32_t row = 0; !number && row < deblock_superblock_rows(&frame); row++) number = filter_row(saved, row, forgotten);
    free(bytes);
    return number;
}

static size_t differing(const uint16_t *one, const uint16_t *other, int stride, int width, int height) {
    size_t count = 0;
    for (int y = 0; y < height; y++)
        for (int x = 0; x < width; x++) count += one[y * stride + x] != other[y * stride + x];
    return count;
}

static void show(const char *name, const uint16_t *before, const uint16_t *plane, int stride, int width, int height) {
    uint32_t sum = 0;
    for (int y = 0; y < height; y++)
        for (int x = 0; x < width; x++) sum = (sum * 31 + plane[y * stride + x]) % 65521;
    printf("%s changed %zu of %d, sum %u\n", name, differing(before, plane, stride, width, height), width * height, sum);
}

int main(void) {
    static uint16_t luma_was[sizeof luma / 2], u_was[sizeof u / 2], v_was[sizeof v / 2];
    if (deblock_version() != DEBLOCK_VERSION) return fprintf(stderr, "header and archive are of two versions\n"), 1;
    size_t level_stride = deblock_w4(&frame), levels_len = deblock_levels_len(&frame, level_stride);
    size_t masks_len = deblock_masks_len(&frame);
    records = (struct deblock_records){.levels = malloc(levels_len), .levels_len = levels_len, .level_stride = level_stride,
                                       .masks = malloc(masks_len * sizeof *records.masks), .masks_len = masks_len};
    must(deblock_fill_limits(&limits, NULL, sharpness));   // [dav1d_calc_eih]
    must(deblock_fill_levels(values, &frame, &header));    // [dav1d_calc_lf_values]

    decode_samples();
    memcpy(luma_was, luma, sizeof luma), memcpy(u_was, u, sizeof u), memcpy(v_was, v, sizeof v);
    must(decode_frame(0));
    printf("frame %dx%d 4:2:0 10 bits: 4 tiles, %u blocks\n", WIDTH, HEIGHT, blocks);
    show("luma", luma_was, luma, STRIDE, WIDTH, HEIGHT);
    show("u", u_was, u, STRIDE_UV, WIDTH / 2, HEIGHT / 2);
    show("v", v_was, v, STRIDE_UV, WIDTH / 2, HEIGHT / 2);

    memcpy(luma_was, luma, sizeof luma), memcpy(u_was, u, sizeof u), memcpy(v_was, v, sizeof v);
    printf("without the column corrections: %u\n", decode_frame(FORGET_COLUMNS | FORGET_ROWS));
    uint32_t number = decode_frame(FORGET_ROWS);
    size_t differ = differing(luma_was, luma, STRIDE, WIDTH, HEIGHT) +
                    differing(u_was, u, STRIDE_UV, WIDTH / 2, HEIGHT / 2) + differing(v_was, v, STRIDE_UV, WIDTH / 2, HEIGHT / 2);
    printf("without the row correction: %u, samples that differ %zu\n", number, differ);
    free(records.levels);
    free(records.masks);
}
