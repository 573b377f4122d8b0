// How often is a forgotten tile correction noticed? Frames of 640 by 360 with two tiles each way are made up of square
// blocks, from coarse to fine. In each 100 the program counts the frames that DEBLOCK_GAP refuses if deblock_tile_column is
// forgotten, those that any number refuses if deblock_tile_row is forgotten, and those that are accepted with both.
#include "deblock_frame.h"
#include <stdio.h>
#include <stdlib.h>

enum { FRAMES = 100, FINEST = 8, SB4 = 16, COLUMNS = 10, ROWS = 6, TILE_COLUMN = 5, TILE_ROW = 3, W4 = 160, H4 = 90 };

static const struct deblock_frame frame = {.width = 640, .height = 360, .layout = 420, .superblock = 64};
static const struct deblock_header header = {.base = {20, 20, 20, 20}};
static struct deblock_limit_table limits;
static uint8_t values[512], levels[4 * W4 * H4], luma[640 * 384], u[320 * 192], v[320 * 192];
static uint8_t bytes[W4 + H4 + W4 / 2 + H4 / 2], saved_bytes[sizeof bytes];
static uint16_t masks[640 * 5 * 3];
static const struct deblock_records records = {levels, sizeof levels, W4, masks, sizeof masks / 2};
static const struct deblock_planes planes = {8, luma, u, v, sizeof luma, sizeof u, sizeof v, 640, 320};
static uint64_t seed;
static unsigned blocks;

static uint32_t below(uint32_t n) {
    seed = seed * 6364136223846793005u + 1442695040888963407u;
    return (uint32_t)(seed >> 33) % n;
}

static void must(uint32_t number) {
    if (number == DEBLOCK_DONE) return;
    fprintf(stderr, "refused with %u: %s\n", number, deblock_text(number));
    exit(1);
}

// A block of 4 << log2 samples each way. Its transform is as large, or in one of four blocks half as large.
static void record_block(const struct deblock_contexts *contexts, uint32_t x, uint32_t y, uint32_t log2) {
    static const uint32_t sizes[] = {DEBLOCK_BLOCK_4X4, DEBLOCK_BLOCK_8X8, DEBLOCK_BLOCK_16X16, DEBLOCK_BLOCK_32X32, DEBLOCK_BLOCK_64X64};
    uint32_t tx = log2 && !below(4) ? log2 - 1 : log2;
    struct deblock_block block = {.x = x, .y = y, .size = sizes[log2], .tx = tx, .chroma = log2 || (x & y & 1), .uvtx = tx ? tx - 1 : 0};
    struct deblock_contexts at = deblock_contexts_at(contexts, &frame, x, y);
    must(deblock_record(&records, values, &frame, &block, NULL, &at));
    blocks++;
}

static void record_square(const struct deblock_contexts *contexts, uint32_t x, uint32_t y, uint32_t log2, uint32_t fine) {
    if (x >= W4 || y >= H4) return;
    if (!log2 || below(10) >= fine + 2 * (log2 == 4)) {
        record_block(contexts, x, y, log2);
        return;
    }
    for (uint32_t n = 0; n < 4; n++)
        record_square(contexts, x + (n % 2 << (log2 - 1)), y + (n / 2 << (log2 - 1)), log2 - 1, fine);
}

static void record_row(const struct deblock_contexts *contexts, uint32_t row, uint32_t sbx, uint32_t end, uint32_t fine) {
    struct deblock_contexts at = deblock_contexts_at(contexts, &frame, 0, SB4 * row);
    deblock_start_left(&at);
    for (; sbx < end; sbx++) record_square(contexts, SB4 * sbx, SB4 * row, 4, fine);
}

// The first tile column is recorded last, so that left needs no saving: what it leaves is what the corrections take.
static void record_frame(const struct deblock_contexts *contexts, const struct deblock_contexts *saved, uint32_t fine) {
    memset(masks, 0, sizeof masks);
    for (uint32_t row = 0; row < ROWS; row++) {
        if (row == TILE_ROW) memcpy(saved_bytes, bytes, sizeof bytes);
        if (row == 0 || row == TILE_ROW) deblock_start_above(contexts);
        record_row(contexts, row, TILE_COLUMN, COLUMNS, fine);
        record_row(contexts, row, 0, TILE_COLUMN, fine);
    }
    memcpy(saved->left, contexts->left, contexts->left_len);
    memcpy(saved->left_uv, contexts->left_uv, contexts->left_uv_len);
}

// 1 if a call of the frame answers this number, or for 0 any number but 0.
static unsigned refused(uint32_t wanted) {
    unsigned found = 0;
    for (uint32_t row = 0; row < ROWS; row++) {
        uint32_t columns = deblock_columns(&planes, &frame, &records, &limits, &header, row);
        uint32_t rows = deblock_rows(&planes, &frame, &records, &limits, &header, row);
        found |= wanted ? columns == wanted || rows == wanted : columns || rows;
    }
    return found;
}

static void correct_columns(const struct deblock_contexts *saved) {
    for (uint32_t row = 0; row < ROWS; row++) {
        struct deblock_contexts at = deblock_contexts_at(saved, &frame, 0, SB4 * row);
        must(deblock_tile_column(&records, &frame, row, TILE_COLUMN, &at));
    }
}

static void count(uint32_t fine) {
    struct deblock_contexts contexts = deblock_contexts_in(bytes, &frame), saved = deblock_contexts_in(saved_bytes, &frame);
    unsigned columns = 0, row = 0, accepted = 0;
    blocks = 0;
    for (unsigned n = 0; n < FRAMES; n++) {
        seed = 1000 * n + fine;
        record_frame(&contexts, &saved, fine);
        columns += refused(DEBLOCK_GAP);
        correct_columns(&saved);
        row += refused(0);
        must(deblock_tile_row(&records, &frame, TILE_ROW, &saved));
        accepted += !refused(0);
    }
    printf("%u %u %u %u\n", blocks / FRAMES, columns, row, accepted);
}

int main(void) {
    must(deblock_fill_limits(&limits, NULL, 0));
    must(deblock_fill_levels(values, &frame, &header));
    printf("blocks per frame, columns forgotten and noticed, row forgotten and noticed, accepted with both\n");
    for (uint32_t fine = 1; fine <= FINEST; fine++) count(fine);
}
