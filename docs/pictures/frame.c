// For docs/deblocked.svg. Reads a script on standard input, of a frame of at most 64 by 64, 4:0:0 and 8 bits. Records
// its blocks, fills luma, filters it, and prints its lines of samples before, an empty line, and those after.
#include "deblock_frame.h"
#include <stdio.h>
#include <stdlib.h>

enum { SIDE = 64, UNITS = SIDE / 4, STRIDE = 128 };

static const char *const BLOCKS[] = {"4x4",   "4x8",   "8x4",   "8x8",   "8x16",  "16x8",   "16x16",  "16x32",
                                     "32x16", "32x32", "32x64", "64x32", "64x64", "64x128", "128x64", "128x128",
                                     "4x16",  "16x4",  "8x32",  "32x8",  "16x64", "64x16"};
static const char *const TRANSFORMS[] = {"4x4",  "8x8",  "16x16", "32x32", "64x64", "4x8",   "8x4",
                                         "8x16", "16x8", "16x32", "32x16", "32x64", "64x32", "4x16",
                                         "16x4", "8x32", "32x8",  "16x64", "64x16"};

static uint8_t luma[STRIDE * 128], levels[4 * UNITS * UNITS], contexts_bytes[2 * UNITS], values[512];
static uint16_t masks[640];
static struct deblock_frame frame = {.layout = 400, .superblock = SIDE};
static struct deblock_header header;
static struct deblock_limit_table limits;
static const struct deblock_records records = {levels, sizeof levels, UNITS, masks, 640};
static const struct deblock_planes planes = {.depth = 8, .luma = luma, .luma_len = sizeof luma, .luma_stride = STRIDE};

static void fail(const char *why, uint32_t number) {
    fprintf(stderr, "frame: %s %u\n", why, number);
    exit(1);
}

static void must(uint32_t number) {
    if (number) fail(deblock_text(number), number);
}

static uint32_t code(const char *size, const char *const *names, uint32_t count) {
    for (uint32_t k = 0; k < count; k++)
        if (!strcmp(size, names[k])) return k;
    return count;
}

// What an encoder was given: a ball, lit from above and the left, and a wall that grows lighter to the right and down.
static uint32_t picture(int x, int y) {
    int across = x - 32, down = y - 32, to_light = (x - 25) * (x - 25) + (y - 24) * (y - 24);
    return across * across + down * down < 21 * 21 ? 232 - to_light * 3 / 20 : 62 + x * 3 / 4 + y / 2;
}

// What it left: a transform of 4 by 4 keeps the picture, a larger one only its mean there.
static void fill_transform(uint32_t left_x, uint32_t top_y, uint32_t wide, uint32_t high) {
    uint32_t sum = 0;
    for (uint32_t y = top_y; y < top_y + high; y++)
        for (uint32_t x = left_x; x < left_x + wide; x++) sum += picture(x, y);
    for (uint32_t y = top_y; y < top_y + high; y++)
        for (uint32_t x = left_x; x < left_x + wide; x++)
            luma[y * STRIDE + x] = wide * high == 16 ? picture(x, y) : sum / (wide * high);
}

static void fill_block(uint32_t x, uint32_t y, const char *size, const char *tx) {
    uint32_t wide, high, tx_wide, tx_high;
    if (sscanf(size, "%ux%u", &wide, &high) != 2 || sscanf(tx, "%ux%u", &tx_wide, &tx_high) != 2)
        fail("no size at unit", x);
    for (uint32_t down = 0; down < high; down += tx_high)
        for (uint32_t across = 0; across < wide; across += tx_wide)
            fill_transform(4 * x + across, 4 * y + down, tx_wide, tx_high);
}

static void record_blocks(void) {
    struct deblock_contexts contexts = deblock_contexts_in(contexts_bytes, &frame);
    struct deblock_block block = {0};
    char size[8], tx[8];
    deblock_start_above(&contexts);
    deblock_start_left(&contexts);
    while (scanf(" block %u %u %7s %7s - I", &block.x, &block.y, size, tx) == 4) {
        if (block.x >= UNITS || block.y >= UNITS) fail("outside the frame: unit", block.x >= UNITS ? block.x : block.y);
        struct deblock_contexts at = deblock_contexts_at(&contexts, &frame, block.x, block.y);
        block.size = code(size, BLOCKS, 22);
        block.tx = code(tx, TRANSFORMS, 19);
        must(deblock_record(&records, values, &frame, &block, NULL, &at));
        fill_block(block.x, block.y, size, tx);
    }
}

static void print_samples(void) {
    for (uint32_t y = 0; y < frame.height; y++)
        for (uint32_t x = 0; x < frame.width; x++) printf("%d%c", luma[y * STRIDE + x], x + 1 < frame.width ? ' ' : '\n');
}

int main(void) {
    uint32_t sharpness, base_columns, base_rows;
    if (scanf("frame %u %u 400 8 64 %u level %u %u 0 0", &frame.width, &frame.height, &sharpness, &base_columns, &base_rows) != 5 ||
        frame.width > SIDE || frame.height > SIDE)
        fail("no such frame: width", frame.width);
    header.base[0] = (uint8_t)base_columns;
    header.base[1] = (uint8_t)base_rows;
    must(deblock_fill_limits(&limits, NULL, sharpness));
    must(deblock_fill_levels(values, &frame, &header));
    record_blocks();
    print_samples();
    printf("\n");
    must(deblock_columns(&planes, &frame, &records, &limits, &header, 0));
    must(deblock_rows(&planes, &frame, &records, &limits, &header, 0));
    print_samples();
}
