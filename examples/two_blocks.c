// Two blocks of 8 by 8 in a frame of 16 by 8 are recorded, and the edge between them is filtered.
#include "deblock_frame.h"
#include <stdio.h>
#include <stdlib.h>

enum { WIDTH = 16, HEIGHT = 8, W4 = 4, H4 = 2, STRIDE = 128 };

static uint8_t luma[STRIDE * 128], levels[4 * W4 * H4], above[W4] = {2, 2, 2, 2}, left[H4] = {2, 2};
static uint16_t masks[640];

static void must(uint32_t number) {
    if (number == DEBLOCK_DONE) return;
    fprintf(stderr, "refused with %u: %s\n", number, deblock_text(number));
    exit(1);
}

static void show(const char *when) {
    printf("%s", when);
    for (int x = 0; x < WIDTH; x++) printf(" %d", luma[x]);
    printf("\n");
}

int main(void) {
    struct deblock_frame frame = {.width = WIDTH, .height = HEIGHT, .layout = 400, .superblock = 64};
    struct deblock_header header = {.base = {20, 20, 0, 0}};
    struct deblock_records records = {.levels = levels, .levels_len = sizeof levels, .level_stride = W4, .masks = masks, .masks_len = 640};
    struct deblock_contexts contexts = {.above = above, .left = left, .above_len = W4, .left_len = H4};
    struct deblock_planes planes = {.depth = 8, .luma = luma, .luma_len = sizeof luma, .luma_stride = STRIDE};
    struct deblock_limit_table limits;
    uint8_t values[512];
    must(deblock_fill_limits(&limits, NULL, 0));
    must(deblock_fill_levels(values, &frame, &header));
    for (uint32_t x = 0; x < W4; x += 2) {
        struct deblock_block block = {.x = x, .size = DEBLOCK_BLOCK_8X8, .tx = DEBLOCK_TX_8X8};
        struct deblock_contexts at = deblock_contexts_at(&contexts, &frame, x, 0);
        must(deblock_record(&records, values, &frame, &block, NULL, &at));
    }
    for (int y = 0; y < HEIGHT; y++)
        for (int x = 0; x < WIDTH; x++) luma[y * STRIDE + x] = x < 8 ? 100 : 110;
    show("before");
    must(deblock_columns(&planes, &frame, &records, &limits, &header, 0));
    must(deblock_rows(&planes, &frame, &records, &limits, &header, 0));
    show("after ");
}
