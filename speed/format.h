// A frame for counting, as `oracle speed make` and `dump` write it (oracle/FORMATS.md).
#include <stdint.h>
#include <stdio.h>
#include <stdlib.h>
#include <string.h>

typedef uint8_t u8;
typedef uint16_t u16;
typedef uint32_t u32;

struct head {
    u32 length, is_wide, levels, masks, planes[3], steps;
    u8 e[64], i[64];
};

// Kind 2 is columns, 3 rows.
struct step {
    u32 kind, width, height, layout, superblock, row, start, depth, level_u, level_v;
    u32 levels, masks, planes[3];
    u16 contexts[2];
    uint64_t stride, luma_stride, chroma_stride, padding;
};

// `code` is the size's number in dav1d.
struct block {
    u16 x, y, tx_masks[2];
    u8 size, code, tx, uvtx, inter, chroma, skip, mode, reference, segment, padding[2];
};

_Static_assert(sizeof(struct head) == 160 && sizeof(struct step) == 96 && sizeof(struct block) == 20, "as written");

static void fail(const char *why) {
    fprintf(stderr, "%s\n", why);
    exit(1);
}
