// A call of the archive with all its arguments.

#include "deblock.h"

typedef uint8_t u8;
typedef uint16_t u16;
typedef uint32_t u32;
typedef uint64_t u64;
typedef unsigned __int128 u128;

// By value, those of 64 bits first, and lent memory, slices first.
#define STRIDES stride, luma_stride, chroma_stride, place
#define WORDS                                                                                            \
    sharpness, layout, delta_enabled, multi, segmentation, width, height, x, y, block, tx, uvtx, chroma, \
        skip, reference, mode, superblock, row, start, depth, level_u, level_v, planes, lossless, intrabc
#define SLICES luma, u, v, levels, masks, above, left, above_uv, left_uv, script, out, header
#define TABLES                                                                                     \
    values, tx_masks, e, i, sharp, base, ref_delta, mode_delta, lf_delta, seg_delta, bits, update, \
        ref_before, mode_before, count
enum { SIZES = 4, VALUES = 29, LENGTHS = 12, BUFFERS = 27 };

// `length` elements of `size` bytes, as they were and as the call has them.
struct lent {
    void *before, *at;
    size_t length, size;
};

struct asked {
    const struct call *call;
    union {
        struct {
            size_t STRIDES, WORDS;
        };
        size_t value[VALUES];
    };
    union {
        struct {
            struct lent SLICES, TABLES;
        };
        struct lent lent[BUFFERS];
    };
};

enum kind { READ_PARAMS, WRITE_PARAMS, LIMITS, LEVELS, RECORD, CORRECT, FILTER, LIST };

struct call {
    const char *name;
    enum kind kind;
    int is_rows, is_inter, is_wide;
    // The numbers that it may answer, in order; what is lent to it to read and to write, as sets.
    u8 numbers[10];
    u32 reads, writes;
    size_t (*ask)(const struct asked *);
};

#define LENT(name) \
    (1u << (offsetof(struct asked, name) - offsetof(struct asked, lent)) / sizeof(struct lent))
#define offsetof __builtin_offsetof

static int is_params(const struct call *c) { return c->kind <= WRITE_PARAMS; }

static u8 *bytes(const struct lent *l) { return l->before; }
static u16 *words(const struct lent *l) { return l->before; }
