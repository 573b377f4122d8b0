// Answers records of part `apply`, of any size, by the archive of crate `deblock`. It is compiled by the
// kit's clang, which has no headers: what it takes from the C library is declared here.
#include "deblock.h"

typedef uint8_t u8;
typedef uint16_t u16;
typedef uint32_t u32;

long read(int, void *, size_t);
long write(int, const void *, size_t);
void *calloc(size_t, size_t);
void free(void *);
_Noreturn void exit(int);

struct head {
    u32 length, is_wide, levels, masks, planes[3], steps;
    u8 e[64], i[64];
};

struct step {
    u32 kind, width, height, layout, superblock, row, start, depth, level_u, level_v;
    u32 levels, masks, planes[3];
    u16 contexts[2];
    size_t stride, luma_stride, chroma_stride, padding;
};

_Static_assert(sizeof(struct head) == 160 && sizeof(struct step) == 96, "as FORMATS.md says");

// Reads all, or ends the program: well where input ends before the first byte and it may.
static void get(void *to, size_t n, int may_end) {
    for (size_t at = 0; at < n;) {
        long more = read(0, (u8 *)to + at, n - at);
        if (more <= 0) exit(!(may_end && at == 0 && more == 0));
        at += more;
    }
}

static void put(const void *from, size_t n) {
    for (size_t at = 0; at < n;) {
        long more = write(1, (const u8 *)from + at, n - at);
        if (more <= 0) exit(1);
        at += more;
    }
}

static void *got(size_t n) {
    void *to = calloc(n + 1, 1);
    if (!to) exit(1);
    get(to, n, 0);
    return to;
}

static u32 correct(const struct step *s, u16 *masks) {
    u8 *left = got(s->contexts[0]), *left_uv = got(s->contexts[1]);
    u32 number =
        s->kind == 0
            ? deblock_correct_column(masks, s->masks, s->width, s->height, s->layout, s->superblock,
                                     s->row, s->start, left, s->contexts[0], left_uv, s->contexts[1])
            : deblock_correct_row(masks, s->masks, s->width, s->height, s->layout, s->superblock, s->row,
                                  left, s->contexts[0], left_uv, s->contexts[1]);
    free(left);
    free(left_uv);
    return number;
}

#define ARGUMENTS(T, ...)                                                                              \
    ((T *)p[0], s->planes[0], s->luma_stride, (T *)p[1], s->planes[1], (T *)p[2], s->planes[2],        \
     s->chroma_stride, levels, s->levels, s->stride, masks, s->masks, h->e, h->i, __VA_ARGS__ s->width, \
     s->height, s->layout, s->superblock, s->level_u, s->level_v, s->row)

static u32 filter(const struct head *h, const struct step *s, u8 *levels, u16 *masks, void **p) {
    if (h->is_wide)
        return s->kind == 2 ? deblock_columns_16 ARGUMENTS(u16, s->depth, )
                            : deblock_rows_16 ARGUMENTS(u16, s->depth, );
    return s->kind == 2 ? deblock_columns_8 ARGUMENTS(u8, ) : deblock_rows_8 ARGUMENTS(u8, );
}

static u8 take(const struct head *h, u8 *levels, u16 *masks, void **p) {
    struct step s;
    get(&s, sizeof s, 0);
    if (s.kind < 2) return correct(&s, masks);
    if (s.kind < 4) return filter(h, &s, levels, masks, p);
    if (s.kind == 4) levels[s.row] = s.start;
    else if (s.kind == 5) masks[s.row] = s.start;
    else if (h->is_wide) ((u16 *)p[s.kind - 6])[s.row] = s.start;
    else ((u8 *)p[s.kind - 6])[s.row] = s.start;
    return 0;
}

int main(void) {
    for (;;) {
        struct head h;
        get(&h, sizeof h, 1);
        size_t size = h.is_wide ? 2 : 1;
        u8 *levels = got(h.levels);
        u16 *masks = got(2 * (size_t)h.masks);
        void *p[3];
        for (int n = 0; n < 3; n++) p[n] = got(size * h.planes[n]);
        for (u32 n = 0; n < h.steps; n++) {
            u8 number = take(&h, levels, masks, p);
            put(&number, 1);
        }
        put(masks, 2 * (size_t)h.masks);
        for (int n = 0; n < 3; n++) put(p[n], size * h.planes[n]);
        free(levels);
        free(masks);
        for (int n = 0; n < 3; n++) free(p[n]);
    }
}
