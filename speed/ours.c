// The archive's calls on a frame.
#include "../include/deblock.h"
#include "frame.h"

#define ARGUMENTS(T, ...)                                                                                        \
    ((T *)f->planes[0], h->planes[0], s->luma_stride, (T *)f->planes[1], h->planes[1], (T *)f->planes[2],         \
     h->planes[2], s->chroma_stride, f->levels, h->levels, s->stride, f->masks, h->masks, h->e, h->i,             \
     __VA_ARGS__ s->width, s->height, s->layout, s->superblock, s->level_u, s->level_v, s->row)

static u32 pass(struct frame *f, const struct step *s) {
    const struct head *h = f->head;
    if (h->is_wide)
        return s->kind == 2 ? deblock_columns_16 ARGUMENTS(u16, s->depth, ) : deblock_rows_16 ARGUMENTS(u16, s->depth, );
    return s->kind == 2 ? deblock_columns_8 ARGUMENTS(u8, ) : deblock_rows_8 ARGUMENTS(u8, );
}

static __attribute__((noinline)) void filter(struct frame *f) {
    for (u32 n = 0; n < f->head->steps; n++)
        if (pass(f, f->steps + n)) fail("refused");
}

#define AT(n, place) f->contexts[n] + (place), f->context_lengths[n] - (place)

static u32 record_block(struct frame *f, const struct block *b) {
    const struct head *h = f->head;
    const struct step *s = f->steps;
    const u32 x = b->x, y = b->y % 32;
    if (!b->inter)
        return deblock_record_intra(f->levels, h->levels, s->stride, f->masks, h->masks, f->values[b->segment],
                                    s->width, s->height, s->layout, x, b->y, b->size, b->tx, AT(0, x), AT(1, y),
                                    b->chroma, b->uvtx, AT(2, x / 2), AT(3, y / 2));
    return deblock_record_inter(f->levels, h->levels, s->stride, f->masks, h->masks, f->values[b->segment], s->width,
                                s->height, s->layout, x, b->y, b->size, b->tx, b->tx_masks, b->skip, b->reference,
                                b->mode, AT(0, x), AT(1, y), b->chroma, b->uvtx, AT(2, x / 2), AT(3, y / 2));
}

static __attribute__((noinline)) void record(struct frame *f) {
    for (u32 n = 0; n < f->blocks_count; n++) {
        start_contexts(f, f->blocks + n);
        if (record_block(f, f->blocks + n)) fail("refused");
    }
}

static void prepare(struct frame *f) { (void)f; }
static void finish(struct frame *f) { (void)f; }
