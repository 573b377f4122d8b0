// dav1d on a frame: its C, or its assembly where it has one.
#include "config.h"

#include "src/cpu.h"
#include "src/internal.h"
#include "src/lf_mask.h"
#include "frame.h"

#define DEPTH(bits, pixel)                                                                                           \
    void dav1d_loop_filter_dsp_init_##bits##bpc(Dav1dLoopFilterDSPContext *);                                        \
    void dav1d_loopfilter_sbrow_cols_##bits##bpc(const Dav1dFrameContext *, pixel *const[3], Av1Filter *, int, int); \
    void dav1d_loopfilter_sbrow_rows_##bits##bpc(const Dav1dFrameContext *, pixel *const[3], Av1Filter *, int);
DEPTH(8, u8)
DEPTH(16, u16)

// Words of masks in a record.
#define WORDS 640

static Dav1dFrameContext context;
static Dav1dDSPContext dsp;
static Dav1dSequenceHeader sequence;
static Dav1dFrameHeader header;
static u8 edges[2][16384];

static u32 records(const struct frame *f) { return f->head->masks / WORDS; }

// C reads the limit tables; the assembly has the sharpness, if they are one's.
static void set_limits(const struct head *h) {
    Av1FilterLUT *lut = &context.lf.lim_lut;
    dav1d_calc_eih(lut, h->i[63] == 63 ? 0 : 9 - h->i[63]);
    memcpy(lut->e, h->e, 64);
    memcpy(lut->i, h->i, 64);
}

static void prepare(struct frame *f) {
    const struct step *s = f->steps;
    Dav1dFrameContext *c = &context;
    sequence.sb128 = s->superblock == 128;
    header.loopfilter.level_u = s->level_u;
    header.loopfilter.level_v = s->level_v;
    header.tiling.col_start_sb[1] = 65535; // no other tile
    dav1d_init_cpu();
    dav1d_set_cpu_flags_mask(~DAV1D_X86_CPU_FLAG_AVX512ICL); // the emulator has none
    if (f->head->is_wide) dav1d_loop_filter_dsp_init_16bpc(&dsp.lf);
    else dav1d_loop_filter_dsp_init_8bpc(&dsp.lf);
    c->seq_hdr = &sequence;
    c->frame_hdr = &header;
    c->dsp = &dsp;
    c->cur.p.layout = DAV1D_PIXEL_LAYOUT_I420;
    c->cur.stride[0] = s->luma_stride << f->head->is_wide;
    c->cur.stride[1] = s->chroma_stride << f->head->is_wide;
    c->b4_stride = s->stride;
    c->w4 = (s->width + 3) / 4;
    c->h4 = (s->height + 3) / 4;
    c->bw = (s->width + 7) / 8 * 2;
    c->bh = (s->height + 7) / 8 * 2;
    c->sb128w = (c->w4 + 31) / 32;
    c->bitdepth_max = (1 << s->depth) - 1;
    c->lf.level = (u8(*)[4])f->levels;
    if (!c->lf.mask) c->lf.mask = calloc(records(f), sizeof(Av1Filter));
    for (u32 n = 0; n < records(f); n++) memcpy(c->lf.mask + n, f->masks + WORDS * n, 2 * WORDS);
    set_limits(f->head);
    c->lf.tx_lpf_right_edge[0] = edges[0];
    c->lf.tx_lpf_right_edge[1] = edges[1];
}

static void finish(struct frame *f) {
    for (u32 n = 0; n < records(f); n++) memcpy(f->masks + WORDS * n, context.lf.mask + n, 2 * WORDS);
}

#define PASS(bits, T)                                                                             \
    static void pass_##bits(const struct frame *f, const struct step *s) {                       \
        const Dav1dFrameContext *c = &context;                                                    \
        const size_t line = (size_t)s->row * s->superblock;                                       \
        T *const p[3] = { (T *)f->planes[0] + line * s->luma_stride,                              \
                          (T *)f->planes[1] + line / 2 * s->chroma_stride,                        \
                          (T *)f->planes[2] + line / 2 * s->chroma_stride };                      \
        Av1Filter *mask = c->lf.mask + line / 128 * c->sb128w;                                    \
        if (s->kind == 2) dav1d_loopfilter_sbrow_cols_##bits##bpc(c, p, mask, s->row, 0);         \
        else dav1d_loopfilter_sbrow_rows_##bits##bpc(c, p, mask, s->row);                         \
    }
PASS(8, u8)
PASS(16, u16)

static __attribute__((noinline)) void filter(struct frame *f) {
    for (u32 n = 0; n < f->head->steps; n++)
        if (f->head->is_wide) pass_16(f, f->steps + n);
        else pass_8(f, f->steps + n);
}

static void record_block(struct frame *f, const struct block *b) {
    const Dav1dFrameContext *c = &context;
    Av1Filter *mask = c->lf.mask + b->y / 32 * c->sb128w + b->x / 32;
    const u8(*values)[8][2] = (const u8(*)[8][2])f->values[b->segment];
    u8 *above = f->contexts[0] + b->x, *left = f->contexts[1] + b->y % 32;
    u8 *above_uv = b->chroma ? f->contexts[2] + b->x / 2 : NULL, *left_uv = b->chroma ? f->contexts[3] + b->y % 32 / 2 : NULL;
    if (b->inter)
        dav1d_create_lf_mask_inter(mask, c->lf.level, c->b4_stride,
                                   (const u8(*)[8][2]) & values[0][b->reference][b->mode != 0], b->x, b->y, c->w4, c->h4,
                                   b->skip, b->code, b->tx, b->tx_masks, b->uvtx, c->cur.p.layout, above, left, above_uv,
                                   left_uv);
    else
        dav1d_create_lf_mask_intra(mask, c->lf.level, c->b4_stride, values, b->x, b->y, c->w4, c->h4, b->code, b->tx,
                                   b->uvtx, c->cur.p.layout, above, left, above_uv, left_uv);
}

static __attribute__((noinline)) void record(struct frame *f) {
    for (u32 n = 0; n < f->blocks_count; n++) {
        start_contexts(f, f->blocks + n);
        record_block(f, f->blocks + n);
    }
}
