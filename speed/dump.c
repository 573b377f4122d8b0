// dump STREAM FILES: decodes an IVF stream of 8 bits, 4:2:0 and one tile with dav1d, writes each deblocked frame as it was
// before deblocking, with its blocks, to FILES-0, FILES-1 and so on, and prints a line for each: key or inter, its blocks.
//
// The linker's --wrap hands dav1d's calls that record a block, or filter a superblock row, to the functions here, which take
// down what they are lent and pass it on. dav1d itself is not changed.
#include "config.h"

#include <errno.h>

#include "dav1d/dav1d.h"
#include "src/internal.h"
#include "deblock.h"
#include "format.h"

#define BLOCKS (1 << 18)

static struct block blocks[BLOCKS];
static const u8 *values[BLOCKS]; // the level values of a block, at its reference and mode
static u32 count, frames;
static u8 *planes[3];
static const char *files;

#define PLACE \
    Av1Filter *mask, u8(*levels)[4], ptrdiff_t stride, const u8(*value)[8][2], int x, int y, int w4, int h4
#define CHROMA \
    enum RectTxfmSize uvtx, enum Dav1dPixelLayout layout, u8 *above, u8 *left, u8 *above_uv, u8 *left_uv
#define INTRA PLACE, enum BlockSize size, enum RectTxfmSize tx, CHROMA
#define INTER PLACE, int skip, enum BlockSize size, enum RectTxfmSize tx, const u16 *tx_masks, CHROMA
#define ROW const Dav1dFrameContext *f, u8 *const p[3], Av1Filter *mask, int row, int start_of_tile_row

void __real_dav1d_create_lf_mask_intra(INTRA);
void __real_dav1d_create_lf_mask_inter(INTER);
void __real_dav1d_loopfilter_sbrow_cols_8bpc(ROW);

// Before a frame's first block the level bytes are cleared: dav1d leaves those of the frame before.
static void add(u8 *levels, size_t bytes, const void *value, struct block block) {
    if (!count) memset(levels, 0, bytes);
    if (count == BLOCKS) fail("too many blocks");
    block.size = deblock_block_of_dav1d[block.code];
    if (!block.chroma) block.uvtx = 0;
    values[count] = value;
    blocks[count++] = block;
}

void __wrap_dav1d_create_lf_mask_intra(INTRA) {
    add(*levels, 4 * stride * ((h4 + 31) & ~31), value,
        (struct block){ .x = x, .y = y, .code = size, .tx = tx, .uvtx = uvtx, .chroma = above_uv != NULL });
    __real_dav1d_create_lf_mask_intra(mask, levels, stride, value, x, y, w4, h4, size, tx, uvtx, layout, above, left,
                                      above_uv, left_uv);
}

void __wrap_dav1d_create_lf_mask_inter(INTER) {
    add(*levels, 4 * stride * ((h4 + 31) & ~31), value,
        (struct block){ .x = x, .y = y, .tx_masks = { tx_masks[0], tx_masks[1] }, .code = size, .tx = tx, .uvtx = uvtx,
                        .inter = 1, .chroma = above_uv != NULL, .skip = skip });
    __real_dav1d_create_lf_mask_inter(mask, levels, stride, value, x, y, w4, h4, skip, size, tx, tx_masks, uvtx, layout,
                                      above, left, above_uv, left_uv);
}

// A place in the level values [segment][area][reference][mode] tells a block's segment, reference and mode.
static void tell_values(const Dav1dFrameContext *f) {
    for (u32 n = 0; n < count; n++) {
        const ptrdiff_t place = values[n] - (const u8 *)f->lf.lvl;
        if (place < 0 || place >= (ptrdiff_t)sizeof f->lf.lvl) fail("levels that change within a frame");
        blocks[n].segment = place / 64;
        blocks[n].reference = place % 64 / 2;
        blocks[n].mode = place % 2;
    }
}

static u32 up(u32 samples) { return (samples + 127) & ~127; }
static u32 width_of(const Dav1dFrameContext *f, int ss) { return up(f->cur.p.w) >> ss; }
static u32 samples_of(const Dav1dFrameContext *f, int ss) { return width_of(f, ss) * (up(f->cur.p.h) >> ss); }

static void keep_samples(const Dav1dFrameContext *f, u8 *const p[3], int row) {
    for (int plane = 0; plane < 3; plane++) {
        const int ss = plane > 0, lines = f->sb_step * 4 >> ss, first = row * lines;
        if (!planes[plane]) planes[plane] = calloc(1, samples_of(f, ss));
        for (int y = 0; y < lines && first + y < f->bh * 4 >> ss; y++)
            memcpy(planes[plane] + (first + y) * width_of(f, ss), p[plane] + y * f->cur.stride[ss], f->bw * 4 >> ss);
    }
}

static void put(FILE *file, const void *bytes, size_t size) {
    if (fwrite(bytes, 1, size, file) != size) fail("not written");
}

static void put_steps(const Dav1dFrameContext *f, const struct head *h, FILE *file) {
    for (u32 n = 0; n < h->steps; n++) {
        const struct step step = {
            .kind = 2 + n % 2, .width = f->cur.p.w, .height = f->cur.p.h, .layout = 420, .superblock = f->sb_step * 4,
            .row = n / 2, .depth = 8, .level_u = f->frame_hdr->loopfilter.level_u,
            .level_v = f->frame_hdr->loopfilter.level_v, .levels = h->levels, .masks = h->masks,
            .planes = { h->planes[0], h->planes[1], h->planes[2] }, .stride = f->b4_stride,
            .luma_stride = width_of(f, 0), .chroma_stride = width_of(f, 1) };
        put(file, &step, sizeof step);
    }
}

static void put_frame(const Dav1dFrameContext *f, FILE *file) {
    const u32 records = f->sb128w * f->sb128h, counts[2] = { count, 8 };
    struct head h = { .levels = 4 * f->b4_stride * f->sb128h * 32, .masks = 640 * records, .steps = 2 * f->sbh };
    for (int plane = 0; plane < 3; plane++) h.planes[plane] = samples_of(f, plane > 0);
    h.length = sizeof h + h.levels + 2 * h.masks + h.planes[0] + 2 * h.planes[1] + h.steps * sizeof(struct step);
    memcpy(h.e, f->lf.lim_lut.e, 64);
    memcpy(h.i, f->lf.lim_lut.i, 64);
    put(file, &h, sizeof h);
    put(file, f->lf.level, h.levels);
    for (u32 n = 0; n < records; n++) put(file, f->lf.mask + n, 2 * 640);
    for (int plane = 0; plane < 3; plane++) put(file, planes[plane], h.planes[plane]);
    put_steps(f, &h, file);
    put(file, counts, sizeof counts);
    put(file, f->lf.lvl, sizeof f->lf.lvl);
    put(file, blocks, count * sizeof *blocks);
}

static void write_frame(const Dav1dFrameContext *f) {
    char name[4096];
    const Dav1dFrameHeader *header = f->frame_hdr;
    if (f->cur.p.layout != DAV1D_PIXEL_LAYOUT_I420) fail("not 4:2:0");
    if (header->tiling.cols * header->tiling.rows > 1) fail("several tiles");
    tell_values(f);
    snprintf(name, sizeof name, "%s-%u", files, frames++);
    FILE *file = fopen(name, "wb");
    if (!file) fail(name);
    put_frame(f, file);
    if (fclose(file)) fail(name);
    printf("%s %u\n", header->frame_type == DAV1D_FRAME_TYPE_KEY ? "key" : "inter", count);
    count = 0;
}

// The lines of a superblock row are not filtered before this call of its own, and all blocks of a frame are recorded
// before its last.
void __wrap_dav1d_loopfilter_sbrow_cols_8bpc(ROW) {
    keep_samples(f, p, row);
    if (row == f->sbh - 1) write_frame(f);
    __real_dav1d_loopfilter_sbrow_cols_8bpc(f, p, mask, row, start_of_tile_row);
}

static void drain(Dav1dContext *decoder) {
    Dav1dPicture picture = { 0 };
    int answer;
    while (!(answer = dav1d_get_picture(decoder, &picture))) dav1d_picture_unref(&picture);
    if (answer != DAV1D_ERR(EAGAIN)) fail("not decoded");
}

int main(int words_count, char **words) {
    u8 head[32], start[12];
    Dav1dSettings settings;
    Dav1dContext *decoder;
    FILE *stream;
    if (words_count != 3 || !(stream = fopen(words[1], "rb"))) fail("usage: dump STREAM FILES");
    files = words[2];
    dav1d_default_settings(&settings);
    settings.n_threads = settings.max_frame_delay = 1;
    if (dav1d_open(&decoder, &settings) || !fread(head, sizeof head, 1, stream)) fail("not opened");
    while (fread(start, sizeof start, 1, stream)) {
        Dav1dData data = { 0 };
        u32 size;
        memcpy(&size, start, sizeof size);
        if (!fread(dav1d_data_create(&data, size), size, 1, stream)) fail("stream ends early");
        while (data.sz) {
            const int answer = dav1d_send_data(decoder, &data);
            if (answer && answer != DAV1D_ERR(EAGAIN)) fail("not sent");
            drain(decoder);
        }
    }
    drain(decoder);
    dav1d_close(&decoder);
}
