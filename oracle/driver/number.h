// The number that docs/SPECIFICATION.md asks for: given_n is row n of its table, whose words stand above
// it, for a call that no row before gives a number.

struct size {
    long wide, high;
};

// The standard's block sizes and transforms, in units.
static const struct size BLOCK[22] = {
    {1, 1},  {1, 2},   {2, 1},   {2, 2},   {2, 4},   {4, 2}, {4, 4}, {4, 8}, {8, 4}, {8, 8},  {8, 16},
    {16, 8}, {16, 16}, {16, 32}, {32, 16}, {32, 32}, {1, 4}, {4, 1}, {2, 8}, {8, 2}, {4, 16}, {16, 4},
};
static const struct size TX[19] = {
    {1, 1}, {2, 2},  {4, 4},  {8, 8}, {16, 16}, {1, 2}, {2, 1}, {2, 4},  {4, 2},  {4, 8},
    {8, 4}, {8, 16}, {16, 8}, {1, 4}, {4, 1},   {2, 8}, {8, 2}, {4, 16}, {16, 4},
};

static long least(long a, long b) { return a < b ? a : b; }

// ---- units and lent memory

// Plane 0 is luma, 1 U, 2 V: how it is subsampled, its units in the frame, the samples that it holds.
struct plane {
    long ss_hor, ss_ver, w4, h4, wide, high;
};

static struct plane plane(const struct asked *a, int p) {
    long ss_hor = p && a->layout != 444, ss_ver = p && a->layout == 420;
    long w4 = (a->width + 3) / 4, h4 = (a->height + 3) / 4;
    long wide = (a->width + 127) / 128 * 128, high = (a->height + 127) / 128 * 128;
    w4 = (w4 + ss_hor) >> ss_hor, h4 = (h4 + ss_ver) >> ss_ver;
    return (struct plane){ss_hor, ss_ver, w4, h4, wide >> ss_hor, high >> ss_ver};
}

static int planes_filtered(const struct asked *a) {
    return a->layout == 400 || (a->level_u == 0 && a->level_v == 0) ? 1 : 3;
}

// U and V as one: they share masks, and contexts.
static int planes_marked(const struct asked *a) { return least(planes_filtered(a), 2); }
static int planes_recorded(const struct asked *a) {
    return a->layout != 400 && (a->call->kind == CORRECT || a->chroma) ? 2 : 1;
}

static size_t stride_of(const struct asked *a, int p) { return p ? a->chroma_stride : a->luma_stride; }

static size_t level_at(const struct asked *a, int p, long x, long y) {
    return 4 * (y * a->stride + x) + (p ? p + 1 : a->call->is_rows);
}

// Records side by side, and all.
static long across(const struct asked *a) { return (a->width + 127) / 128; }
static size_t records(const struct asked *a) { return across(a) * ((a->height + 127) / 128); }

static size_t mask_at(int p, size_t record, int pass, long unit, int c, long half) {
    return 640 * record +
           (p ? 384 + ((pass * 32 + unit) * 2 + c) * 2 + half : ((pass * 32 + unit) * 3 + c) * 2 + half);
}

// ---- the superblock row

struct span {
    long from, to;
};

static int is_row_inside(const struct asked *a) { return a->row * a->superblock < a->height; }

// Its lines of units, not cut at the frame's end.
static struct span row_units(const struct asked *a, struct plane q) {
    long high = a->superblock / 4 >> q.ss_ver;
    return (struct span){a->row * high, a->row * high + high};
}

// What number 8, or 9, looks at: nothing of a row outside, and for rows so many lines above.
static struct span looked_at(const struct asked *a, long from, long to, long above) {
    if (!is_row_inside(a)) return (struct span){0, 0};
    return (struct span){a->call->is_rows && a->row > 0 ? from - above : from, to};
}

static struct span levels_looked_at(const struct asked *a, struct plane q) {
    struct span s = row_units(a, q);
    return looked_at(a, s.from, least(s.to, q.h4), 1);
}

static struct span samples_looked_at(const struct asked *a, struct plane q) {
    struct span s = row_units(a, q);
    return looked_at(a, 4 * s.from, 4 * s.to, 8);
}

// ---- edges

struct bit {
    size_t word;
    int bit;
};

static struct bit bit_at(const struct asked *a, int p, long x, long y, int c) {
    struct plane q = plane(a, p);
    int rows = a->call->is_rows;
    long wide = 32 >> q.ss_hor, high = 32 >> q.ss_ver, holds = 16 >> (rows ? q.ss_hor : q.ss_ver);
    long unit = rows ? y % high : x % wide, along = rows ? x % wide : y % high;
    size_t record = y / high * across(a) + x / wide;
    return (struct bit){mask_at(p, record, rows, unit, c, along / holds), along % holds};
}

// The class of the edge at a unit, the highest that is set; -1 where there is no edge.
static int edge(const struct asked *a, int p, long x, long y) {
    struct plane q = plane(a, p);
    if (x >= q.w4 || y >= q.h4) return -1;
    for (int c = p ? 1 : 2; c >= 0; c--) {
        struct bit b = bit_at(a, p, x, y, c);
        if (words(&a->masks)[b.word] >> b.bit & 1) return c;
    }
    return -1;
}

// Words of one plane, record and pass: every class, unit and half.
static int mask_words(int p) { return (p ? 2 : 3) * 32 * 2; }

// Where word n is, of the call's pass and record g of the row's records; -1 if it is not of the row, or
// unused.
static long word_of_row(const struct asked *a, int p, long g, int n) {
    struct plane q = plane(a, p);
    struct span row = row_units(a, q);
    int rows = a->call->is_rows;
    long unit = n / 2 % 32, half = n % 2, wide = 32 >> q.ss_hor, high = 32 >> q.ss_ver;
    long y = row.from / high * high + (rows ? unit : half * high / 2);
    if (unit >= (rows ? high : wide) || y < row.from || y >= row.to) return -1;
    return mask_at(p, row.from / high * across(a) + g, rows, unit, n / 64, half);
}

static int is_stray(const struct asked *a, int p, long g, int n, int bit) {
    struct plane q = plane(a, p);
    int rows = a->call->is_rows;
    long unit = n / 2 % 32, wide = 32 >> q.ss_hor, high = 32 >> q.ss_ver;
    long top = row_units(a, q).from / high * high;
    long holds = 16 >> (rows ? q.ss_hor : q.ss_ver), along = n % 2 * holds + bit;
    return bit >= holds || g * wide + (rows ? along : unit) >= q.w4 || top + (rows ? unit : along) >= q.h4;
}

// ---- the table

// sharpness above 7
static int given_1(const struct asked *a) { return a->sharpness > 7; }

// base level above 63, reference or mode delta outside -64..63, lf or segment delta outside -63..63, or a
// chroma base level other than 0 at 4:0:0
static int is_outside(const struct lent *deltas, int low, int high) {
    for (size_t n = 0; n < deltas->length; n++) {
        int delta = (int8_t)bytes(deltas)[n];
        if (delta < low || delta > high) return 1;
    }
    return 0;
}

static int given_2(const struct asked *a) {
    if (a->call->kind == FILTER)
        return a->level_u > 63 || a->level_v > 63 || (a->layout == 400 && (a->level_u || a->level_v));
    const u8 *base = bytes(&a->base);
    for (int kind = 0; kind < 4; kind++)
        if (base[kind] > 63) return 1;
    return is_outside(&a->ref_delta, -64, 63) || is_outside(&a->mode_delta, -64, 63) ||
           is_outside(&a->lf_delta, -63, 63) || is_outside(&a->seg_delta, -63, 63) ||
           (a->layout == 400 && (base[2] || base[3]));
}

// depth not 8, 10 or 12
static int given_3(const struct asked *a) { return a->depth != 8 && a->depth != 10 && a->depth != 12; }

// layout or frame size not as above, superblock size not 64 or 128, or a chroma pair given at 4:0:0
static int given_4(const struct asked *a) {
    return (a->layout != 400 && a->layout != 420 && a->layout != 422 && a->layout != 444) ||
           (a->call->kind >= RECORD &&
            (a->width < 1 || a->width > 16384 || a->height < 1 || a->height > 16384)) ||
           (a->call->kind >= CORRECT && a->superblock != 64 && a->superblock != 128) ||
           (a->call->kind == RECORD && a->chroma && a->layout == 400);
}

// block size code above 21 or transform code above 18 (the chroma transform counts only with a chroma
// pair); place not a multiple of the block's own width and height, or past w4 or h4; transform wider or
// higher than the block in its plane; for inter, a luma transform that is neither the block's own size cut
// at 64 each way nor 4x4; reference above 7
static int is_larger(struct size tx, struct size b, struct plane q) {
    return tx.wide > (b.wide + q.ss_hor) >> q.ss_hor || tx.high > (b.high + q.ss_ver) >> q.ss_ver;
}

static int is_for_inter(struct size tx, struct size b) {
    return (tx.wide == least(b.wide, 16) && tx.high == least(b.high, 16)) ||
           (tx.wide == 1 && tx.high == 1);
}

static int given_5(const struct asked *a) {
    if (a->block > 21 || a->tx > 18 || (a->chroma && a->uvtx > 18)) return 1;
    struct size b = BLOCK[a->block], tx = TX[a->tx];
    struct plane luma = plane(a, 0);
    if (a->x % b.wide || a->y % b.high || a->x > (size_t)luma.w4 || a->y > (size_t)luma.h4) return 1;
    if (is_larger(tx, b, luma) || (a->chroma && is_larger(TX[a->uvtx], b, plane(a, 1)))) return 1;
    return a->call->is_inter && (!is_for_inter(tx, b) || a->reference > 7);
}

// superblock row, or tile start counted in superblocks, outside the frame
static int given_10(const struct asked *a) {
    return !is_row_inside(a) ||
           (a->call->kind == CORRECT && !a->call->is_rows && a->start * a->superblock >= a->width);
}

// a context with fewer bytes than the units recorded or corrected along it, or with a value above its
// range among those
static struct lent *context(struct asked *a, int p, int is_left) { return &a->above + 2 * p + is_left; }

static long units_along(const struct asked *a, int p, int is_left) {
    struct plane q = plane(a, p);
    if (a->call->kind == CORRECT) {
        int rows = a->call->is_rows;
        if (rows == is_left || (rows ? a->row : a->start) == 0 || given_10(a)) return 0;
        struct span row = row_units(a, q);
        return rows ? q.w4 : least(row.to, q.h4) - row.from;
    }
    struct size b = BLOCK[a->block];
    long wide = least((b.wide + q.ss_hor) >> q.ss_hor, q.w4 - (long)(a->x >> q.ss_hor));
    long high = least((b.high + q.ss_ver) >> q.ss_ver, q.h4 - (long)(a->y >> q.ss_ver));
    return wide <= 0 || high <= 0 ? 0 : is_left ? high : wide;
}

static int given_6(const struct asked *a) {
    for (int p = 0; p < planes_recorded(a); p++)
        for (int is_left = 0; is_left < 2; is_left++) {
            const struct lent *l = context((struct asked *)a, p, is_left);
            long units = units_along(a, p, is_left);
            if ((long)l->length < units) return 1;
            for (long n = 0; n < units; n++)
                if (bytes(l)[n] > (p ? 1 : 2)) return 1;
        }
    return 0;
}

// levels or masks too short, or stride below w4
static int given_7(const struct asked *a) {
    struct plane luma = plane(a, 0);
    return a->masks.length < 640 * records(a) ||
           (a->call->kind != CORRECT &&
            (a->stride < (size_t)luma.w4 || a->levels.length < 4 * (u128)a->stride * luma.h4));
}

// a level byte above 63 of this pass at a unit of the row or, for rows, of the unit line above it
static int given_8(const struct asked *a) {
    for (int p = 0; p < planes_filtered(a); p++) {
        struct plane q = plane(a, p);
        struct span s = levels_looked_at(a, q);
        for (long y = s.from; y < s.to; y++)
            for (long x = 0; x < q.w4; x++)
                if (bytes(&a->levels)[level_at(a, p, x, y)] > 63) return 1;
    }
    return 0;
}

// plane too short, its stride below the stored width, or a sample above the depth's maximum among the
// row's stored lines and, for rows, the 8 above
static int given_9(const struct asked *a) {
    for (int p = 0; p < planes_filtered(a); p++) {
        struct plane q = plane(a, p);
        const struct lent *l = &a->lent[p];
        size_t stride = stride_of(a, p);
        if (stride < (size_t)q.wide || l->length < (u128)stride * q.high) return 1;
        struct span s = samples_looked_at(a, q);
        for (long y = s.from; a->call->is_wide && y < s.to; y++)
            for (long x = 0; x < q.wide; x++)
                if (words(l)[y * stride + x] >> a->depth) return 1;
    }
    return 0;
}

// an edge breaks the gap rule in this superblock row: class 0 at distance 1, at most 1 at 2 or 3, else any
static int widest(long d) { return d == 1 ? 0 : d < 4 ? 1 : 2; }

// Along one line of units, whose ends are marks.
static int is_broken(const struct asked *a, int p, long line, struct span s) {
    int rows = a->call->is_rows, c = -1;
    for (long at = s.from, before = at - 4; at <= s.to; at++) {
        int here = at == s.to ? -1 : rows ? edge(a, p, line, at) : edge(a, p, at, line);
        if (here < 0 && s.from < at && at < s.to) continue;
        if (c > widest(at - before) || here > widest(at - before)) return 1;
        before = at;
        c = here;
    }
    return 0;
}

static int given_11(const struct asked *a) {
    for (int p = 0; p < planes_marked(a); p++) {
        struct plane q = plane(a, p);
        struct span row = row_units(a, q), wide = {0, q.wide / 4};
        for (long x = 0; a->call->is_rows && x < q.w4; x++)
            if (is_broken(a, p, x, row)) return 1;
        for (long y = row.from; !a->call->is_rows && y < least(row.to, q.h4); y++)
            if (is_broken(a, p, y, wide)) return 1;
    }
    return 0;
}

// a mask bit of this row outside the frame, or outside the bits its half may hold
static int given_12(const struct asked *a) {
    for (int p = 0; p < planes_marked(a); p++)
        for (long g = 0; g < across(a); g++)
            for (int n = 0; n < mask_words(p); n++) {
                long at = word_of_row(a, p, g, n);
                for (int bit = 0; at >= 0 && bit < 16; bit++)
                    if (words(&a->masks)[at] >> bit & 1 && is_stray(a, p, g, n, bit)) return 1;
            }
    return 0;
}

// a bit that is read, or written, lies at or past 8 times the length
static int given_23(const struct asked *a) {
    struct bits b = bits_from(a);
    if (a->call->kind == READ_PARAMS) return parsed_params(a, &b), b.has_run_out;
    struct params p = lent_params(a);
    u32 count = bits_written(a, &p);
    return count > 0 && b.place + count > 8 * (u128)a->header.length;
}

// with lossless or intra block copy: any level, sharpness, delta_enabled, delta_update or update bit not
// 0, or a delta other than the default
static int is_not_default(const struct params *p) {
    int any = p->sharpness | p->delta_enabled | p->delta_update;
    for (int n = 0; n < 4; n++) any |= p->level[n];
    for (int n = 0; n < 10; n++) any |= p->update[n] | (p->delta[n] != DEFAULT_DELTA[n]);
    return any;
}

// an update bit above 1; an update bit with delta_update 0; a delta sent outside -64..63; a delta not sent
// that differs from the one before
static int is_delta_unsaid(const struct asked *a, const struct params *p, int n) {
    if (p->update[n] == 0) return p->delta[n] != delta_before(a, n);
    return p->update[n] > 1 || p->delta_update == 0 || p->delta[n] < -64 || p->delta[n] > 63;
}

// else any of: a level above 63; level[2] or level[3] not 0 where step 2 is not taken; sharpness above 7;
// delta_enabled or delta_update above 1; delta_update with delta_enabled 0; a delta as above
static int given_24(const struct asked *a) {
    struct params p = lent_params(a);
    if (has_no_bits(a)) return is_not_default(&p);
    for (int n = 0; n < 4; n++)
        if (p.level[n] > 63) return 1;
    if ((p.level[2] || p.level[3]) && !has_chroma_levels(a, &p)) return 1;
    if (p.sharpness > 7 || p.delta_enabled > 1 || p.delta_update > 1) return 1;
    if (p.delta_update && !p.delta_enabled) return 1;
    for (int n = 0; n < 10; n++)
        if (is_delta_unsaid(a, &p, n)) return 1;
    return 0;
}

enum { HIGHEST = 24 };

// Several at once: the first in the call's order, which is the lowest, but for 24 before 23.
static u32 number(const struct asked *a) {
    static int (*const given[HIGHEST + 1])(const struct asked *) = {
        0,       given_1, given_2, given_3,  given_4,  given_5,  given_6,
        given_7, given_8, given_9, given_10, given_11, given_12, [23] = given_23, given_24,
    };
    for (const u8 *n = a->call->numbers; *n; n++)
        if (given[*n](a)) return *n;
    return 0;
}
