// The table of loads and stores in docs/USING.md, written a second time: what a call may load and store,
// by the geometry of number.h and by what is lent as it was before the call.

enum { LOAD = 1, STORE = 2 };

// What may be done to each byte that is lent; and of each mask word, the bits of the block that is
// recorded.
struct table {
    u8 *may[BUFFERS];
    u16 *block;
};

static void make_table(struct table *t) {
    for (int n = 0; n < BUFFERS; n++) t->may[n] = pages(ROOM, READ_WRITE);
    t->block = pages(ROOM, READ_WRITE);
}

static void let(struct table *t, const struct asked *a, const struct lent *l, size_t from, size_t count,
                u8 what) {
    u8 *may = t->may[l - a->lent];
    for (size_t n = from * l->size; n < (from + count) * l->size && n < l->length * l->size; n++)
        may[n] |= what;
}

static void let_all(struct table *t, const struct asked *a, const struct lent *l, u8 what) {
    let(t, a, l, 0, l->length, what);
}

// ---- recording and correcting

// The words of the block's units, in the halves that it lies in, of both passes.
static void let_block_masks(struct table *t, const struct asked *a, int p, long x, long y, long w,
                            long h) {
    struct plane q = plane(a, p);
    long wide = 32 >> q.ss_hor, high = 32 >> q.ss_ver;
    size_t record = y / high * across(a) + x / wide;
    for (int pass = 0; pass < 2; pass++) {
        long first = pass ? y % high : x % wide, units = pass ? h : w;
        long from = pass ? x % wide : y % high, along = pass ? w : h,
             holds = 16 >> (pass ? q.ss_hor : q.ss_ver);
        for (long unit = first; unit < first + units; unit++)
            for (int c = 0; c < (p ? 2 : 3); c++)
                for (long place = from; place < from + along; place++) {
                    size_t word = mask_at(p, record, pass, unit, c, place / holds);
                    let(t, a, &a->masks, word, 1, LOAD | STORE);
                    t->block[word] |= 1 << place % holds;
                }
    }
}

static void let_block(struct table *t, const struct asked *a, int p) {
    struct plane q = plane(a, p);
    long x = a->x >> q.ss_hor, y = a->y >> q.ss_ver, w = units_along(a, p, 0), h = units_along(a, p, 1);
    size_t reference = a->call->is_inter ? a->reference : 0, mode = a->call->is_inter && a->mode;
    if (w == 0) return;
    for (size_t kind = p ? 2 : 0, n = 0; n < 2; n++)
        let(t, a, &a->values, ((kind + n) * 8 + reference) * 2 + mode, 1, LOAD);
    for (long j = y; j < y + h; j++)
        for (long i = x; i < x + w; i++)
            let(t, a, &a->levels, 4 * (j * a->stride + i) + (p ? 2 : 0), 2, STORE);
    let_block_masks(t, a, p, x, y, w, h);
}

static void let_contexts(struct table *t, struct asked *a, u8 what) {
    for (int p = 0; p < planes_recorded(a); p++)
        for (int is_left = 0; is_left < 2; is_left++)
            let(t, a, context(a, p, is_left), 0, units_along(a, p, is_left), what);
}

static void let_record(struct table *t, struct asked *a, u32 number) {
    if (number == 0 || number >= 6) let_contexts(t, a, number ? LOAD : LOAD | STORE);
    if (number) return;
    if (a->call->is_inter) let_all(t, a, &a->tx_masks, LOAD);
    for (int p = 0; p < planes_recorded(a); p++) let_block(t, a, p);
}

static void let_correct(struct table *t, struct asked *a, u32 number) {
    int rows = a->call->is_rows;
    if (number == 0 || number >= 6) let_contexts(t, a, LOAD);
    for (int p = 0; p < planes_recorded(a) && number == 0; p++) {
        struct plane q = plane(a, p);
        struct span row = row_units(a, q);
        for (long n = 0; n < units_along(a, p, !rows); n++)
            for (int c = 0; c < (p ? 2 : 3); c++) {
                long x = rows ? n : (long)(a->start * a->superblock / 4) >> q.ss_hor,
                     y = rows ? row.from : row.from + n;
                let(t, a, &a->masks, bit_at(a, p, x, y, c).word, 1, LOAD | STORE);
            }
    }
}

// ---- filtering

static u8 level_used(const struct asked *a, int p, long x, long y) {
    u8 level = bytes(&a->levels)[level_at(a, p, x, y)];
    return level ? level : bytes(&a->levels)[level_at(a, p, x - !a->call->is_rows, y - a->call->is_rows)];
}

// The samples on each side of an edge that a piece may look at, and change.
static long reads_of(int p, int c) { return c == 0 ? 2 : p ? 3 : c == 1 ? 4 : 7; }
static long writes_of(int p, int c) { return c == 0 || p ? 2 : c == 1 ? 3 : 6; }

static void let_piece(struct table *t, const struct asked *a, int p, long x, long y, int c) {
    long reads = reads_of(p, c), writes = writes_of(p, c);
    for (long n = 0; n < 4; n++)
        for (long d = -reads; d < reads; d++) {
            long column = 4 * x + (a->call->is_rows ? n : d), line = 4 * y + (a->call->is_rows ? d : n);
            let(t, a, &a->lent[p], line * stride_of(a, p) + column, 1,
                -writes <= d && d < writes ? LOAD | STORE : LOAD);
        }
}

static void let_pieces(struct table *t, const struct asked *a, int p) {
    struct plane q = plane(a, p);
    struct span row = row_units(a, q);
    for (long y = row.from; y < least(row.to, q.h4); y++)
        for (long x = 0; x < q.w4; x++) {
            int c = edge(a, p, x, y);
            if (c >= 0 && (a->call->is_rows ? y : x) > 0 && level_used(a, p, x, y))
                let_piece(t, a, p, x, y, c);
        }
}

// A test is made only if no lower number is given; number 8 looks at all four bytes of a unit.
static void let_filter(struct table *t, const struct asked *a, u32 number) {
    for (int p = 0; p < planes_filtered(a); p++) {
        struct plane q = plane(a, p);
        struct span units = levels_looked_at(a, q), lines = samples_looked_at(a, q);
        for (long y = units.from; y < units.to; y++)
            let(t, a, &a->levels, 4 * y * a->stride, 4 * q.w4, LOAD);
        if (number && number < 9) continue;
        for (long y = lines.from; a->call->is_wide && y < lines.to; y++)
            let(t, a, &a->lent[p], y * stride_of(a, p), q.wide, LOAD);
        if (number && number < 11) continue;
        for (long g = 0; p < 2 && g < across(a); g++)
            for (int n = 0; n < mask_words(p); n++)
                if (word_of_row(a, p, g, n) >= 0) let(t, a, &a->masks, word_of_row(a, p, g, n), 1, LOAD);
        if (number == 0) let_pieces(t, a, p);
    }
    if (number) return;
    let_all(t, a, &a->e, LOAD);
    let_all(t, a, &a->i, LOAD);
}

// ---- a header's parameters

// The bytes that hold bits from the call's place on, so many of them.
static void let_bits(struct table *t, const struct asked *a, u32 count, u8 what) {
    if (count == 0 || a->place / 8 >= a->header.length) return;
    let(t, a, &a->header, a->place / 8, (a->place % 8 + count + 7) / 8, what);
}

// Reading takes bits until it is done, or they run out.
static void let_read_params(struct table *t, const struct asked *a, u32 number) {
    struct bits b = bits_from(a);
    parsed_params(a, &b);
    let_bits(t, a, b.taken, LOAD);
    let_all(t, a, &a->ref_delta, LOAD);
    let_all(t, a, &a->mode_delta, LOAD);
    for (int n = 0; n < BUFFERS; n++)
        if (number == 0 && a->call->writes >> n & 1) let_all(t, a, &a->lent[n], STORE);
}

static void let_write_params(struct table *t, const struct asked *a, u32 number) {
    struct params p = lent_params(a);
    for (int n = 0; n < BUFFERS; n++)
        if (a->call->reads >> n & 1) let_all(t, a, &a->lent[n], LOAD);
    if (number) return;
    let_bits(t, a, bits_written(a, &p), LOAD | STORE);
    let_all(t, a, &a->count, STORE);
}

// ---- every call

static void let_levels(struct table *t, const struct asked *a, u32 number) {
    for (const struct lent *l = &a->base; l <= &a->seg_delta; l++) let_all(t, a, l, LOAD);
    if (number == 0) let(t, a, &a->values, 0, a->segmentation ? 512 : 64, STORE);
}

static void let_limits(struct table *t, const struct asked *a) {
    let_all(t, a, &a->e, STORE);
    let_all(t, a, &a->i, STORE);
    let_all(t, a, &a->sharp, STORE);
}

static void let_list(struct table *t, const struct asked *a, size_t length) {
    let_all(t, a, &a->script, LOAD);
    if (length <= a->out.length) let(t, a, &a->out, 0, length, STORE);
}

// `answer` is the number, of the listing its length.
static void fill_table(struct table *t, struct asked *a, size_t answer) {
    for (int n = 0; n < BUFFERS; n++)
        if ((a->call->reads | a->call->writes) >> n & 1)
            memset(t->may[n], 0, a->lent[n].length * a->lent[n].size);
    if (a->call->kind == RECORD) memset(t->block, 0, a->masks.length * a->masks.size);
    switch (a->call->kind) {
    case READ_PARAMS: let_read_params(t, a, answer); break;
    case WRITE_PARAMS: let_write_params(t, a, answer); break;
    case LIMITS:
        if (answer == 0) let_limits(t, a);
        break;
    case LEVELS: let_levels(t, a, answer); break;
    case RECORD: let_record(t, a, answer); break;
    case CORRECT: let_correct(t, a, answer); break;
    case FILTER:
        if (answer == 0 || answer >= 8) let_filter(t, a, answer);
        break;
    case LIST: let_list(t, a, answer);
    }
}
