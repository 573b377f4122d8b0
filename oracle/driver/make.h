// Cases: accepted ones, in which all that the call does not look at is arbitrary; faults; arbitrary ones.

static u64 state;

static u64 next(void) {
    u64 z = state += 0x9e3779b97f4a7c15;
    z = (z ^ z >> 30) * 0xbf58476d1ce4e5b9;
    z = (z ^ z >> 27) * 0x94d049bb133111eb;
    return z ^ z >> 31;
}

static size_t below(size_t n) { return next() % n; }
static int once_in(size_t n) { return below(n) == 0; }

#define PICK(...) \
    ((const size_t[]){__VA_ARGS__}[below(sizeof((const size_t[]){__VA_ARGS__}) / sizeof(size_t))])

static size_t any_word(void) {
    size_t near = PICK(63, 128, 256, 400, 420, 422, 444, 16384, 1 << 16, 1u << 31, 0);
    return (u32)PICK(below(70), near + below(3) - 1, next() >> below(64), next());
}

static size_t any_size(void) {
    return PICK(((size_t)1 << below(64)) - below(2), ~below(16), next() >> below(64));
}
static size_t any_flag(void) { return PICK(0, 0, 1, 1, 256, 1u << 31, any_word()); }

static void fill(const struct lent *l, u64 kept, u64 added) {
    u64 *to = l->before, z = next();
    for (size_t n = 0; n < l->length * l->size; n += 8) {
        z = z * 0xd1342543de82ef95 + 1;
        *to++ = ((z ^ z >> 32) & kept) + added;
    }
}

// ---- accepted

static size_t side(void) {
    return PICK(1 + below(128), 1 + below(128), 1 + below(8), 128 - below(8), 64 + below(3));
}

static void take_frame(struct asked *a) {
    size_t wide = PICK(0, 0, 0, 0, 1, 1, 2), high = wide ? PICK(0, 0, 2 - wide) : PICK(0, 0, 0, 1, 2);
    if (a->call->kind == CORRECT) wide = below(3), high = below(3);
    a->width = 128 * wide + side();
    a->height = 128 * high + side();
    if (once_in(1000)) {
        a->width = side();
        a->height = side();
        *(once_in(2) ? &a->width : &a->height) = 16384 - PICK(0, below(200));
    }
    a->layout = PICK(400, 420, 422, 444);
    a->superblock = PICK(64, 128);
    a->row = below((a->height - 1) / a->superblock + 1);
    a->start = below((a->width - 1) / a->superblock + 1);
    a->depth = PICK(8, 10, 12);
    a->level_u = a->layout == 400 ? 0 : PICK(0, below(64), 63);
    a->level_v = a->layout == 400 ? 0 : PICK(0, below(64), 63);
}

static void take_block(struct asked *a) {
    struct plane luma = plane(a, 0);
    a->block = below(22);
    struct size b = BLOCK[a->block];
    a->x = b.wide * below(luma.w4 / b.wide + 1);
    a->y = b.high * below(luma.h4 / b.high + 1);
    do a->tx = below(19);
    while (is_larger(TX[a->tx], b, luma) || (a->call->is_inter && !is_for_inter(TX[a->tx], b)));
    do a->uvtx = below(19);
    while (is_larger(TX[a->uvtx], b, plane(a, 1)));
    a->chroma = a->layout == 400 ? 0 : any_flag();
    if (!a->chroma) a->uvtx = any_word();
    a->reference = below(8);
    a->skip = any_flag();
    a->mode = any_flag();
}

static void take_values(struct asked *a) {
    take_frame(a);
    take_block(a);
    a->sharpness = below(8);
    a->delta_enabled = any_flag();
    a->multi = any_flag();
    a->segmentation = any_flag();
    a->planes = PICK(0, 1, 2, 3, 3, 3, any_word());
    a->lossless = once_in(8) ? any_flag() : 0;
    a->intrabc = once_in(8) ? any_flag() : 0;
}

static size_t more(void) { return PICK(0, 0, 0, 1, below(40)); }

static void take_lengths(struct asked *a) {
    struct plane q = plane(a, 0), uv = plane(a, 1);
    a->stride = q.w4 + more();
    a->luma_stride = q.wide + more();
    a->chroma_stride = uv.wide + more();
    a->levels.length = 4 * a->stride * q.h4 + more();
    a->masks.length = 640 * records(a) + more();
    a->luma.length = a->luma_stride * q.high + more();
    a->u.length = a->chroma_stride * uv.high + more();
    a->v.length = a->chroma_stride * uv.high + more();
    a->place = 0;
    a->header.length = 14 + below(50); // 112 bits or more
    if (planes_filtered(a) == 1) {
        a->chroma_stride = any_size();
        a->u.length = below(64);
        a->v.length = below(64);
    }
    for (int p = 0; p < 2; p++)
        for (int is_left = 0; is_left < 2; is_left++)
            context(a, p, is_left)->length =
                p < planes_recorded(a) ? units_along(a, p, is_left) + more() : below(64);
}

static void take_contents(struct asked *a) {
    for (int n = 0; n < BUFFERS; n++)
        if ((a->call->reads | a->call->writes) >> n & 1) fill(&a->lent[n], ~0ul, 0);
    if (a->call->kind != FILTER || once_in(2)) return;
    u64 kept = PICK(0x0303030303030303, 0x000f000f000f000f), added = PICK(0, 0x0060006000600060);
    for (int p = 0; p < 3; p++) fill(&a->lent[p], kept, added);
}

static void mend_header(struct asked *a) {
    for (int kind = 0; kind < 4; kind++) bytes(&a->base)[kind] %= kind > 1 && a->layout == 400 ? 1 : 64;
    for (struct lent *l = &a->ref_delta; l <= &a->seg_delta; l++)
        for (size_t n = 0; n < l->length; n++) {
            int delta = (int8_t)bytes(l)[n] >> 1;
            bytes(l)[n] = delta == -64 && l > &a->mode_delta ? -63 : delta;
        }
}

// Parameters that bits can say, made of arbitrary ones.
static int mended_delta(const struct asked *a, struct params *p, int n, size_t sent) {
    p->update[n] = p->delta_update && below(10) < sent;
    return p->update[n] ? (int)PICK(p->delta[n] >> 1, p->delta[n] >> 1, -64, 63) : delta_before(a, n);
}

static struct params mended(const struct asked *a) {
    struct params p = lent_params(a);
    size_t sent = below(11);
    for (int n = 0; n < 4; n++) p.level[n] = n < 2 && once_in(4) ? 0 : p.level[n] % 64;
    if (!has_chroma_levels(a, &p)) p.level[2] = p.level[3] = 0;
    p.sharpness %= 8;
    p.delta_enabled = !once_in(4);
    p.delta_update = p.delta_enabled && !once_in(4);
    for (int n = 0; n < 10; n++) p.delta[n] = mended_delta(a, &p, n, sent);
    return p;
}

// The place, so that there is room for so many bits, and most often no more than is needed.
static void take_room(struct asked *a, size_t count) {
    size_t spare = 8 * a->header.length - count;
    a->place = PICK(below(8), below(spare + 1), spare, spare - below(least(spare + 1, 9)));
    if (count == 0 && once_in(2)) a->place = any_size();
    else if (once_in(2)) a->header.length = (a->place + count + 7) / 8;
}

// Reading is most often given bits of such parameters, and else any.
static void mend_params(struct asked *a) {
    struct bits none = {0};
    struct params p = has_no_bits(a) ? parsed_params(a, &none) : mended(a);
    take_room(a, a->call->kind == READ_PARAMS && once_in(4) ? 109 : bits_written(a, &p));
    struct bits b = bits_from(a);
    if (a->call->kind == WRITE_PARAMS) lay_params(a, &p);
    else if (!once_in(4)) put_params(a, &b, &p);
}

static void mend_contexts(struct asked *a) {
    for (int p = 0; p < planes_recorded(a); p++)
        for (int is_left = 0; is_left < 2; is_left++)
            for (long n = 0; n < units_along(a, p, is_left); n++)
                bytes(context(a, p, is_left))[n] %= p ? 2 : 3;
}

static void mend_levels_and_samples(struct asked *a) {
    for (int p = 0; p < planes_filtered(a); p++) {
        struct plane q = plane(a, p);
        struct span s = levels_looked_at(a, q);
        for (long y = s.from; y < s.to; y++)
            for (long x = 0; x < q.w4; x++) bytes(&a->levels)[level_at(a, p, x, y)] %= 64;
        s = samples_looked_at(a, q);
        for (long y = s.from; a->call->is_wide && y < s.to; y++)
            for (long x = 0; x < q.wide; x++)
                words(&a->lent[p])[y * stride_of(a, p) + x] &= (1 << a->depth) - 1;
    }
}

static void set_edge(struct asked *a, int p, long x, long y, int c) {
    struct bit b = bit_at(a, p, x, y, c);
    words(&a->masks)[b.word] |= 1 << b.bit;
}

// Edges along a line, those of the frame before `end`; most are as wide as their neighbours let them be.
static void take_line(struct asked *a, int p, long line, struct span s, long end, size_t step) {
    for (long at = s.from, before = at - 4, then; at < end; before = at, at = then) {
        then = at + 1 + below(step);
        if (then >= end) then = s.to;
        if (at == s.from && once_in(2)) continue;
        int c = least(least(widest(at - before), widest(then - at)), p ? 1 : 2);
        for (c -= once_in(4); c >= 0; c -= PICK(1, 2, 3))
            a->call->is_rows ? set_edge(a, p, line, at, c) : set_edge(a, p, at, line, c);
    }
}

static void take_edges(struct asked *a) {
    for (int p = 0; p < planes_marked(a); p++) {
        for (long g = 0; g < across(a); g++)
            for (int n = 0; n < mask_words(p); n++)
                if (word_of_row(a, p, g, n) >= 0) words(&a->masks)[word_of_row(a, p, g, n)] = 0;
        struct plane q = plane(a, p);
        struct span row = row_units(a, q), wide = {0, q.wide / 4};
        long end = least(row.to, q.h4);
        size_t step = PICK(1, 2, 4, 8, 40);
        for (long x = 0; a->call->is_rows && x < q.w4; x++) take_line(a, p, x, row, end, step);
        for (long y = row.from; !a->call->is_rows && y < end; y++) take_line(a, p, y, wide, q.w4, step);
    }
}

static void take_accepted(struct asked *a) {
    take_values(a);
    take_lengths(a);
    take_contents(a);
    if (is_params(a->call)) mend_params(a);
    if (a->call->kind == LEVELS) mend_header(a);
    if (a->call->kind == RECORD || a->call->kind == CORRECT) mend_contexts(a);
    if (a->call->kind == FILTER) {
        mend_levels_and_samples(a);
        take_edges(a);
    }
}

// ---- faults, some of them just short of one; each is made before those of lower numbers

static void cut(struct lent *l) {
    l->length -= least(l->length, PICK(1, 1, 1 + below(8), below(l->length + 1)));
}

static void set_byte(struct lent *l, size_t at, u8 value) {
    if (at < l->length) bytes(l)[at] = value;
}

static void fault_1(struct asked *a) { a->sharpness = PICK(8, 9 + below(256), any_word()); }

static void fault_2(struct asked *a) {
    if (once_in(3)) a->layout = 400;
    *(once_in(2) ? &a->level_u : &a->level_v) = PICK(below(64), 64, any_word());
    struct lent *l = &a->base + below(5);
    set_byte(l, below(l->length), PICK(63, 64, 64 + below(192), -64, -65));
}

static void fault_3(struct asked *a) { a->depth = PICK(0, 7, 9, 11, 13, 16, any_word()); }

static void fault_4(struct asked *a) {
    switch (below(4)) {
    case 0: a->layout = PICK(0, 399, 401, 421, 443, any_word()); break;
    case 1: *(once_in(2) ? &a->width : &a->height) = PICK(0, 16385, any_word()); break;
    case 2: a->superblock = PICK(0, 32, 63, 65, 127, 129, 256, any_word()); break;
    case 3: a->layout = 400, a->chroma = any_flag();
    }
}

static void fault_5(struct asked *a) {
    struct plane luma = plane(a, 0);
    switch (below(7)) {
    case 0: a->block = PICK(below(22), 22, any_word()); break;
    case 1: a->tx = PICK(below(19), below(19), 19, any_word()); break;
    case 2: a->uvtx = PICK(below(19), below(19), 19, any_word()); break;
    case 3: a->x = PICK(a->x + 1, luma.w4, luma.w4 + 1 + below(40), any_word()); break;
    case 4: a->y = PICK(a->y + 1, luma.h4, luma.h4 + 1 + below(40), any_word()); break;
    case 5: a->chroma = a->layout == 400 ? 0 : any_flag(); break;
    case 6: a->reference = PICK(8, any_word());
    }
}

static void fault_6(struct asked *a) {
    int is_left = a->call->kind == CORRECT ? !a->call->is_rows : once_in(2);
    struct lent *l = context(a, below(planes_recorded(a)), is_left);
    if (once_in(2)) cut(l);
    else set_byte(l, PICK(0, below(l->length + 1), l->length - 1), PICK(2, 3, 3 + below(253)));
}

static void fault_7(struct asked *a) {
    size_t w4 = plane(a, 0).w4;
    switch (below(3)) {
    case 0: cut(&a->masks); break;
    case 1: cut(&a->levels); break;
    case 2: a->stride = PICK(w4 - 1, a->stride + 1, below(w4), any_size());
    }
}

// A line that is looked at, or one next to those.
static long line_near(struct span s) {
    return PICK(s.from - 1, s.from, s.to - 1, s.to, s.from + below(s.to - s.from + 1));
}

static void fault_8(struct asked *a) {
    int p = below(planes_filtered(a));
    struct plane q = plane(a, p);
    long x = PICK(0, below(q.w4), q.w4 - 1, q.w4), y = line_near(levels_looked_at(a, q));
    set_byte(&a->levels, level_at(a, p, x, y) + PICK(0, 0, 1), PICK(64, 64 + below(192)));
}

static void fault_9(struct asked *a) {
    int p = below(planes_filtered(a));
    struct plane q = plane(a, p);
    struct lent *l = &a->lent[p];
    size_t *stride = p ? &a->chroma_stride : &a->luma_stride;
    size_t at = line_near(samples_looked_at(a, q)) * *stride + PICK(0, below(q.wide), q.wide - 1, q.wide);
    switch (below(a->call->is_wide ? 4 : 2)) {
    case 0: cut(l); break;
    case 1: *stride = PICK(q.wide - 1, *stride + 1, below(q.wide), any_size()); break;
    default:
        if (at < l->length) words(l)[at] = PICK(1 << a->depth, 65535, next());
    }
}

static void fault_10(struct asked *a) {
    size_t wide = (a->width - 1) / a->superblock + 1, high = (a->height - 1) / a->superblock + 1;
    if (!a->call->is_rows && a->call->kind == CORRECT && once_in(2))
        a->start = PICK(wide, wide + below(4), any_word());
    else a->row = PICK(high, high + below(4), any_word());
}

static void fault_11(struct asked *a) {
    int p = below(planes_marked(a));
    struct plane q = plane(a, p);
    struct span row = row_units(a, q);
    for (size_t n = PICK(1, 1, 2, 8); n > 0; n--)
        set_edge(a, p, below(q.w4), row.from + below(least(row.to, q.h4) - row.from), below(p ? 2 : 3));
}

static void fault_12(struct asked *a) {
    int p = below(planes_marked(a));
    long g = PICK(0, across(a) - 1);
    for (int tries = 0; tries < 40; tries++) {
        int n = below(mask_words(p)), bit = below(16);
        long at = word_of_row(a, p, g, n);
        if (at < 0 || !is_stray(a, p, g, n, bit)) continue;
        words(&a->masks)[at] |= 1 << bit;
        return;
    }
}

static void fault_23(struct asked *a) {
    struct params p = lent_params(a);
    struct bits b = bits_from(a);
    size_t count = a->call->kind == READ_PARAMS ? parsed_params(a, &b), b.taken : bits_written(a, &p);
    size_t end = 8 * a->header.length, near = end - count + below(2);
    if (once_in(2)) return cut(&a->header);
    a->place = PICK(near, end - below(count + 1), end + below(200), any_size(), ~below(200));
}

static void fault_24(struct asked *a) {
    size_t n = below(10);
    struct lent *deltas = n < 8 ? &a->ref_delta : &a->mode_delta;
    int before = delta_before(a, n);
    switch (below(6)) {
    case 0: set_byte(&a->base, below(4), PICK(0, 1, 63, 64, 255)); break;
    case 1: set_byte(&a->bits, below(3), PICK(0, 1, 2, 7, 8, 255)); break;
    case 2: set_byte(&a->update, n, PICK(0, 1, 2, 255)); break;
    case 3: set_byte(deltas, n % 8, PICK(0, 63, 64, -64, -65, before, before + 1, next())); break;
    case 4: a->planes = PICK(0, 1, 2, 3); break;
    case 5: *(once_in(2) ? &a->lossless : &a->intrabc) = any_flag();
    }
}

static void take_faults(struct asked *a, size_t count) {
    static void (*const fault[HIGHEST + 1])(struct asked *) = {
        0,       fault_1, fault_2, fault_3,  fault_4,  fault_5,  fault_6,
        fault_7, fault_8, fault_9, fault_10, fault_11, fault_12, [23] = fault_23, fault_24,
    };
    u32 chosen = 0, numbers = 0;
    while (a->call->numbers[numbers]) numbers++;
    while (count-- > 0) chosen |= 1u << a->call->numbers[below(numbers)];
    for (u32 n = HIGHEST; n > 0; n--)
        if (chosen >> n & 1) fault[n](a);
}

// ---- arbitrary

static void take_arbitrary(struct asked *a) {
    take_values(a);
    for (int n = 0; n < VALUES; n++)
        if (once_in(2)) a->value[n] = n < SIZES ? any_size() : any_word();
    for (int n = 0; n < LENGTHS; n++) a->lent[n].length = PICK(0, below(8), below(2000), below(100000));
    take_contents(a);
}

static void take(struct asked *a) {
    if (once_in(8)) return take_arbitrary(a);
    take_accepted(a);
    take_faults(a, PICK(0, 1, 1, 1, 2, 3));
}
