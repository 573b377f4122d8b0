// The loop filter parameters of a frame header, 5.9.11: what its bits say, which bits say them, and what
// reading and writing must leave.

struct params {
    int level[4], sharpness, delta_enabled, delta_update, update[10], delta[10];
};

static const int DEFAULT_DELTA[10] = {1, 0, 0, 0, -1, 0, -1, -1, 0, 0};

// Step 0, and the condition of step 2.
static int has_no_bits(const struct asked *a) { return a->lossless || a->intrabc; }
static int has_chroma_levels(const struct asked *a, const struct params *p) {
    return a->planes > 1 && (p->level[0] || p->level[1]);
}

// Eight references and two modes, of two arrays.
static int delta_at(const struct lent *refs, const struct lent *modes, int n) {
    return (int8_t)(n < 8 ? bytes(refs)[n] : bytes(modes)[n - 8]);
}

static int delta_before(const struct asked *a, int n) {
    if (a->call->kind == READ_PARAMS) return delta_at(&a->ref_delta, &a->mode_delta, n);
    return delta_at(&a->ref_before, &a->mode_before, n);
}

// ---- bits of the header's bytes, the highest of a byte first

struct bits {
    struct lent *in;
    u128 place;
    u32 taken;
    int has_run_out;
};

static struct bits bits_from(const struct asked *a) {
    return (struct bits){(struct lent *)&a->header, a->place, 0, 0};
}

// The byte that holds the next bit; none past the end.
static u8 *next_byte(struct bits *b) {
    u128 place = b->place + b->taken;
    if (place < 8 * (u128)b->in->length) return bytes(b->in) + place / 8;
    b->has_run_out = 1;
    return 0;
}

static int read_f(struct bits *b, int n) {
    int value = 0;
    for (; n > 0; n--, b->taken++) {
        u8 *byte = next_byte(b);
        value = 2 * value + (byte ? *byte >> (7 - (b->place + b->taken) % 8) & 1 : 0);
    }
    return value;
}

static void put_f(struct bits *b, int n, int value) {
    for (; n > 0; n--, b->taken++) {
        u8 *byte = next_byte(b), bit = 0x80 >> (b->place + b->taken) % 8;
        if (byte) *byte = value >> (n - 1) & 1 ? *byte | bit : *byte & ~bit;
    }
}

static int read_su7(struct bits *b) {
    int value = read_f(b, 7);
    return value < 64 ? value : value - 128;
}

// ---- the table of 5.9.11: bits to parameters, and back

static struct params parsed_params(const struct asked *a, struct bits *b) {
    struct params p = {0};
    for (int n = 0; n < 10; n++) p.delta[n] = has_no_bits(a) ? DEFAULT_DELTA[n] : delta_before(a, n);
    if (has_no_bits(a)) return p;
    p.level[0] = read_f(b, 6), p.level[1] = read_f(b, 6);
    if (has_chroma_levels(a, &p)) p.level[2] = read_f(b, 6), p.level[3] = read_f(b, 6);
    p.sharpness = read_f(b, 3);
    p.delta_enabled = read_f(b, 1);
    if (p.delta_enabled) p.delta_update = read_f(b, 1);
    for (int n = 0; p.delta_update && n < 10; n++) {
        p.update[n] = read_f(b, 1);
        if (p.update[n]) p.delta[n] = read_su7(b);
    }
    return p;
}

static void put_params(const struct asked *a, struct bits *b, const struct params *p) {
    if (has_no_bits(a)) return;
    for (int n = 0; n < (has_chroma_levels(a, p) ? 4 : 2); n++) put_f(b, 6, p->level[n]);
    put_f(b, 3, p->sharpness);
    put_f(b, 1, p->delta_enabled);
    if (p->delta_enabled) put_f(b, 1, p->delta_update);
    for (int n = 0; p->delta_update && n < 10; n++) {
        put_f(b, 1, p->update[n]);
        if (p->update[n]) put_f(b, 7, p->delta[n] & 127);
    }
}

// ---- lent arrays

static struct params lent_params(const struct asked *a) {
    struct params p;
    for (int n = 0; n < 4; n++) p.level[n] = bytes(&a->base)[n];
    p.sharpness = bytes(&a->bits)[0];
    p.delta_enabled = bytes(&a->bits)[1];
    p.delta_update = bytes(&a->bits)[2];
    for (int n = 0; n < 10; n++) {
        p.update[n] = bytes(&a->update)[n];
        p.delta[n] = delta_at(&a->ref_delta, &a->mode_delta, n);
    }
    return p;
}

static void lay_params(struct asked *a, const struct params *p) {
    for (int n = 0; n < 4; n++) bytes(&a->base)[n] = p->level[n];
    bytes(&a->bits)[0] = p->sharpness;
    bytes(&a->bits)[1] = p->delta_enabled;
    bytes(&a->bits)[2] = p->delta_update;
    for (int n = 0; n < 10; n++) {
        bytes(&a->update)[n] = p->update[n];
        *(n < 8 ? bytes(&a->ref_delta) + n : bytes(&a->mode_delta) + n - 8) = p->delta[n];
    }
}

// How many bits writing these parameters takes.
static u32 bits_written(const struct asked *a, const struct params *p) {
    if (has_no_bits(a)) return 0;
    u32 count = (has_chroma_levels(a, p) ? 24 : 12) + 3 + 1 + (p->delta_enabled ? 1 : 0);
    for (int n = 0; p->delta_update && n < 10; n++) count += p->update[n] ? 8 : 1;
    return count;
}

// What an accepted call must leave.
static void leave_params(struct asked *a) {
    struct bits b = bits_from(a);
    struct params p = a->call->kind == READ_PARAMS ? parsed_params(a, &b) : lent_params(a);
    if (a->call->kind == READ_PARAMS) lay_params(a, &p);
    else put_params(a, &b, &p);
    *(u32 *)a->count.before = b.taken;
}
