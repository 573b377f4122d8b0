// The calls of the archive, and the arguments of one.

#define SLICE(name) a->name.at, a->name.length
#define FRAME a->width, a->height, a->layout

static size_t ask_limits(const struct asked *a) {
    return deblock_limits(a->e.at, a->i.at, a->sharp.at, a->sharpness);
}

static size_t ask_levels(const struct asked *a) {
    return deblock_levels(a->values.at, a->layout, a->base.at, a->delta_enabled, a->ref_delta.at,
                          a->mode_delta.at, a->multi, a->lf_delta.at, a->segmentation, a->seg_delta.at);
}

#define BLOCK_FIRST \
    SLICE(levels), a->stride, SLICE(masks), a->values.at, FRAME, a->x, a->y, a->block, a->tx
#define BLOCK_LAST SLICE(above), SLICE(left), a->chroma, a->uvtx, SLICE(above_uv), SLICE(left_uv)

static size_t ask_intra(const struct asked *a) { return deblock_record_intra(BLOCK_FIRST, BLOCK_LAST); }

static size_t ask_inter(const struct asked *a) {
    return deblock_record_inter(BLOCK_FIRST, a->tx_masks.at, a->skip, a->reference, a->mode, BLOCK_LAST);
}

static size_t ask_correct_column(const struct asked *a) {
    return deblock_correct_column(SLICE(masks), FRAME, a->superblock, a->row, a->start, SLICE(left),
                                  SLICE(left_uv));
}

static size_t ask_correct_row(const struct asked *a) {
    return deblock_correct_row(SLICE(masks), FRAME, a->superblock, a->row, SLICE(above), SLICE(above_uv));
}

#define PASS_FIRST                                                                               \
    SLICE(luma), a->luma_stride, SLICE(u), SLICE(v), a->chroma_stride, SLICE(levels), a->stride, \
        SLICE(masks), a->e.at, a->i.at
#define PASS_LAST FRAME, a->superblock, a->level_u, a->level_v, a->row

static size_t ask_columns_8(const struct asked *a) { return deblock_columns_8(PASS_FIRST, PASS_LAST); }
static size_t ask_rows_8(const struct asked *a) { return deblock_rows_8(PASS_FIRST, PASS_LAST); }
static size_t ask_columns_16(const struct asked *a) {
    return deblock_columns_16(PASS_FIRST, a->depth, PASS_LAST);
}
static size_t ask_rows_16(const struct asked *a) { return deblock_rows_16(PASS_FIRST, a->depth, PASS_LAST); }

static size_t ask_list(const struct asked *a) { return deblock_list(SLICE(script), SLICE(out)); }

#define PARAMS_FIRST SLICE(header), a->place, a->planes, a->lossless, a->intrabc
#define PARAMS_LAST a->base.at, a->bits.at, a->update.at, a->ref_delta.at, a->mode_delta.at, a->count.at

static size_t ask_read_params(const struct asked *a) {
    return deblock_read_params(PARAMS_FIRST, PARAMS_LAST);
}

static size_t ask_write_params(const struct asked *a) {
    return deblock_write_params(PARAMS_FIRST, a->ref_before.at, a->mode_before.at, PARAMS_LAST);
}

#define HEADER               \
    LEVELS, 0, 0, 0, {2, 4}, \
        LENT(base) | LENT(ref_delta) | LENT(mode_delta) | LENT(lf_delta) | LENT(seg_delta), LENT(values)
#define BLOCKS(inter, more)                                 \
    RECORD, 0, inter, 0, {4, 5, 6, 7}, LENT(values) | more, \
        LENT(levels) | LENT(masks) | LENT(above) | LENT(left) | LENT(above_uv) | LENT(left_uv)
#define CORRECTION(rows, context, context_uv) \
    CORRECT, rows, 0, 0, {4, 6, 7, 10}, LENT(context) | LENT(context_uv), LENT(masks)
#define PASS(rows, wide, ...)                                     \
    FILTER, rows, 0, wide, {__VA_ARGS__, 4, 7, 8, 9, 10, 11, 12}, \
        LENT(levels) | LENT(masks) | LENT(e) | LENT(i), LENT(luma) | LENT(u) | LENT(v)
#define PARAMS (LENT(base) | LENT(bits) | LENT(update) | LENT(ref_delta) | LENT(mode_delta))

static const struct call CALLS[] = {
    {"limits", LIMITS, 0, 0, 0, {1}, 0, LENT(e) | LENT(i) | LENT(sharp), ask_limits},
    {"levels", HEADER, ask_levels},
    {"record_intra", BLOCKS(0, 0), ask_intra},
    {"record_inter", BLOCKS(1, LENT(tx_masks)), ask_inter},
    {"correct_column", CORRECTION(0, left, left_uv), ask_correct_column},
    {"correct_row", CORRECTION(1, above, above_uv), ask_correct_row},
    {"columns_8", PASS(0, 0, 2), ask_columns_8},
    {"rows_8", PASS(1, 0, 2), ask_rows_8},
    {"columns_16", PASS(0, 1, 2, 3), ask_columns_16},
    {"rows_16", PASS(1, 1, 2, 3), ask_rows_16},
    {"list", LIST, 0, 0, 0, {1, 2, 3, 4, 5, FORM}, LENT(script), LENT(out), ask_list},
    {"read_params", READ_PARAMS, 0, 0, 0, {23}, LENT(header), PARAMS | LENT(count), ask_read_params},
    {"write_params", WRITE_PARAMS, 0, 0, 0, {24, 23}, PARAMS | LENT(ref_before) | LENT(mode_before),
     LENT(header) | LENT(count), ask_write_params},
};
enum { CALL_COUNT = sizeof CALLS / sizeof *CALLS };

static void set_sizes(struct asked *a) {
    static const u8 SIZE[BUFFERS] = {1, 1, 1, 1, 2, 1, 1, 1, 1, 1, 1, 1, 1, 2,
                                     1, 1, 8, 1, 1, 1, 1, 1, 1, 1, 1, 1, 4};
    static const u8 LENGTH[BUFFERS] = {[LENGTHS] = 64, 2, 64, 64, 2, 4, 8, 2, 4, 32, 3, 10, 8, 2, 1};
    for (int n = 0; n < BUFFERS; n++) {
        a->lent[n].size = n < 3 && a->call->is_wide ? 2 : SIZE[n];
        a->lent[n].length = LENGTH[n];
    }
    if (a->call->kind == LEVELS) a->values.length = 512;
}

#define TEXT(...) #__VA_ARGS__
#define NAMES(...) TEXT(__VA_ARGS__)

static const char *print_word(const char *names) {
    int length = 0;
    while (names[length] && names[length] != ',') length++;
    printf("%.*s", length, names);
    return names[length] ? names + length + 2 : names + length;
}

static const char *print_named(const char *names, size_t value) {
    printf(" ");
    names = print_word(names);
    printf(" %lu", value);
    return names;
}

// Of lent memory.
static void print_name(int n) {
    const char *names = NAMES(SLICES, TABLES);
    while (n > 0) n -= *names++ == ' ';
    print_word(names);
}

static void print_bytes(const char *what, const u8 *at, size_t count) {
    printf("%s", what);
    for (size_t n = 0; n < count && n < 64; n++) printf("%02x", at[n]);
    if (count > 64) printf("..");
}

// Of each lent array what `before` has, and what it has now where that is something else.
static void print_contents(const struct asked *a) {
    for (int n = 0; n < BUFFERS; n++) {
        const struct lent *l = &a->lent[n];
        size_t size = l->length * l->size;
        if (!((a->call->reads | a->call->writes) >> n & 1)) continue;
        print_name(n);
        print_bytes(" ", l->before, size);
        if (memcmp(l->before, l->at, size)) print_bytes(", now ", l->at, size);
        printf("\n");
    }
}

static void print_arguments(const struct asked *a) {
    const char *names = NAMES(STRIDES, WORDS);
    for (int n = 0; n < VALUES; n++) names = print_named(names, a->value[n]);
    printf("; lent:");
    names = NAMES(SLICES, TABLES);
    for (int n = 0; n < BUFFERS; n++) names = print_named(names, a->lent[n].length);
    printf("\n");
    if (a->call->kind == LIST) printf("%.*s\n", (int)a->script.length, bytes(&a->script));
    if (is_params(a->call)) print_contents(a);
}
