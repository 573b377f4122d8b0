// The edge listing that document 01 asks for: its text, and the number that refuses the script.

// FORM is no number: the listing has the word `form` in its place.
enum { FORM = 255, LONGEST = 65535, SIDE = 256, FIELDS = 7 };

static struct {
    u8 at[400000];
    size_t length;
    u32 number;
} listing;

static void put(const char *s) {
    while (*s) listing.at[listing.length++] = *s++;
}

static void put_decimal(size_t n) {
    if (n > 9) put_decimal(n / 10);
    listing.at[listing.length++] = '0' + n % 10;
}

// ---- fields

struct field {
    const u8 *at;
    size_t length;
};

static int is(struct field f, const char *word) {
    size_t n = 0;
    while (n < f.length && word[n] && f.at[n] == word[n]) n++;
    return n == f.length && !word[n];
}

// Answers how many parts there are between bytes `by`, or that they are more than FIELDS.
static int split(struct field f, u8 by, struct field *part) {
    int count = 0;
    part[0] = (struct field){f.at, 0};
    for (size_t n = 0; n < f.length; n++) {
        if (f.at[n] != by) part[count].length++;
        else if (++count == FIELDS) return FIELDS + 1;
        else part[count] = (struct field){f.at + n + 1, 0};
    }
    return count + 1;
}

// -1 if it is no number of 1 to 9 decimal digits
static long value(struct field f) {
    long value = 0;
    if (f.length < 1 || f.length > 9) return -1;
    for (size_t n = 0; n < f.length; n++) {
        if (f.at[n] < '0' || f.at[n] > '9') return -1;
        value = 10 * value + f.at[n] - '0';
    }
    return value;
}

// The code of a name like 16x8; `count` if it names none of the sizes.
static size_t code(struct field name, const struct size *sizes, size_t count) {
    struct field side[FIELDS];
    if (split(name, 'x', side) != 2) return count;
    long wide = value(side[0]), high = value(side[1]);
    if (wide < 0 || high < 0 || *side[0].at == '0' || *side[1].at == '0') return count;
    for (size_t n = 0; n < count; n++)
        if (wide == 4 * sizes[n].wide && high == 4 * sizes[n].high) return n;
    return count;
}

// ---- recording, of luma and of U and V as one

// By pass, then y, then x: the classes as a set; the level, in chroma by plane; left and above.
static struct recorded {
    u8 classes[2][SIDE / 4][SIDE / 4], level[2][SIDE / 4][SIDE / 4], context[2][SIDE / 4];
} recorded[2];
static long base[4];

static void clear(void) {
    for (int p = 0; p < 2; p++) {
        recorded[p] = (struct recorded){0};
        for (int n = 0; n < SIDE / 4; n++) recorded[p].context[0][n] = recorded[p].context[1][n] = 2 - p;
    }
}

// luma: log2 of units, at most 2; chroma: 1 if above one unit
static u8 class_of(long units, int p) { return p ? units > 1 : (units > 1) + (units > 2); }

static void record(const struct asked *a, int p, struct size tx) {
    struct plane q = plane(a, p);
    struct size b = BLOCK[a->block];
    struct recorded *r = &recorded[p];
    u8 c[2] = {class_of(tx.wide, p), class_of(tx.high, p)};
    long left = a->x >> q.ss_hor, right = least(left + ((b.wide + q.ss_hor) >> q.ss_hor), q.w4);
    long top = a->y >> q.ss_ver, bottom = least(top + ((b.high + q.ss_ver) >> q.ss_ver), q.h4);
    for (long y = top; y < bottom; y++)
        for (long x = left; x < right; x++) {
            if ((x - left) % tx.wide == 0)
                r->classes[0][y][x] |= 1 << (x == left ? least(c[0], r->context[0][y]) : c[0]);
            if ((y - top) % tx.high == 0)
                r->classes[1][y][x] |= 1 << (y == top ? least(c[1], r->context[1][x]) : c[1]);
            for (int n = 0; n < 2; n++) r->level[n][y][x] = base[2 * p + n];
        }
    if (left >= right || top >= bottom) return;
    for (long y = top; y < bottom; y++) r->context[0][y] = c[0];
    for (long x = left; x < right; x++) r->context[1][x] = c[1];
}

// ---- lines

static u32 frame_line(struct asked *a, const long *v) {
    a->width = v[0], a->height = v[1], a->layout = v[2];
    a->depth = v[3], a->superblock = v[4], a->sharpness = v[5];
    if (given_1(a)) return 1;
    if (given_3(a)) return 3;
    return given_4(a) || a->width > SIDE || a->height > SIDE ? 4 : 0;
}

static u32 level_line(struct asked *a, const long *v) {
    for (int kind = 0; kind < 4; kind++) {
        if (v[kind] > 63 || (kind > 1 && a->layout == 400 && v[kind])) return 2;
        base[kind] = v[0] || v[1] ? v[kind] : 0;
    }
    return 0;
}

static u32 block_line(struct asked *a, const long *v, const struct field *f) {
    a->x = v[0], a->y = v[1];
    a->block = code(f[3], BLOCK, 22);
    a->tx = code(f[4], TX, 19);
    a->uvtx = code(f[5], TX, 19);
    a->chroma = !is(f[5], "-");
    if (a->chroma && a->layout == 400) return 4;
    if (given_5(a)) return 5;
    record(a, 0, TX[a->tx]);
    if (a->chroma) record(a, 1, TX[a->uvtx]);
    return 0;
}

// The lines come in the order frame, level, blocks: turn 0, 1, 2.
static u32 line_number(struct asked *a, struct field line, int turn) {
    static const char *const WORD[] = {"frame", "level", "block"};
    static const int COUNT[] = {7, 5, 7}, NUMBERS[] = {6, 4, 2};
    struct field f[FIELDS];
    long v[6];
    if (line.length > LONGEST || split(line, ' ', f) != COUNT[turn] || !is(f[0], WORD[turn])) return FORM;
    for (int n = 1; n < COUNT[turn]; n++)
        if (f[n].length == 0) return FORM;
    for (int n = 0; n < NUMBERS[turn]; n++)
        if ((v[n] = value(f[n + 1])) < 0) return FORM;
    if (turn == 2 && !is(f[6], "I")) return FORM;
    return turn == 0 ? frame_line(a, v) : turn == 1 ? level_line(a, v) : block_line(a, v, f);
}

// ---- the text

static void put_refused(size_t line, u32 number) {
    put("refused\t");
    put_decimal(line);
    put("\t");
    number == FORM ? put("form") : put_decimal(number);
    put("\n");
}

static size_t put_pass(const struct asked *a, int p, int pass) {
    struct plane q = plane(a, p);
    struct recorded *r = &recorded[p > 0];
    size_t edges = 0;
    for (long y = pass; y < q.h4; y++)
        for (long x = !pass; x < q.w4; x++) {
            u8 classes = r->classes[pass][y][x], level = r->level[p ? p - 1 : pass][y][x];
            size_t fields[] = {p, pass, x, y, classes > 3 ? 2 : classes > 1, level};
            for (int n = 0; classes && n < 6; n++) put_decimal(fields[n]), put(n < 5 ? "\t" : "\n");
            edges += classes > 0;
        }
    return edges;
}

static void put_list(const struct asked *a) {
    size_t edges = 0;
    put("plane\tpass\tx\ty\tclass\tlevel\n");
    for (int p = 0; p < (a->layout == 400 ? 1 : 3); p++)
        for (int pass = 0; pass < 2; pass++) edges += put_pass(a, p, pass);
    put("edges\t");
    put_decimal(edges);
    put("\n");
}

// Leaves in `listing` what the script lists; a last line without its end is one.
static void list(struct asked *a) {
    struct field rest = {bytes(&a->script), a->script.length};
    size_t lines = 0;
    u32 number = 0;
    clear();
    for (; number == 0 && rest.length > 0; lines++) {
        struct field line = {rest.at, 0};
        while (line.length < rest.length && line.at[line.length] != '\n') line.length++;
        number = line_number(a, line, least(lines, 2));
        size_t taken = least(line.length + 1, rest.length);
        rest = (struct field){rest.at + taken, rest.length - taken};
    }
    if (number == 0 && lines < 2) lines++, number = FORM;
    listing.length = 0;
    listing.number = number;
    number ? put_refused(lines, number) : put_list(a);
}
