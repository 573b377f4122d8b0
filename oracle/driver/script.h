// Scripts for the listing: ones that 01 accepts, some with a field, a line or bytes at fault or nearly so;
// arbitrary bytes.

static long until_fault; // so many fields are as they should be; all if it is negative

static void add_byte(struct asked *a, u8 byte) { bytes(&a->script)[a->script.length++] = byte; }

static void add(struct asked *a, const char *s) {
    while (*s) add_byte(a, *s++);
}

static void add_decimal(struct asked *a, size_t n, int digits) {
    if (n > 9 || digits > 1) add_decimal(a, n / 10, digits - 1);
    add_byte(a, '0' + n % 10);
}

static int is_at_fault(void) { return until_fault-- == 0; }

#define ONE_OF(...) \
    ((const char *const[]){__VA_ARGS__}[below(sizeof((const char *const[]){__VA_ARGS__}) / sizeof(char *))])

static void add_word(struct asked *a, const char *word) {
    if (is_at_fault())
        word = ONE_OF("frame", "level", "block", "frames", "Block", "leve", "I", "P", "II", "", " ", "\t");
    add(a, word);
}

static void add_number(struct asked *a, size_t n, size_t most) {
    int digits = once_in(32) ? below(10) : 1;
    add(a, " ");
    if (is_at_fault()) {
        n = PICK(most, most + 1, n + 1, n - (n > 0), 0, 999999999, any_word());
        if (once_in(4)) digits = 9 + below(2);
        if (once_in(16)) add(a, ONE_OF("+", "-", "0x", " "));
    }
    add_decimal(a, n, digits);
}

static void add_size(struct asked *a, struct size s) {
    add(a, " ");
    if (is_at_fault()) switch (below(4)) {
        case 0: s = BLOCK[below(22)]; break;
        case 1: s = TX[below(19)]; break;
        case 2: s = (struct size){below(34), below(34)}; break;
        case 3:
            for (size_t n = once_in(8) ? LONGEST - below(40) : 0; n > 0; n--) add_byte(a, '8');
            return add(a, ONE_OF("-", "--", "", "08x8", "8x08", "8X8", "8x8x8", "8x", "x8", "8x8\r", "8 x8"));
        }
    if (s.wide == 0) return add(a, "-");
    add_decimal(a, 4 * s.wide, 1);
    add(a, "x");
    add_decimal(a, 4 * s.high, 1);
}

static size_t frame_side(void) {
    size_t wide = once_in(20) ? 256 - below(130) : 64;
    return PICK(1 + below(64), 1 + below(64), 1 + below(64), 1 + below(20), wide);
}

static void add_frame(struct asked *a) {
    a->width = frame_side();
    a->height = frame_side();
    a->layout = PICK(400, 420, 422, 444);
    add_word(a, "frame");
    add_number(a, a->width, 256);
    add_number(a, a->height, 256);
    add_number(a, a->layout, 444);
    add_number(a, PICK(8, 10, 12), 12);
    add_number(a, PICK(64, 128), 128);
    add_number(a, below(8), 7);
}

static void add_level(struct asked *a) {
    size_t zero = once_in(8) ? 2 : 0;
    add_word(a, "level");
    for (size_t kind = 0; kind < 4; kind++)
        add_number(a, kind < zero || (kind > 1 && a->layout == 400) ? 0 : PICK(0, below(64), 63), 63);
}

static void add_block(struct asked *a) {
    struct plane luma = plane(a, 0);
    take_block(a);
    add_word(a, "block");
    add_number(a, a->x, luma.w4);
    add_number(a, a->y, luma.h4);
    add_size(a, BLOCK[a->block]);
    add_size(a, TX[a->tx]);
    add_size(a, a->chroma ? TX[a->uvtx] : (struct size){0, 0});
    add(a, " ");
    add_word(a, "I");
}

// Line `odd` is missing, or doubled, or one of another kind stands before it.
static void add_lines(struct asked *a, size_t lines, size_t odd) {
    static void (*const line[])(struct asked *) = {add_frame, add_level, add_block};
    a->width = a->height = a->layout = 0;
    for (size_t n = 0; n < lines; n++) {
        size_t turn = least(n, 2), more = n == odd ? below(4) : 4;
        if (more < 3) line[more](a), add(a, "\n");
        if (more != 3) line[turn](a), add(a, "\n");
    }
    if (once_in(4)) a->script.length--;
}

static void change_byte(struct asked *a) {
    struct lent *s = &a->script;
    size_t at = below(s->length + 1);
    u8 byte = PICK(' ', ' ', '\n', '\n', '\t', '\r', 0, '0', '9', 'x', '-', 'I', next());
    switch (below(4)) {
    case 0: set_byte(s, at, byte); break;
    case 1:
        for (size_t n = s->length++; n > at; n--) bytes(s)[n] = bytes(s)[n - 1];
        bytes(s)[at] = byte;
        break;
    case 2:
        for (size_t n = at; n + 1 < s->length; n++) bytes(s)[n] = bytes(s)[n + 1];
        s->length -= s->length > 0;
        break;
    case 3: s->length = once_in(4) ? at : s->length;
    }
}

static void take_bytes(struct asked *a) {
    static const char USUAL[] = "frame level block 0123456789x-I ";
    struct lent *s = &a->script;
    s->length = PICK(0, below(8), below(200), below(2000), below(100000));
    fill(s, ~0ul, 0);
    if (once_in(2)) return;
    for (size_t n = 0; n < s->length; n++)
        bytes(s)[n] = bytes(s)[n] % 40 ? USUAL[bytes(s)[n] % (sizeof USUAL - 1)] : '\n';
}

static void take_script(struct asked *a) {
    size_t lines = 2 + PICK(0, 1, 2, 4, below(12), below(40)), kind = below(16);
    a->script.length = 0;
    until_fault = PICK(below(7), 7 + below(5), 12 + below(7 * lines - 13), 12 + below(7 * lines - 13));
    if (kind >= 6) until_fault = -1;
    if (kind == 15) take_bytes(a);
    else add_lines(a, lines, kind == 14 ? below(lines) : lines);
    for (size_t n = kind == 12 || kind == 13 ? PICK(1, 1, 2, 3) : 0; n > 0; n--) change_byte(a);
    list(a);
    size_t length = listing.length;
    a->out.length = PICK(length, length, length - 1, length + 1, 0, below(length), length + below(300));
    fill(&a->out, ~0ul, 0);
}
