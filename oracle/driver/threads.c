// threads COUNT SEED: two threads make calls at the same moment, COUNT times for each case, and more often
// until more than half of COUNT were truly at the same moment. A case is the blocks of two tiles that meet
// in a 128x128 record, or a pair of calls that the second table of docs/USING.md lets run together, which is
// written here a second time. What the threads leave must be what the calls leave in turn. It ends in a
// table of the cases.

#include "call.h"
#include "libc.h"
#include "params.h"
#include "number.h"
#include "list.h"
#include "make.h"
#include "calls.h"
#include "rooms.h"
#include "progress.h"
#include "table.h"

int pthread_create(u64 *, const void *, void *(*)(void *), void *);
int sched_getaffinity(int, size_t, u64 *);
int sched_setaffinity(int, size_t, const u64 *);

enum { RECORDS = 8, MOST_CALLS = 2 * RECORDS };
enum {
    SHARED = LENT(luma) | LENT(u) | LENT(v) | LENT(levels) | LENT(masks) | LENT(values) | LENT(e) | LENT(i)
};

// The calls of two workers; memory that is not shared is a worker's own.
static struct work {
    struct asked call[MOST_CALLS];
    int count;
    u64 began, ended, refused;
} work[2];
static struct table tables[2];

// ---- the second table: which calls may be in progress at the same moment

static long row_of(const struct asked *a) {
    return a->call->kind == RECORD ? a->y / (a->superblock / 4) : a->row;
}

static int are_apart(long from, long count, long other_from, long other_count) {
    return from + count <= other_from || other_from + other_count <= from;
}

// In different superblocks, so in different tiles if need be; or with no column and no row of units in
// common.
static int may_record(const struct asked *a, const struct asked *b) {
    size_t sb4 = a->superblock / 4;
    if (a->x / sb4 != b->x / sb4 || a->y / sb4 != b->y / sb4) return 1;
    for (int p = 0; p < least(planes_recorded(a), planes_recorded(b)); p++) {
        struct plane q = plane(a, p);
        long ax = a->x >> q.ss_hor, bx = b->x >> q.ss_hor, ay = a->y >> q.ss_ver, by = b->y >> q.ss_ver;
        if (!are_apart(ax, units_along(a, p, 0), bx, units_along(b, p, 0))) return 0;
        if (!are_apart(ay, units_along(a, p, 1), by, units_along(b, p, 1))) return 0;
    }
    return 1;
}

// A block of superblock row j with a pass of row k. In 4:2:0 the chroma bytes of a row lie beside luma
// bytes of others.
static int may_record_and_filter(const struct asked *block, const struct asked *pass) {
    long j = row_of(block), k = row_of(pass), above = pass->call->is_rows;
    if (k - above <= j && j <= k) return 0;
    if (block->layout != 420) return 1;
    return !(2 * k - above <= j && j <= 2 * k + 1) && !((k - above) / 2 <= j && j <= k / 2);
}

static int may_filter(const struct asked *a, const struct asked *b) {
    long j = row_of(a), k = row_of(b), apart = j < k ? k - j : j - k;
    if (!a->call->is_rows && !b->call->is_rows) return apart > 0;
    if (a->call->is_rows && b->call->is_rows) return apart > (a->call->is_wide ? 1 : 0);
    long rows = a->call->is_rows ? j : k, columns = a->call->is_rows ? k : j;
    return columns != rows && columns != rows - 1;
}

static int may_run_together(const struct asked *a, const struct asked *b) {
    if (a->call->kind > b->call->kind) return may_run_together(b, a);
    if (a->call->kind == RECORD && b->call->kind == RECORD) return may_record(a, b);
    if (a->call->kind == RECORD && b->call->kind == FILTER) return may_record_and_filter(a, b);
    if (a->call->kind == FILTER) return may_filter(a, b);
    if (a->call->kind == CORRECT && a->call->is_rows != b->call->is_rows) return 1; // of different passes
    if (row_of(a) != row_of(b)) return 1;
    return b->call->kind == CORRECT && a->call->kind == CORRECT && !a->call->is_rows && a->start != b->start;
}

// Rows of neighbours at 8 bits may if their boundary keeps the gap rule: so the samples decide.
static int are_neighbours(const struct asked *a, const struct asked *b) {
    return a->call->kind == FILTER && b->call->kind == FILTER && a->call->is_rows && b->call->is_rows &&
           (row_of(a) - row_of(b)) * (row_of(a) - row_of(b)) == 1;
}

// Neither stores what the other loads or stores, by the first table.
static int are_disjoint(const struct asked *a, const struct asked *b) {
    u32 both = SHARED & (a->call->reads | a->call->writes) & (b->call->reads | b->call->writes);
    for (int n = 0; n < BUFFERS; n++) {
        const u8 *one = tables[0].may[n], *other = tables[1].may[n];
        if (!(both >> n & 1)) continue;
        for (size_t k = 0; k < a->lent[n].length * a->lent[n].size; k++)
            if ((one[k] & STORE && other[k]) || (one[k] && other[k] & STORE)) return 0;
    }
    return 1;
}

// ---- cases: two tiles, then pairs of calls

enum { INTRA = 2, INTER, CORRECT_COLUMN, CORRECT_ROW, COLUMNS_8, ROWS_8, COLUMNS_16, ROWS_16 };
enum { TILE_CASES = 4, FIRST = INTRA, LAST = ROWS_16, MOST_CASES = 64 };

static struct test {
    const char *words;
    int is_down, call[2];
    u64 rounds, together, differ;
} tests[MOST_CASES] = {
    {"two tiles side by side, intra", 0, {INTRA, INTRA}, 0, 0, 0},
    {"two tiles side by side, inter", 0, {INTER, INTER}, 0, 0, 0},
    {"two tiles one above the other, intra", 1, {INTRA, INTRA}, 0, 0, 0},
    {"two tiles one above the other, inter", 1, {INTER, INTER}, 0, 0, 0},
};
static int test_count = TILE_CASES;

static void list_pairs(void) {
    for (int a = FIRST; a <= LAST; a++)
        for (int b = a; b <= LAST; b++)
            if (CALLS[a].kind != FILTER || CALLS[b].kind != FILTER || CALLS[a].is_wide == CALLS[b].is_wide)
                tests[test_count++] = (struct test){0, 0, {a, b}, 0, 0, 0};
}

// Memory of a frame for the first call of worker 0, shared by all.
static void take_shared(struct asked *a) {
    struct plane q = plane(a, 0), uv = plane(a, 1);
    a->stride = q.w4 + more();
    a->luma_stride = q.wide + more();
    a->chroma_stride = uv.wide + more();
    a->levels.length = 4 * a->stride * q.h4;
    a->masks.length = 640 * records(a);
    a->luma.length = a->luma_stride * q.high;
    a->u.length = a->v.length = a->chroma_stride * uv.high;
    for (int n = 0; n < BUFFERS; n++)
        if (SHARED >> n & 1) fill(&a->lent[n], ~0ul, 0);
}

static void share(struct asked *to, const struct asked *from) {
    memcpy(to->value, from->value, sizeof to->value);
    for (int n = 0; n < BUFFERS; n++)
        if (SHARED >> n & 1) to->lent[n] = from->lent[n];
}

static void take_contexts(struct asked *a) {
    for (int p = 0; p < planes_recorded(a); p++)
        for (int is_left = 0; is_left < 2; is_left++) {
            struct lent *l = context(a, p, is_left);
            l->length = units_along(a, p, is_left);
            fill(l, ~0ul, 0);
        }
    mend_contexts(a);
}

static void begin(struct asked *a, int call) {
    a->call = &CALLS[call];
    set_sizes(a);
}

// The tiles are the halves of RECORDS records in a line: blocks of 64x64 with transforms of 4x4; some
// inter ones are split instead.
static void take_tiles(const struct test *t) {
    struct asked *first = &work[0].call[0];
    for (int w = 0; w < 2; w++) {
        work[w].count = MOST_CALLS;
        for (int n = 0; n < MOST_CALLS; n++) begin(&work[w].call[n], t->call[w]);
    }
    first->width = t->is_down ? 128 * RECORDS : 128;
    first->height = t->is_down ? 128 : 128 * RECORDS;
    first->layout = 420;
    first->superblock = 64;
    take_shared(first);
    memset(first->masks.before, 0, first->masks.length * first->masks.size);
    for (int w = 0; w < 2; w++)
        for (int n = 0; n < MOST_CALLS; n++) {
            struct asked *a = &work[w].call[n];
            if (a != first) share(a, first);
            a->x = 16 * (t->is_down ? n : w);
            a->y = 16 * (t->is_down ? w : n);
            a->block = 12;
            a->tx = a->call->is_inter && once_in(4) ? 4 : 0;
            fill(&a->tx_masks, ~0ul, 0);
            a->chroma = 1;
            a->uvtx = 0;
            a->reference = below(8);
            a->skip = 0;
            a->mode = 1;
            take_contexts(a);
        }
}

static void take_frame_of_rows(struct asked *a) {
    a->superblock = PICK(64, 128);
    a->width = 1 + below(PICK(64, 200, 300));
    a->height = 1 + below(a->superblock * PICK(2, 3, 5));
    a->layout = PICK(400, 420, 420, 422, 444);
    a->depth = PICK(8, 10, 12);
    a->level_u = a->layout == 400 ? 0 : 1 + below(63);
    a->level_v = a->layout == 400 ? 0 : below(64);
}

static void take_place(struct asked *a) {
    a->row = below((a->height - 1) / a->superblock + 1);
    a->start = below((a->width - 1) / a->superblock + 1);
    if (a->call->kind != RECORD) return;
    do take_block(a);
    while (BLOCK[a->block].wide > (long)a->superblock / 4 ||
           BLOCK[a->block].high > (long)a->superblock / 4 || units_along(a, 0, 0) == 0);
}

static void take_worker(struct asked *a) {
    if (a->call->kind == FILTER) {
        mend_levels_and_samples(a);
        take_edges(a);
    } else {
        take_contexts(a);
        fill(&a->tx_masks, ~0ul, 0);
    }
}

static int is_wide_pair(const struct test *t) {
    return CALLS[t->call[0]].is_wide || CALLS[t->call[1]].is_wide;
}

// Whether a pair was found that may run together; the two tables must agree on it.
static int take_pair(const struct test *t) {
    struct asked *a = &work[0].call[0], *b = &work[1].call[0];
    work[0].count = work[1].count = 1;
    begin(a, t->call[0]);
    begin(b, t->call[1]);
    for (int p = 0; p < 3; p++) a->lent[p].size = is_wide_pair(t) ? 2 : 1;
    int tries = 0;
    do {
        if (tries++ % 8 == 0) take_frame_of_rows(a);
        memcpy(b->value, a->value, sizeof b->value);
        take_place(a);
        take_place(b);
    } while (!may_run_together(a, b) && tries < 400);
    if (tries == 400) return 0;
    take_shared(a);
    size_t own[VALUES];
    memcpy(own, b->value, sizeof own);
    share(b, a);
    memcpy(b->value + SIZES, own + SIZES, sizeof own - SIZES * sizeof *own);
    take_worker(a);
    take_worker(b);
    fill_table(&tables[0], a, number(a));
    fill_table(&tables[1], b, number(b));
    if (number(a) || number(b)) return 0;
    if (are_disjoint(a, b)) return 1;
    if (are_neighbours(a, b)) return 0;
    printf("case 0, %s and %s: the tables of USING do not agree;", a->call->name, b->call->name);
    print_arguments(a);
    print_arguments(b);
    exit(1);
}

// ---- two threads

static u64 asked_round, here_round, done_round;
static u64 start_at,
    later[2]; // by the processor's clock: when the calls begin, and how much later each worker's do

static void make_calls(struct work *w) {
    while (__builtin_ia32_rdtsc() - later[w - work] < __atomic_load_n(&start_at, __ATOMIC_ACQUIRE)) {
    }
    w->began = __builtin_ia32_rdtsc();
    for (int n = 0; n < w->count; n++) w->refused += w->call[n].call->ask(&w->call[n]) != 0;
    w->ended = __builtin_ia32_rdtsc();
}

// On the worker's own processor, of the first 64.
static void stay(int worker) {
    u64 all[16] = {0}, own[16] = {0};
    sched_getaffinity(0, sizeof all, all);
    own[0] = all[0] & -all[0];
    if (worker && all[0] != own[0]) own[0] = (all[0] ^ own[0]) & -(all[0] ^ own[0]);
    sched_setaffinity(0, sizeof own, own);
}

static void *serve(void *nothing) {
    stay(1);
    for (u64 round = 1;; round++) {
        while (__atomic_load_n(&asked_round, __ATOMIC_ACQUIRE) != round) __builtin_ia32_pause();
        __atomic_store_n(&here_round, round, __ATOMIC_RELEASE);
        make_calls(&work[1]);
        __atomic_store_n(&done_round, round, __ATOMIC_RELEASE);
    }
    return nothing;
}

static void make_calls_together(void) {
    u64 round = asked_round + 1;
    __atomic_store_n(&start_at, ~0ul, __ATOMIC_RELEASE);
    later[0] = below(PICK(1, 100, 1000));
    later[1] = below(PICK(1, 100, 1000));
    __atomic_store_n(&asked_round, round, __ATOMIC_RELEASE);
    while (__atomic_load_n(&here_round, __ATOMIC_ACQUIRE) != round) __builtin_ia32_pause();
    __atomic_store_n(&start_at, __builtin_ia32_rdtsc() + 1000, __ATOMIC_RELEASE);
    make_calls(&work[0]);
    while (__atomic_load_n(&done_round, __ATOMIC_ACQUIRE) != round) __builtin_ia32_pause();
}

static int were_together(void) { return work[0].began < work[1].ended && work[1].began < work[0].ended; }

// ---- one round

// An array of the calls: its bytes before, as the calls have it, and as calls in turn leave it.
static struct array {
    int n;
    const u8 *before;
    u8 *at, *in_turn;
    size_t size;
} arrays[BUFFERS + 2 * MOST_CALLS * BUFFERS];
static int array_count;

static u8 *add_array(struct lent *l, int n, u8 *at) {
    struct array *r = &arrays[array_count++];
    if (!r->in_turn) r->in_turn = pages(SHARED >> n & 1 ? ROOM : PAGE, READ_WRITE);
    *r = (struct array){n, l->before, at, r->in_turn, l->length * l->size};
    return l->at = at;
}

static void lend_to_calls(void) {
    array_count = 0;
    for (int n = 0; n < BUFFERS; n++)
        if (SHARED >> n & 1) add_array(&work[0].call[0].lent[n], n, rooms[0][n]);
    for (int w = 0; w < 2; w++)
        for (int k = 0; k < work[w].count; k++) {
            struct asked *a = &work[w].call[k];
            for (int n = 0; n < BUFFERS; n++)
                if (SHARED >> n & 1) a->lent[n].at = rooms[0][n];
                else if ((a->call->reads | a->call->writes) >> n & 1)
                    add_array(&a->lent[n], n, rooms[w][n] + k * PAGE);
        }
}

static void restore(void) {
    for (struct array *r = arrays; r < arrays + array_count; r++) memcpy(r->at, r->before, r->size);
}

static void keep(void) {
    for (struct array *r = arrays; r < arrays + array_count; r++) memcpy(r->in_turn, r->at, r->size);
}

static const struct array *other_than_in_turn(void) {
    for (struct array *r = arrays; r < arrays + array_count; r++)
        if (memcmp(r->at, r->in_turn, r->size)) return r;
    return 0;
}

static void print_case(const struct test *t) {
    if (t->words) printf("%s", t->words);
    else printf("%s and %s", CALLS[t->call[0]].name, CALLS[t->call[1]].name);
}

static void describe(const struct test *t, const struct array *r, const char *what) {
    size_t k = 0, size = work[0].call[0].lent[r->n].size;
    while (r->at[k] == r->in_turn[k]) k++;
    printf("case %lu, ", t->rounds);
    print_case(t);
    printf(": %s leave ", what);
    print_name(r->n);
    printf("[%lu] other than in turn;", k / size);
    for (int w = 0; w < 2; w++) print_arguments(&work[w].call[0]);
}

static struct test *now;

static void stopped(int signal) {
    printf("case %lu, ", now->rounds);
    print_case(now);
    printf(": ended by signal %d\n", signal);
    exit(1);
}

// In turn, in turn the other way round, then so many rounds at the same moment.
static void try(struct test *t, u64 rounds) {
    lend_to_calls();
    restore();
    make_calls(&work[0]);
    make_calls(&work[1]);
    keep();
    restore();
    make_calls(&work[1]);
    make_calls(&work[0]);
    const struct array *other = other_than_in_turn();
    if (other) describe(t, other, "the calls the other way round"), exit(1);
    for (; rounds > 0; rounds--, t->rounds++) {
        restore();
        make_calls_together();
        t->together += were_together();
        other = other_than_in_turn();
        if (other && t->differ++ == 0) describe(t, other, "two threads");
    }
}

// ---- the run

int main(int count, char **words) {
    enum { AGAIN = 8, MOST = 4 };
    if (count != 3) return 2;
    u64 rounds = strtoul(words[1], 0, 10), seed = strtoul(words[2], 0, 10), all = 0, differ = 0, thread;
    int is_full = 1;
    for (int w = 0; w < 2; w++) {
        make_rooms(&work[w].call[0], w);
        make_table(&tables[w]);
        for (int n = 1; n < MOST_CALLS; n++)
            for (int k = 0; k < BUFFERS; k++) work[w].call[n].lent[k].before = pages(PAGE, READ_WRITE);
    }
    list_pairs();
    if (pthread_create(&thread, 0, serve, 0)) return 2;
    stay(0);
    on_signals(stopped);
    for (struct test *t = tests; t < tests + test_count; t++) {
        now = t;
        alarm(600);
        state = seed + (t - tests);
        while (t->rounds < rounds || (t->together <= rounds / 2 && t->rounds < MOST * rounds)) {
            tell("threads", (t - tests) * rounds + least(t->rounds, rounds), test_count * rounds, "rounds");
            if (t->words) take_tiles(t);
            else if (!take_pair(t)) continue;
            try(t, t->rounds < rounds ? least(AGAIN, rounds - t->rounds) : AGAIN);
        }
    }
    for (struct test *t = tests; t < tests + test_count; t++) {
        printf("%lu rounds, %lu at the same moment, %lu differ: ", t->rounds, t->together, t->differ);
        print_case(t);
        printf("\n");
        is_full &= t->together > rounds / 2;
        all += t->rounds;
        differ += t->differ;
    }
    if (!is_full) printf("the calls of a case were seldom in progress at the same moment\n");
    if (work[0].refused + work[1].refused) printf("a call was refused\n"), is_full = 0;
    printf("%lu rounds, %lu differ\n", all, differ);
    return !is_full || differ > 0;
}
