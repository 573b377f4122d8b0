// footprints COUNT SEED MAP: makes COUNT calls of the archive under the emulator with the plugin watch.c,
// and holds every load and store of lent memory to table.h. A call is wrong if it loads or stores what the
// table does not let it, stores a mask word in which it records no bit, or answers another number than
// number.h. It ends in a table of what was seen.

#include "call.h"
#include "libc.h"
#include "params.h"
#include "number.h"
#include "list.h"
#include "make.h"
#include "script.h"
#include "calls.h"
#include "rooms.h"
#include "progress.h"
#include "table.h"
#include "watch.h"

int open(const char *, int, ...);
int ftruncate(int, long);
long syscall(long, ...);

static struct asked asked;
static struct table table;
static u8 *map; // of the arena
static u64 made;

static u8 *marks_of(const void *at) { return map + ((const u8 *)at - arena); }

// ---- what was seen, by call

// An accepted call's place in its 128x128 records: of a block the quarter that it begins in, of a tile's
// first column the half and the row's, of a superblock row its half; a superblock of 128 has all.
enum { LAYOUTS = 4, DEPTHS = 3, SUPERBLOCKS = 2, PLACES = 4 };
static const char *const PLACE[PLACES] = {"upper left", "upper right", "lower left", "lower right"};

static struct seen {
    u64 calls, accepted, wrong, told, layout[LAYOUTS], depth[DEPTHS], superblock[SUPERBLOCKS],
        place[PLACES];
    u64 may_load, loaded, may_store, stored; // bytes of accepted calls
} seen[CALL_COUNT];

static int place_of(const struct asked *a) {
    if (a->call->kind == RECORD) return a->x / 16 % 2 + 2 * (a->y / 16 % 2);
    size_t x = a->call->kind == CORRECT && !a->call->is_rows ? a->start * a->superblock / 64 % 2 : 0;
    return x + 2 * (a->row * a->superblock / 64 % 2);
}

static void count_call(struct seen *s, const struct asked *a) {
    s->accepted++;
    if (a->call->kind < LEVELS || a->call->kind == LIST) return;
    s->layout[a->layout == 400 ? 0 : a->layout == 420 ? 1 : a->layout == 422 ? 2 : 3]++;
    if (a->call->kind >= RECORD) s->place[place_of(a)]++;
    if (a->call->kind >= CORRECT) s->superblock[a->superblock / 64 - 1]++;
    if (a->call->is_wide) s->depth[a->depth / 2 - 4]++;
}

// ---- one call

// The first fault of each call.
static void describe(const struct asked *a, const char *what, int n, size_t byte) {
    if (seen[a->call - CALLS].told++) return;
    const struct lent *l = &a->lent[n];
    size_t at = byte / l->size;
    printf("call %lu, %s: %s ", made, a->call->name, what);
    print_name(n);
    printf("[%lu]", at);
    if (l == &a->masks) {
        size_t in = at % 640, p = in >= 384, classes = p ? 2 : 3, word = p ? in - 384 : in;
        printf(", record %lu, %s, pass %lu, unit %lu, class %lu, half %lu", at / 640,
               p ? "chroma" : "luma", word / (64 * classes), word / (2 * classes) % 32, word / 2 % classes,
               word % 2);
    }
    if (l == &a->levels)
        printf(", unit (%lu, %lu), byte %lu", at / 4 % a->stride, at / 4 / a->stride, at % 4);
    if (n < 3) printf(", line %lu, sample %lu", at / stride_of(a, n), at % stride_of(a, n));
    printf(";");
    print_arguments(a);
}

static void stopped(int signal) {
    printf("call %lu, %s: ended by signal %d;", made, asked.call->name, signal);
    print_arguments(&asked);
    exit(1);
}

static int is_zero(const u8 *at, size_t count) {
    for (; count % 8; count--)
        if (at[count - 1]) return 0;
    for (; count; count -= 8)
        if (*(const u64 *)(at + count - 8)) return 0;
    return 1;
}

// Holds the marks of one array to the table, and takes them off; whether it was as it must be.
static int is_let(const struct asked *a, int n, struct seen *s) {
    const struct lent *l = &a->lent[n];
    size_t size = l->length * l->size;
    u8 *marks = marks_of(l->at), *may = table.may[n];
    long bad = -1;
    for (size_t k = 0; k < size; k++) {
        if (marks[k] & ~may[k] && bad < 0) bad = k;
        if (!s) continue;
        s->may_load += may[k] & LOAD;
        s->loaded += marks[k] & LOAD;
        s->may_store += may[k] / STORE;
        s->stored += marks[k] / STORE;
    }
    if (bad >= 0) describe(a, marks[bad] & ~may[bad] & STORE ? "stores" : "loads", n, bad);
    memset(marks, 0, size);
    return bad < 0;
}

static int is_beside_let(const struct asked *a, int n) {
    struct zones z = zones(&a->lent[n], rooms[0][n]);
    int is_clear = is_zero(marks_of(z.below), z.below_size) && is_zero(marks_of(z.above), z.above_size);
    memset(marks_of(z.below), 0, z.below_size);
    memset(marks_of(z.above), 0, z.above_size);
    if (!is_clear) describe(a, "reaches beside", n, 0);
    return is_clear;
}

// Recording stores a mask word only where it sets a bit.
static int is_set_for(const struct asked *a) {
    const u8 *marks = marks_of(a->masks.at);
    const u16 *after = a->masks.at;
    for (size_t n = 0; n < a->masks.length; n++)
        if (marks[2 * n] & STORE && !(after[n] & table.block[n])) {
            describe(a, "sets no bit in and stores", (int)(&a->masks - a->lent), 2 * n);
            return 0;
        }
    return 1;
}

static void make_call(struct asked *a, u64 seed) {
    int c = made % CALL_COUNT;
    struct seen *s = &seen[c];
    a->call = &CALLS[c];
    state = seed;
    state = next() ^ made * 0xd1b54a32d192ed03;
    set_sizes(a);
    if (a->call->kind == LIST) take_script(a);
    else {
        take_accepted(a);
        if (once_in(8)) take_faults(a, PICK(1, 1, 2));
        if (a->call->kind == RECORD && once_in(2))
            memset(a->masks.before, 0, a->masks.length * a->masks.size);
    }
    u32 lent = a->call->reads | a->call->writes;
    for (int n = 0; n < BUFFERS; n++)
        if (lent >> n & 1) lend(&a->lent[n], rooms[0][n]);
    size_t expected = a->call->kind == LIST ? listing.length : number(a);
    fill_table(&table, a, expected);
    syscall(WATCH, WATCH_ON);
    size_t answer = a->call->ask(a);
    syscall(WATCH, WATCH_OFF);
    int is_accepted = answer == 0 || (a->call->kind == LIST && listing.length <= a->out.length);
    int is_right = answer == expected;
    if (!is_right) printf("call %lu, %s: answered %lu, not %lu\n", made, a->call->name, answer, expected);
    if (is_accepted) count_call(s, a);
    if (a->call->kind == RECORD) is_right &= is_set_for(a);
    for (int n = 0; n < BUFFERS; n++)
        if (lent >> n & 1) is_right &= is_let(a, n, is_accepted ? s : 0) & is_beside_let(a, n);
    s->calls++;
    s->wrong += !is_right;
}

// ---- the run

// The plugin is there, and tells a load from a store and where they are.
static int is_watched(void) {
    volatile u8 *at = rooms[0][0];
    syscall(WATCH, WATCH_ARENA, arena, (size_t)ARENA);
    at[1] = 1;
    syscall(WATCH, WATCH_ON);
    at[3] = at[5];
    syscall(WATCH, WATCH_OFF);
    u8 *marks = marks_of((void *)at), was[8];
    memcpy(was, marks, 8);
    memset(marks, 0, 8);
    return !memcmp(was, (u8[8]){[3] = STORE, [5] = LOAD}, 8);
}

static int print_cells(const char *name, const u64 *cell, int count, const char *const *names) {
    int is_full = 1;
    printf("  %s:", name);
    for (int n = 0; n < count; n++)
        printf("%s %s %lu", n ? "," : "", names[n], cell[n]), is_full &= cell[n] > 0;
    printf("\n");
    return is_full;
}

static int print_seen(const struct seen *s, const struct call *c) {
    int is_full = 1;
    printf("%s: %lu calls, %lu accepted; of the bytes that may be loaded %lu of %lu were, stored %lu of "
           "%lu; %lu wrong\n",
           c->name, s->calls, s->accepted, s->loaded, s->may_load, s->stored, s->may_store, s->wrong);
    if (c->kind >= LEVELS && c->kind != LIST)
        is_full &=
            print_cells("layout", s->layout, LAYOUTS, (const char *const[]){"400", "420", "422", "444"});
    if (c->is_wide)
        is_full &= print_cells("depth", s->depth, DEPTHS, (const char *const[]){"8", "10", "12"});
    if (c->kind >= CORRECT && c->kind != LIST)
        is_full &=
            print_cells("superblock", s->superblock, SUPERBLOCKS, (const char *const[]){"64", "128"});
    if (c->kind == RECORD || (c->kind == CORRECT && !c->is_rows))
        is_full &= print_cells("place", s->place, PLACES, PLACE);
    if (c->kind == FILTER || (c->kind == CORRECT && c->is_rows))
        is_full &= print_cells("half", (const u64[]){s->place[0], s->place[2]}, 2,
                               (const char *const[]){"upper", "lower"});
    return is_full;
}

int main(int count, char **words) {
    enum { CREATE = 64, OPEN_READ_WRITE = 2, SHARED = 1 };
    if (count != 4) return 2;
    u64 calls = strtoul(words[1], 0, 10), seed = strtoul(words[2], 0, 10), all_wrong = 0;
    int file = open(words[3], OPEN_READ_WRITE | CREATE, 0600), is_full = 1;
    on_signals(stopped);
    make_rooms(&asked, 0);
    make_table(&table);
    if (file < 0 || ftruncate(file, ARENA)) return 2;
    map = mmap(0, ARENA, READ_WRITE, SHARED, file, 0);
    if (!is_watched()) return dprintf(2, "footprints: the emulator's plugin does not answer\n"), 2;
    for (; made < calls; made++) {
        if (made % 1000 == 0) alarm(600);
        tell("footprints", made, calls, "calls");
        make_call(&asked, seed);
    }
    for (int c = 0; c < CALL_COUNT; c++)
        is_full &= print_seen(&seen[c], &CALLS[c]), all_wrong += seen[c].wrong;
    if (!is_full) printf("a cell is empty\n");
    if (!is_zero(map, ARENA)) printf("memory was reached that is not lent\n"), all_wrong++;
    printf("%lu calls, %lu wrong\n", calls, all_wrong);
    return !is_full || all_wrong > 0;
}
