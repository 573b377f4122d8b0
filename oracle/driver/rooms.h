// Lent memory, before or after which lies a page that nothing may reach, and on its other side a pattern.

enum { PAGE = 4096, ROOM = 6 << 20, GUARD = 256 };
enum { NONE = 0, READ_WRITE = 3 }; // access to pages

static u8 *rooms[2][BUFFERS], *arena, pattern[GUARD];
enum { ARENA = 2 * BUFFERS * (PAGE + ROOM) + PAGE };

static void *pages(size_t size, int access) {
    enum { PRIVATE = 2, ANONYMOUS = 32 };
    return mmap(0, size, access, PRIVATE | ANONYMOUS, -1, 0);
}

// Rooms for a call of one of two workers, in one arena.
static void make_rooms(struct asked *a, int worker) {
    memset(pattern, 0xa5, GUARD);
    if (!arena) arena = pages(ARENA, NONE);
    for (int n = 0; n < BUFFERS; n++) {
        u8 *room = arena + (size_t)(worker * BUFFERS + n) * (PAGE + ROOM) + PAGE;
        a->lent[n].before = pages(ROOM, READ_WRITE);
        if (mprotect(room, ROOM, READ_WRITE)) exit(2);
        rooms[worker][n] = room;
    }
}

// The guarded bytes of a room below and above what is lent of it.
struct zones {
    u8 *below, *above;
    size_t below_size, above_size;
};

static struct zones zones(const struct lent *l, u8 *room) {
    u8 *at = l->at, *end = at + l->length * l->size;
    size_t below_size = least(GUARD, at - room), above_size = least(GUARD, room + ROOM - end);
    return (struct zones){at - below_size, end, below_size, above_size};
}

static void lend(struct lent *l, u8 *room) {
    size_t size = l->length * l->size;
    l->at = once_in(2) ? room : room + ROOM - size;
    memcpy(l->at, l->before, size);
    struct zones z = zones(l, room);
    memcpy(z.below, pattern, z.below_size);
    memcpy(z.above, pattern, z.above_size);
}

static int is_beside(const struct lent *l, u8 *room) {
    struct zones z = zones(l, room);
    return memcmp(z.below, pattern, z.below_size) || memcmp(z.above, pattern, z.above_size);
}

// What to do where a call reaches such a page, or does not end.
static void on_signals(void (*stopped)(int)) {
    enum { ILLEGAL = 4, ABORT = 6, BUS = 7, DIVIDE = 8, SEGMENT = 11, ALARM = 14 };
    static const int SIGNALS[] = {ILLEGAL, ABORT, BUS, DIVIDE, SEGMENT, ALARM};
    for (int n = 0; n < 6; n++) signal(SIGNALS[n], stopped);
}
