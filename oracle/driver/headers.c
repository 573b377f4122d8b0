// Answers records of oracle/headers by the archive of crate `deblock`: each is a call, and comes back as the call left it.
// It is compiled by the kit's clang, which has no headers: what it takes from the C library is declared here.
#include "deblock.h"

long read(int, void *, size_t);
long write(int, const void *, size_t);
void *malloc(size_t);
void free(void *);
_Noreturn void exit(int);

struct record { // then the bytes
    uint32_t is_write, planes, lossless, intrabc;
    uint64_t at, length;
    int8_t ref_before[8], mode_before[2];
    uint8_t level[4], bits[3], update[10];
    int8_t ref_delta[8], mode_delta[2], padding[3];
    uint32_t number, count[1];
};

_Static_assert(sizeof(struct record) == 80, "as oracle/headers has it");

// Reads all, or ends the program: well where input ends before the first byte and it may.
static void get(void *to, size_t n, int may_end) {
    for (size_t at = 0; at < n;) {
        long more = read(0, (uint8_t *)to + at, n - at);
        if (more <= 0) exit(!(may_end && at == 0 && more == 0));
        at += more;
    }
}

static void put(const void *from, size_t n) {
    for (size_t at = 0; at < n;) {
        long more = write(1, (const uint8_t *)from + at, n - at);
        if (more <= 0) exit(1);
        at += more;
    }
}

static uint32_t call(struct record *r, uint8_t *bytes) {
    if (r->is_write)
        return deblock_write_params(bytes, r->length, r->at, r->planes, r->lossless, r->intrabc, r->ref_before,
                                    r->mode_before, r->level, r->bits, r->update, r->ref_delta, r->mode_delta, r->count);
    return deblock_read_params(bytes, r->length, r->at, r->planes, r->lossless, r->intrabc, r->level, r->bits, r->update,
                               r->ref_delta, r->mode_delta, r->count);
}

int main(void) {
    for (;;) {
        struct record r;
        get(&r, sizeof r, 1);
        uint8_t *bytes = malloc(r.length + 1);
        if (!bytes) exit(1);
        get(bytes, r.length, 0);
        r.number = call(&r, bytes);
        put(&r, sizeof r);
        put(bytes, r.length);
        free(bytes);
    }
}
