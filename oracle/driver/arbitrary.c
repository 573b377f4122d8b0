// arbitrary COUNT SEED: makes COUNT calls of the archive, with numbers and buffers from the seed. A call is
// wrong if it answers another number than number.h, changes a byte beside what is lent or of what it only
// reads, or changes anything and does not answer 0. The listing is wrong if its length or what it leaves in
// `out` is not that of list.h, and a call for a header's parameters if what it leaves is not that of
// params.h. It ends in a table of the answers.

#include "call.h"
#include "libc.h"
#include "params.h"
#include "number.h"
#include "list.h"
#include "make.h"
#include "script.h"
#include "calls.h"
#include "rooms.h"
#include "progress.h"

static struct asked asked;
static u64 made, answers[CALL_COUNT][FORM + 1], wrong[CALL_COUNT];

static void describe(const char *what, size_t answer, size_t expected) {
    printf("call %lu, %s: ", made, asked.call->name);
    printf(what, answer, expected);
    print_arguments(&asked);
}

static void stopped(int signal) {
    describe("ended by signal %lu;", signal, 0);
    exit(1);
}

// What the call must answer. What it must leave is put where it was before: a listing for which there is
// room, and a header's parameters or bits.
static size_t expect(struct asked *a) {
    if (a->call->kind != LIST) {
        u32 answer = number(a);
        if (answer == 0 && is_params(a->call)) leave_params(a);
        return answer;
    }
    if (listing.length <= a->out.length) memcpy(a->out.before, listing.at, listing.length);
    return listing.length;
}

static void make_call(struct asked *a, u64 seed) {
    int c = made % CALL_COUNT;
    a->call = &CALLS[c];
    state = seed;
    state = next() ^ made * 0xd1b54a32d192ed03;
    set_sizes(a);
    a->call->kind == LIST ? take_script(a) : take(a);
    u32 lent = a->call->reads | a->call->writes;
    for (int n = 0; n < BUFFERS; n++)
        if (lent >> n & 1) lend(&a->lent[n], rooms[0][n]);
    size_t expected = expect(a), answer = a->call->ask(a);
    const char *fault = answer == expected ? 0 : "answered %lu, not %lu;";
    for (int n = 0; n < BUFFERS; n++) {
        if (!(lent >> n & 1)) continue;
        struct lent *l = &a->lent[n];
        if (is_beside(l, rooms[0][n])) fault = "answered %lu and changed bytes beside what is lent;";
        int is_known = answer || a->call->reads >> n & 1 || is_params(a->call);
        if (is_known && memcmp(l->at, l->before, l->length * l->size))
            fault = "answered %lu and left other bytes than it must;";
    }
    size_t said = a->call->kind == LIST ? listing.number : answer;
    if (said <= FORM) answers[c][said]++;
    if (fault && wrong[c]++ == 0) describe(fault, answer, expected);
}

static int may_answer(const struct call *c, u32 number) {
    for (const u8 *n = c->numbers; *n; n++)
        if (*n == number) return 1;
    return number == 0;
}

static int may_be_answered(u32 number) {
    for (int c = 0; c < CALL_COUNT; c++)
        if (may_answer(&CALLS[c], number)) return 1;
    return 0;
}

// Prints how often a call answered a number; whether it ever did, if it may.
static int print_count(int c, u32 number) {
    if (!may_be_answered(number)) return 1;
    if (!may_answer(&CALLS[c], number)) return printf("%8s", "-"), 1;
    printf("%8lu", answers[c][number]);
    return answers[c][number] > 0;
}

// Prints the table; whether every number that a call may answer was answered.
static int print_table(void) {
    int is_full = 1;
    printf("%-15s%9s", "call", "calls");
    for (u32 n = 0; n <= HIGHEST; n++)
        if (may_be_answered(n)) printf("%8u", n);
    printf("%8s%8s\n", "form", "wrong");
    for (int c = 0; c < CALL_COUNT; c++) {
        printf("%-15s%9lu", CALLS[c].name, (made + CALL_COUNT - 1 - c) / CALL_COUNT);
        for (u32 n = 0; n <= HIGHEST; n++) is_full &= print_count(c, n);
        is_full &= print_count(c, FORM);
        printf("%8lu\n", wrong[c]);
    }
    return is_full;
}

int main(int count, char **words) {
    if (count != 3) return 2;
    u64 calls = strtoul(words[1], 0, 10), seed = strtoul(words[2], 0, 10), all_wrong = 0;
    on_signals(stopped);
    make_rooms(&asked, 0);
    for (; made < calls; made++) {
        if (made % 1000 == 0) alarm(60), tell("arbitrary", made, calls, "calls");
        make_call(&asked, seed);
    }
    int is_full = print_table();
    for (int c = 0; c < CALL_COUNT; c++) all_wrong += wrong[c];
    if (!is_full) printf("a number that may be answered never was\n");
    printf("%lu calls, %lu wrong\n", calls, all_wrong);
    return !is_full || all_wrong > 0;
}
