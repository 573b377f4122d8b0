// Holds what deblock_frame.h has for the loop filter parameters to the archive: each value is read into its own field and
// written from it; with exactly the bytes that they take a call is accepted, with less it is refused and stores nothing; a
// null pointer counts as length 0; the default deltas are the archive's.
#include "deblock_frame.h"
#include <stdio.h>

static unsigned checks, wrong;

static void hold(int holds, const char *what) {
    checks++;
    if (holds) return;
    wrong++;
    printf("%s\n", what);
}

// Every field has a value of its own where it can: 109 bits are 14 bytes, of which three bits are not the parameters'.
static const struct deblock_params all_sent = {.level = {1, 2, 3, 4},
                                               .sharpness = 5,
                                               .delta_enabled = 1,
                                               .delta_update = 1,
                                               .update_ref = {1, 1, 1, 1, 1, 1, 1, 1},
                                               .update_mode = {1, 1},
                                               .ref_delta = {-64, -40, -20, -1, 0, 1, 20, 63},
                                               .mode_delta = {-7, 9}};

static int same(const struct deblock_params *one, const struct deblock_params *other) { return !memcmp(one, other, sizeof *one); }

static void fields(void) {
    struct deblock_params_given given = deblock_params_after(NULL, 3);
    struct deblock_params left = all_sent;
    uint8_t bytes[14] = {0}, level[4], bits[3], update[10];
    uint32_t count = 0;
    left.update_ref[6] = left.update_mode[0] = 0, left.ref_delta[6] = -1, left.mode_delta[0] = 0;
    hold(!deblock_put_params(bytes, 14, 0, &given, &left, &count) && count == 95, "parameters written");
    hold(!deblock_read_params(bytes, 14, 0, 3, 0, 0, level, bits, update, given.ref_delta, given.mode_delta, &count), "read");
    hold(!memcmp(level, left.level, 4) && bits[0] == 5 && bits[1] == 1 && bits[2] == 1, "levels and bits");
    hold(!memcmp(update, left.update_ref, 8) && !memcmp(update + 8, left.update_mode, 2), "update choices");
    hold(!memcmp(given.ref_delta, left.ref_delta, 8) && !memcmp(given.mode_delta, left.mode_delta, 2), "deltas");
    given = deblock_params_after(NULL, 3);
    struct deblock_params read = all_sent;
    hold(!deblock_fill_params(bytes, 14, 0, &given, &read, NULL) && same(&read, &left), "read into fields");
}

static void lengths(void) {
    struct deblock_params_given given = deblock_params_after(NULL, 3);
    struct deblock_params read = {.sharpness = 9}, kept = read;
    uint8_t bytes[14] = {0}, zeros[14] = {0};
    uint32_t count = 7;
    hold(deblock_put_params(bytes, 13, 3, &given, &all_sent, &count) == DEBLOCK_BITS, "room is one byte less");
    hold(deblock_put_params(bytes, 14, 4, &given, &all_sent, &count) == DEBLOCK_BITS, "room is one bit less");
    hold(deblock_put_params(NULL, 14, 3, &given, &all_sent, &count) == DEBLOCK_BITS, "no room");
    hold(count == 7 && !memcmp(bytes, zeros, 14), "nothing written");
    hold(!deblock_put_params(bytes, 14, 3, &given, &all_sent, NULL), "room");
    hold(deblock_fill_params(bytes, 13, 3, &given, &read, &count) == DEBLOCK_BITS, "bytes are one less");
    hold(deblock_fill_params(NULL, 14, 3, &given, &read, &count) == DEBLOCK_BITS, "no bytes");
    hold(count == 7 && same(&read, &kept), "nothing read");
    hold(!deblock_fill_params(bytes, 14, 3, &given, &read, &count) && count == 109 && same(&read, &all_sent), "bytes");
}

// With room, where nothing is written, and without.
static int is_unwritable(const struct deblock_params_given *given, const struct deblock_params *params) {
    uint8_t bytes[14] = {0}, zeros[14] = {0};
    return deblock_put_params(bytes, 14, 0, given, params, NULL) == DEBLOCK_UNWRITABLE && !memcmp(bytes, zeros, 14) &&
           deblock_put_params(bytes, 0, 0, given, params, NULL) == DEBLOCK_UNWRITABLE;
}

static void unwritable(void) {
    struct deblock_params_given given = deblock_params_after(NULL, 3);
    struct deblock_params params = all_sent;
    hold(!is_unwritable(&given, &params), "writable");
#define UNWRITABLE(change) (params = all_sent, change, hold(is_unwritable(&given, &params), #change))
    UNWRITABLE(params.level[3] = 64);
    UNWRITABLE(params.sharpness = 8);
    UNWRITABLE(params.delta_enabled = 2);
    UNWRITABLE(params.delta_update = 2);
    UNWRITABLE(params.update_ref[7] = 2);
    UNWRITABLE(params.update_mode[1] = 2);
    UNWRITABLE(params.ref_delta[7] = 64);
    UNWRITABLE(params.mode_delta[1] = -65);
    UNWRITABLE(given.planes = 1);
    given.planes = 3;
    UNWRITABLE(given.intrabc = 1);
}

static void after(void) {
    struct deblock_params_given given = deblock_params_after(&all_sent, 1), first = deblock_params_after(NULL, 1);
    struct deblock_params read;
    uint8_t bytes[3] = {0xfc, 0x01, 0}; // a luma level of 63, deltas enabled and not updated
    uint32_t count = 7;
    hold(!deblock_fill_params(bytes, 3, 0, &given, &read, &count) && count == 17, "17 bits");
    hold(read.level[0] == 63 && read.delta_enabled == 1 && read.delta_update == 0, "enabled and not updated");
    hold(!deblock_put_params(bytes, 3, 0, &given, &read, &count) && count == 17, "17 bits written");
    hold(!memcmp(read.ref_delta, all_sent.ref_delta, 8) && !memcmp(read.mode_delta, all_sent.mode_delta, 2), "deltas before");
    given.lossless = 1;
    hold(!deblock_fill_params(NULL, 0, 99, &given, &read, &count) && count == 0, "lossless");
    hold(!memcmp(read.ref_delta, first.ref_delta, 8) && !memcmp(read.mode_delta, first.mode_delta, 2), "the defaults");
    hold(!deblock_put_params(NULL, 0, 99, &given, &read, &count) && count == 0, "lossless, written");
}

static void as_header(void) {
    struct deblock_header header = deblock_header_of(&all_sent), wanted = {.base = {1, 2, 3, 4}, .delta_enabled = 1};
    uint8_t values[512], by_hand[512];
    memcpy(wanted.ref_delta, all_sent.ref_delta, 8), memcpy(wanted.mode_delta, all_sent.mode_delta, 2);
    struct deblock_frame chroma = {.width = 8, .height = 8, .layout = 420, .superblock = 64};
    memset(values, 99, 512), memset(by_hand, 99, 512);
    hold(!deblock_fill_levels(values, &chroma, &header) && !deblock_fill_levels(by_hand, &chroma, &wanted), "levels");
    hold(!memcmp(values, by_hand, 512), "the parameters' levels");
}

int main(void) {
    fields(), lengths(), unwritable(), after(), as_header();
    printf("%u checks, %u wrong\n", checks, wrong);
    return wrong > 0;
}
