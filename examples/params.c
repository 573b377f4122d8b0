// The loop filter parameters of a frame header are read from its bits, shown, and written into other bytes. A star stands
// at each delta that the bits hold. Two calls are refused.
#include "deblock_frame.h"
#include <stdio.h>
#include <stdlib.h>

static void must(uint32_t number) {
    if (number == DEBLOCK_DONE) return;
    fprintf(stderr, "refused with %u: %s\n", number, deblock_text(number));
    exit(1);
}

static void show(const char *what, const int8_t *deltas, const uint8_t *update, int count) {
    printf("%s", what);
    for (int i = 0; i < count; i++) printf(" %d%s", deltas[i], update[i] ? "*" : "");
    printf("\n");
}

int main(void) {
    // The parameters are at places 5 to 57: five bits of the header come before them, and six after.
    static const uint8_t header[] = {0xb2, 0x8c, 0x18, 0x63, 0xc3, 0xf4, 0x20, 0x96};
    uint8_t written[sizeof header];
    struct deblock_params_given given = deblock_params_after(NULL, 3);
    struct deblock_params params;
    uint32_t count;
    must(deblock_fill_params(header, sizeof header, 5, &given, &params, &count));
    printf("%u bits\n", count);
    printf("level %u %u %u %u\n", params.level[0], params.level[1], params.level[2], params.level[3]);
    printf("sharpness %u, delta_enabled %u, delta_update %u\n", params.sharpness, params.delta_enabled, params.delta_update);
    show("ref_delta", params.ref_delta, params.update_ref, 8);
    show("mode_delta", params.mode_delta, params.update_mode, 2);

    memset(written, 0xff, sizeof written);
    must(deblock_put_params(written, sizeof written, 5, &given, &params, NULL));
    printf("written:");
    for (size_t i = 0; i < sizeof written; i++) printf(" %02x", written[i]);
    printf("\n");

    params.ref_delta[1] = 5; // its update bit is 0, so no bits say that it changed
    uint32_t number = deblock_put_params(written, sizeof written, 5, &given, &params, NULL);
    printf("refused with %u: %s\n", number, deblock_text(number));
    number = deblock_fill_params(header, sizeof header - 1, 5, &given, &params, NULL);
    printf("refused with %u: %s\n", number, deblock_text(number));
}
