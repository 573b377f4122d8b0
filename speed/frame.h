// The memory of a frame for counting, which `main` makes fresh twice. The program that includes this says how its side
// holds it (`prepare`, `finish`) and does the work that is counted: `filter` or `record`, the second time or both times.
#include "format.h"

struct frame {
    const struct head *head;
    const struct step *steps;
    u32 blocks_count;
    const u8 (*values)[64];
    const struct block *blocks;
    u8 *levels;
    u16 *masks;
    void *planes[3];
    // Above and left in luma, then in chroma.
    u8 *contexts[4];
    size_t context_lengths[4];
};

static void prepare(struct frame *);
static void filter(struct frame *);
static void record(struct frame *);
static void finish(struct frame *);

static u8 *read_file(const char *name) {
    FILE *file = fopen(name, "rb");
    if (!file || fseek(file, 0, SEEK_END)) fail("no such file");
    long size = ftell(file);
    u8 *bytes = malloc(size);
    rewind(file);
    if (!bytes || fread(bytes, 1, size, file) != (size_t)size) fail("not read");
    fclose(file);
    return bytes;
}

// As dav1d's assembly wants planes.
static void *aligned(size_t size) {
    void *memory;
    if (posix_memalign(&memory, 64, size)) fail("no memory");
    return memory;
}

// The contexts start again: all of them with the frame, those on the left with every row of superblocks.
static void start_contexts(struct frame *f, const struct block *b) {
    if (b->x || b->y % 16 || (b->y % 32 && f->steps->superblock == 128)) return;
    for (int n = 0; n < 4; n++)
        if (n % 2 || !b->y) memset(f->contexts[n], n < 2 ? 2 : 1, f->context_lengths[n]);
}

int main(int count, char **words) {
    if (count != 4) fail("usage: PROGRAM FILE filter|record 1|2");
    const u8 *file = read_file(words[1]);
    const int is_filter = !strcmp(words[2], "filter"), times = atoi(words[3]);
    struct frame f;
    f.head = (const struct head *)file;
    const size_t size = f.head->is_wide ? 2 : 1;
    const u8 *levels = file + sizeof *f.head, *masks = levels + f.head->levels, *planes = masks + 2 * f.head->masks;
    const size_t samples = size * ((size_t)f.head->planes[0] + f.head->planes[1] + f.head->planes[2]);
    f.steps = (const struct step *)(planes + samples);
    const u32 *counts = (const u32 *)(f.steps + f.head->steps);
    f.blocks_count = counts[0];
    f.values = (const u8(*)[64])(counts + 2);
    f.blocks = (const struct block *)(f.values + counts[1]);
    f.levels = malloc(f.head->levels + 128 * f.steps->stride); // dav1d's assembly looks at 32 more lines of units
    f.masks = malloc(2 * f.head->masks);
    u8 *all = f.planes[0] = aligned(samples);
    f.planes[1] = all + size * f.head->planes[0];
    f.planes[2] = all + size * (f.head->planes[0] + f.head->planes[1]);
    const size_t across = (f.steps->width + 3) / 4 + 32;
    for (int n = 0; n < 4; n++) f.contexts[n] = malloc(f.context_lengths[n] = n % 2 ? 64 : across);
    for (int time = 2; time > 0; time--) {
        memcpy(all, planes, samples);
        memcpy(f.levels, levels, f.head->levels);
        memcpy(f.masks, masks, 2 * f.head->masks);
        if (!is_filter) {
            memset(f.levels, 0, f.head->levels);
            memset(f.masks, 0, 2 * f.head->masks);
        }
        prepare(&f);
        if (time <= times) (is_filter ? filter : record)(&f);
    }
    finish(&f);
    if (!is_filter && (memcmp(f.levels, levels, f.head->levels) || memcmp(f.masks, masks, 2 * f.head->masks)))
        fail("the masks or levels differ");
    uint64_t sum = 0;
    for (size_t n = 0; n < samples / size; n++) sum = sum * 31 + (size == 2 ? ((u16 *)all)[n] : all[n]);
    printf("%016lx\n", sum);
}
