/* check: what an accepted file is, and whether its pads are set. */
#include <stdio.h>

#include "cli.h"

#define BLOCKS_AT_A_TIME 4096

struct pads {
    size_t blocks;  /* how many have a pad that is set */
    size_t highest; /* the highest place of one */
};

/* Pads are read as items: blocks are as wide for room items as for these. Where the second allele is counted, a code is 0 exactly if its value is 0. */
static struct pads find_pads(const struct herd *h, size_t items, size_t blocks, size_t room) {
    struct pads found = {0, 0};
    int64_t places[3], list[BLOCKS_AT_A_TIME];
    int8_t val[3 * BLOCKS_AT_A_TIME];
    struct bytes bed = h->bed.bytes;
    size_t pads = room - items;
    for (size_t p = 0; p < pads; p++) places[p] = (int64_t)(items + p);
    for (size_t start = 0; pads && start < blocks; start += BLOCKS_AT_A_TIME) {
        size_t n = blocks - start < BLOCKS_AT_A_TIME ? blocks - start : BLOCKS_AT_A_TIME;
        for (size_t b = 0; b < n; b++) list[b] = (int64_t)(start + b);
        bed_answer a = h->mode_1 ? bed_read_i8(bed.at, bed.len, room, blocks, false, places, pads, list, n, -1, false, val, pads * n)
                                 : bed_read_i8(bed.at, bed.len, blocks, room, false, list, n, places, pads, -1, true, val, pads * n);
        if (a.number) refuse(h, a);
        for (size_t b = 0; b < n; b++) {
            bool set = false;
            for (size_t p = 0; p < pads; p++)
                if (val[b * pads + p]) {
                    set = true;
                    if (items + p > found.highest) found.highest = items + p;
                }
            found.blocks += set;
        }
    }
    return found;
}

void check(const struct herd *h) {
    size_t items = h->mode_1 ? h->animals : h->markers, blocks = h->mode_1 ? h->markers : h->animals;
    size_t room = blocks ? 4 * (size_t)bed_try_div_4(items, blocks).first : items;
    const char *lines = h->mode_1 ? h->fam.path : h->bim.path, *kind = h->mode_1 ? "animals" : "markers";
    struct pads pads = find_pads(h, items, blocks, room);
    if (!h->options->quiet) {
        printf("%s: accepted: mode %d (a block is %s), %zu bytes\n", h->bed.path, h->mode_1, h->mode_1 ? "a marker" : "an animal", h->bed.bytes.len);
        printf("%zu %s (%s), %zu %s (%s)\n", COUNTED(h->animals, "animal", "animals"), h->fam.path ? h->fam.path : "--animals",
               COUNTED(h->markers, "marker", "markers"), h->bim.path ? h->bim.path : "--markers");
        if (!pads.blocks) printf("no pad is set\n");
    }
    if (!pads.blocks) return;
    printf("pads are set in %zu of %zu %s: the file seems to be of %zu", pads.blocks, COUNTED(blocks, "block", "blocks"), pads.highest + 1);
    if (pads.highest + 1 < room) printf(" to %zu", room);
    printf(" %s", kind);
    if (lines) printf(", and %s has %zu %s\n", lines, COUNTED(items, "line", "lines"));
    else printf(", and %zu %s given\n", COUNTED(items, "is", "are"));
}
