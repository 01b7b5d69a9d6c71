/* Reads a .bed file, standardises every marker and prints the matrix and the statistics; a refusal is printed in words.
 *
 *     standardised FILE ANIMALS MARKERS
 */
#include <stdio.h>
#include <stdlib.h>

#include "mungkelas.h"

/* What can befall a file: all the refusals of the calls below, whose lists and buffers fit. */
static const char *const words[] = {
    [BED_READ_ERROR] = "the file has fewer bytes than needed",
    [BED_ILL_FORMED] = "this is no .bed file of these counts: its first two bytes or its length are wrong",
    [BED_BAD_MODE] = "the mode byte is neither 0 nor 1",
    [BED_INDEXES_TOO_BIG_FOR_FILES] = "a file of these counts would be too large",
    [BED_NO_INDIVIDUALS] = "a marker has no call at all",
    [BED_COUNT_TOO_LARGE] = "a count is too large",
};

static uint8_t *read_file(const char *path, size_t *length) {
    FILE *in = fopen(path, "rb");
    if (!in) return NULL;
    uint8_t *bytes = NULL;
    size_t room = 0;
    *length = 0;
    for (;;) {
        if (*length == room) {
            room = room ? 2 * room : 4096;
            uint8_t *more = realloc(bytes, room);
            if (!more) break;
            bytes = more;
        }
        size_t got = fread(bytes + *length, 1, room - *length, in);
        if (got == 0) break;
        *length += got;
    }
    int failed = ferror(in) || *length == room;
    fclose(in);
    if (!failed) return bytes;
    free(bytes);
    return NULL;
}

static int refuse(bed_answer a) {
    printf("refused, %llu: %s", (unsigned long long)a.number, words[a.number]);
    if (a.number == BED_NO_INDIVIDUALS) printf(" (marker %lld)", (long long)a.first);
    printf("\n");
    return 1;
}

int main(int argc, char **argv) {
    if (argc != 4) {
        fprintf(stderr, "usage: standardised FILE ANIMALS MARKERS\n");
        return 2;
    }
    size_t length;
    uint8_t *file = read_file(argv[1], &length);
    if (!file) {
        fprintf(stderr, "cannot read %s\n", argv[1]);
        return 2;
    }
    size_t animals = strtoull(argv[2], NULL, 10), markers = strtoull(argv[3], NULL, 10);

    /* Refuses a file that does not fit the counts before anything is made for them. */
    bed_answer a = bed_read_f64(file, length, animals, markers, true, NULL, 0, NULL, 0, 0.0, false, NULL, 0);
    if (a.number) return refuse(a);

    int64_t *iids = calloc(animals + 1, sizeof *iids), *sids = calloc(markers + 1, sizeof *sids);
    double *stats = calloc(markers + 1, BED_STATS_PER_MARKER * sizeof *stats);
    double *val = calloc(animals * markers + 1, sizeof *val);
    if (!iids || !sids || !stats || !val) {
        fprintf(stderr, "no memory\n");
        return 2;
    }
    bed_index_all(animals, iids, animals);
    bed_index_all(markers, sids, markers);
    a = bed_read_standardised_f64(file, length, animals, markers, true, iids, animals, sids, markers, true, val, animals * markers,
                                  stats, BED_STATS_PER_MARKER * markers);
    if (a.number) return refuse(a);

    for (size_t m = 0; m < markers; m++) {
        const double *record = stats + BED_STATS_PER_MARKER * m;
        printf("marker %zu: mean %.6f, deviation %.6f, %.0f observed\n", m, record[0], record[1], record[2]);
    }
    for (size_t i = 0; i < animals; i++) {
        printf("animal %zu:", i);
        for (size_t m = 0; m < markers; m++) printf(" %9.6f", val[i * markers + m]);
        printf("\n");
    }
    free(iids), free(sids), free(stats), free(val), free(file);
    return 0;
}
