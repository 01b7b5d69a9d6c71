/* standardise: the standardised values and the statistics as two NumPy arrays. A marker's statistics are found from all its animals: in marker
 * order each part of the markers is one joined call; in animal order the statistics are found first, by parts of the markers, and then applied
 * by parts of the animals. */
#include <errno.h>
#include <math.h>
#include <stdio.h>
#include <stdlib.h>
#include <string.h>

#include "cli.h"

struct standardising {
    const struct herd *herd;
    double *val, *stats;
    double *room; /* for the values of a part of the markers, room_len for each thread that has one */
    size_t room_len;
};

static bed_answer joined_part(void *with, size_t start, size_t lines, size_t thread) {
    const struct standardising *s = with;
    const struct herd *h = s->herd;
    (void)thread;
    return bed_read_standardised_f64(h->bed.bytes.at, h->bed.bytes.len, h->animals, h->markers, h->options->is_a1_counted, h->iids, h->iid_len,
                                     h->sids + start, lines, false, s->val + start * h->iid_len, lines * h->iid_len,
                                     s->stats + start * BED_STATS_PER_MARKER, lines * BED_STATS_PER_MARKER);
}

static bed_answer find_part(void *with, size_t start, size_t lines, size_t thread) {
    const struct standardising *s = with;
    const struct herd *h = s->herd;
    double *val = s->room + thread * s->room_len;
    bed_answer a = bed_read_f64(h->bed.bytes.at, h->bed.bytes.len, h->animals, h->markers, h->options->is_a1_counted, h->iids, h->iid_len,
                                h->sids + start, lines, NAN, false, val, lines * h->iid_len);
    if (a.number) return a;
    return bed_impute_and_zero_mean_snps_f64(val, lines * h->iid_len, h->iid_len, lines, false, false, false, s->stats + start * BED_STATS_PER_MARKER,
                                             lines * BED_STATS_PER_MARKER);
}

static bed_answer apply_part(void *with, size_t start, size_t lines, size_t thread) {
    const struct standardising *s = with;
    const struct herd *h = s->herd;
    double *val = s->val + start * h->sid_len;
    (void)thread;
    bed_answer a = bed_read_f64(h->bed.bytes.at, h->bed.bytes.len, h->animals, h->markers, h->options->is_a1_counted, h->iids + start, lines, h->sids,
                                h->sid_len, NAN, true, val, lines * h->sid_len);
    if (a.number) return a;
    return bed_impute_and_zero_mean_snps_f64(val, lines * h->sid_len, lines, h->sid_len, true, true, true, s->stats,
                                             h->sid_len * BED_STATS_PER_MARKER);
}

/* A marker that is refused keeps the NaN that its statistics were made of. */
static bool is_refused(const struct standardising *s, size_t m) { return isnan(s->stats[m * BED_STATS_PER_MARKER]); }

/* Says 13, and names the markers on standard output, one a line, as --exclude takes them. */
static noreturn void refuse_markers(const struct standardising *s) {
    const struct herd *h = s->herd;
    size_t count = 0;
    for (size_t m = 0; m < h->sid_len; m++) count += is_refused(s, m);
    fprintf(stderr, "mungkelas: refused, %d: %s: %zu of %zu markers %s no call in the %zu %s read; standard output names %s\n", BED_NO_INDIVIDUALS,
            h->bed.path, count, h->sid_len, count == 1 ? "has" : "have", COUNTED(h->iid_len, "animal", "animals"), count == 1 ? "it" : "them");
    struct bytes bim = h->bim.bytes, name = {NULL, 0};
    size_t named = 0; /* lines of the .bim that are gone through */
    for (size_t m = 0; m < h->sid_len; m++) {
        size_t marker = (size_t)h->sids[m];
        if (!is_refused(s, m)) continue;
        while (h->bim.path && named <= marker) name = next_marker(&bim), named++;
        if (name.len) printf("%.*s\n", (int)name.len, (const char *)name.at);
        else printf("marker %zu, counted from 0\n", marker);
    }
    if (fflush(stdout)) fail("standard output: %s", strerror(errno));
    exit(1);
}

static void run(struct standardising *s, const char *doing, bool by_animals, bed_answer (*part)(void *, size_t, size_t, size_t)) {
    const struct herd *h = s->herd;
    const struct options *o = h->options;
    size_t lines = by_animals ? h->iid_len : h->sid_len, line = by_animals ? h->sid_len : h->iid_len;
    size_t a_part = lines_a_part(lines, line * sizeof(double), h->mode_1 == by_animals, o->threads);
    if (part == find_part) {
        s->room_len = (a_part < lines ? a_part : lines) * line;
        s->room = room_for(threads_used(lines, a_part, o->threads) * s->room_len, sizeof *s->room);
    }
    bed_answer a = run_parts(&(struct run){doing, o->quiet, lines, a_part, o->threads, part, s});
    free(s->room);
    s->room = NULL;
    if (a.number == BED_NO_INDIVIDUALS) refuse_markers(s);
    if (a.number) refuse(h, a);
}

/* OUT.stats.npy beside OUT or OUT.npy */
static char *stats_path(const char *out) {
    size_t len = strlen(out), end = len > 4 && !strcmp(out + len - 4, ".npy") ? len - 4 : len;
    char *path = joined(out, ".stats.npy");
    strcpy(path + end, ".stats.npy");
    return path;
}

void standardise(const struct herd *h) {
    const struct options *o = h->options;
    char *path = stats_path(o->out);
    size_t numbers = h->sid_len * BED_STATS_PER_MARKER;
    spare_own_files(h, o->out), spare_own_files(h, path);
    uint8_t *val = make_output(o->out, NPY_HEADER + h->iid_len * h->sid_len * sizeof(double));
    uint8_t *stats = make_output(path, NPY_HEADER + numbers * sizeof(double));
    write_npy_header(val, "<f8", !o->animal_order, h->iid_len, h->sid_len);
    write_npy_header(stats, "<f8", false, h->sid_len, BED_STATS_PER_MARKER);
    struct standardising s = {.herd = h, .val = (double *)(val + NPY_HEADER), .stats = (double *)(stats + NPY_HEADER)};
    for (size_t i = 0; i < numbers; i++) s.stats[i] = NAN;
    if (o->animal_order) {
        run(&s, "statistics", false, find_part);
        run(&s, "standardising", true, apply_part);
    } else {
        run(&s, "standardising", false, joined_part);
    }
    keep_outputs();
    if (!o->quiet) {
        printf("%s: %zu %s by %zu %s, f64, order %c\n", o->out, COUNTED(h->iid_len, "animal", "animals"), COUNTED(h->sid_len, "marker", "markers"),
               o->animal_order ? 'C' : 'F');
        printf("%s: the statistics, %zu %s by %d, f64, order C\n", path, COUNTED(h->sid_len, "marker", "markers"), BED_STATS_PER_MARKER);
    }
    free(path);
}
