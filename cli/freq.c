/* freq: the counts of each marker's calls, and the first allele's frequency, as a table of text. */
#include <stdio.h>
#include <stdlib.h>
#include <string.h>

#include "cli.h"

#define LONGEST "0.000123457" /* no frequency is longer as %.6g: it is 0 or at least 2^-64 */

struct counting {
    const struct herd *herd;
    uint64_t *counts;
};

static bed_answer count_part(void *with, size_t start, size_t lines, size_t thread) {
    const struct counting *c = with;
    const struct herd *h = c->herd;
    (void)thread;
    return bed_count_calls(h->bed.bytes.at, h->bed.bytes.len, h->animals, h->markers, h->iids, h->iid_len, h->sids + start, lines,
                           c->counts + start * BED_COUNTS_PER_MARKER, lines * BED_COUNTS_PER_MARKER);
}

struct table {
    uint8_t *at; /* null: it is only measured */
    size_t len, room;
};

static void add(struct table *t, const void *from, size_t len) {
    if (t->at && len > t->room - t->len) fail("the .bim file was changed by someone else");
    if (t->at) memcpy(t->at + t->len, from, len);
    t->len += len;
}

/* A field of the .bim and the tab after it, with another word where the field is absent. */
static void add_field(struct table *t, struct bytes field, const char *absent) {
    add(t, field.len ? (const char *)field.at : absent, field.len ? field.len : strlen(absent));
    add(t, "\t", 1);
}

/* Writes n in decimal digits from `to` on, and answers where they end. */
static char *put_number(char *to, uint64_t n) {
    char digits[20]; /* the last one first */
    size_t len = 0;
    do digits[len++] = (char)('0' + n % 10);
    while (n /= 10);
    while (len) *to++ = digits[--len];
    return to;
}

/* The counts and the frequency, as text in `line`; answers its length. */
static size_t numbers(char line[128], const uint64_t *n, const char *frequency) {
    static const size_t order[BED_COUNTS_PER_MARKER] = {2, 1, 0, 3};
    char *to = line;
    for (size_t i = 0; i < BED_COUNTS_PER_MARKER; i++) to = put_number(to, n[order[i]]), *to++ = '\t';
    to = stpcpy(to, frequency), *to++ = '\n';
    return (size_t)(to - line);
}

static void add_numbers(struct table *t, const uint64_t *n) {
    char frequency[32] = "NA", line[128];
    if (n[0] + n[1] + n[2]) snprintf(frequency, sizeof frequency, "%.6g", (double)(2 * n[2] + n[1]) / (double)(2 * (n[0] + n[1] + n[2])));
    add(t, line, numbers(line, n, frequency));
}

/* Lays the table out in the room at `at`, and answers its length; without counts and with `at` null, what that is at most. */
static size_t lay_out(const struct herd *h, const uint64_t *counts, uint8_t *at, size_t room) {
    static const char head[] = "CHR\tSNP\tA1\tA2\tHOM_A1\tHET\tHOM_A2\tMISSING\tA1_FREQ\n";
    struct table t = {at, 0, room};
    struct bytes bim = h->bim.bytes, fields[BIM_FIELDS] = {{0}};
    size_t line = 0; /* lines of the .bim that are gone through */
    const uint64_t most[BED_COUNTS_PER_MARKER] = {h->iid_len, h->iid_len, h->iid_len, h->iid_len};
    char longest[128];
    size_t longest_len = numbers(longest, most, LONGEST);
    add(&t, head, sizeof head - 1);
    for (size_t m = 0; m < h->sid_len; m++) {
        size_t marker = (size_t)h->sids[m];
        char number[32] = "";
        while (h->bim.path && line <= marker) next_fields(&bim, fields), line++;
        if (!fields[1].len) *put_number(number, marker) = 0;
        add_field(&t, fields[0], "."), add_field(&t, fields[1], number), add_field(&t, fields[4], "."), add_field(&t, fields[5], ".");
        if (counts) add_numbers(&t, counts + m * BED_COUNTS_PER_MARKER);
        else add(&t, longest, longest_len);
    }
    return t.len;
}

void freq(const struct herd *h) {
    const struct options *o = h->options;
    spare_own_files(h, o->out);
    size_t room = lay_out(h, NULL, NULL, 0);
    uint8_t *out = make_output(o->out, room);
    struct counting counting = {h, room_for(h->sid_len, BED_COUNTS_PER_MARKER * sizeof(uint64_t))};
    size_t a_part = lines_a_part(h->sid_len, h->iid_len / 4 + 1, !h->mode_1, o->threads);
    bed_answer a = run_parts(&(struct run){"counting", o->quiet, h->sid_len, a_part, o->threads, count_part, &counting});
    if (a.number) refuse(h, a);
    cut_output(lay_out(h, counting.counts, out, room));
    free(counting.counts);
    keep_outputs();
    if (!o->quiet)
        printf("%s: counts of %zu %s at %zu %s\n", o->out, COUNTED(h->iid_len, "animal", "animals"), COUNTED(h->sid_len, "marker", "markers"));
}
