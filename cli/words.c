/* What is said when a run is not done. */
#include <stdarg.h>
#include <stdio.h>
#include <stdlib.h>

#include "cli.h"

void fail(const char *format, ...) {
    va_list rest;
    va_start(rest, format);
    fprintf(stderr, "mungkelas: ");
    vfprintf(stderr, format, rest);
    fprintf(stderr, "\n");
    va_end(rest);
    exit(2);
}

/* For the refusals that no file, count or list of names brings about. */
static const char *const words[] = {
    [BED_DONE] = "done",
    [BED_IID_INDEX_TOO_BIG] = "an entry of the animal list is out of range",
    [BED_SID_INDEX_TOO_BIG] = "an entry of the marker list is out of range",
    [BED_BAD_VALUE] = "a value is none of 0, 1, 2, missing",
    [BED_BOOL_ARRAY_VECTOR_WRONG_LENGTH] = "there are not as many marks as items",
    [BED_STEP_ZERO] = "the step is 0",
    [BED_START_GREATER_THAN_COUNT] = "the start is out of range",
    [BED_END_GREATER_THAN_COUNT] = "the end is out of range",
    [BED_START_GREATER_THAN_END] = "the start is above the end",
    [BED_NO_INDIVIDUALS] = "a marker has no call",
    [BED_INDEX_MISMATCH] = "the value or counts buffer has the wrong length",
    [BED_ENCODING_LENGTH] = "the packed buffer has the wrong length",
    [BED_STATS_MISMATCH] = "the statistics buffer has the wrong length",
    [BED_LIST_TOO_SHORT] = "the list buffer is too short",
    [BED_CANNOT_CONVERT_BETA_TO_FROM_F64] = "this is no piece of the product",
};

/* The two counts, and where they are from. */
static void say_counts(const struct herd *h) {
    fprintf(stderr, "%zu %s (%s) and %zu %s (%s)", COUNTED(h->animals, "animal", "animals"), h->fam.path ? h->fam.path : "--animals",
            COUNTED(h->markers, "marker", "markers"), h->bim.path ? h->bim.path : "--markers");
}

void refuse(const struct herd *h, bed_answer a) {
    const char *path = h->bed.path;
    const uint8_t *file = h->bed.bytes.at;
    size_t len = h->bed.bytes.len;
    fprintf(stderr, "mungkelas: refused, %u: ", (unsigned)a.number);
    if (a.number == BED_READ_ERROR) {
        fprintf(stderr, "%s has %zu %s; a .bed file has at least 3", path, COUNTED(len, "byte", "bytes"));
    } else if (a.number == BED_ILL_FORMED && bed_open_and_check(file, len).number) {
        fprintf(stderr, "%s begins with %02X %02X; a .bed file begins with 6C 1B", path, file[0], file[1]);
    } else if (a.number == BED_ILL_FORMED) {
        bool mode_1 = bed_open_and_check(file, len).first == 1;
        size_t items = mode_1 ? h->animals : h->markers, blocks = mode_1 ? h->markers : h->animals;
        fprintf(stderr, "%s has %zu bytes; a file of mode %d with ", path, len, mode_1);
        say_counts(h);
        fprintf(stderr, " has %zu", 3 + (size_t)bed_try_div_4(items, blocks).first * blocks);
    } else if (a.number == BED_BAD_MODE) {
        fprintf(stderr, "%s has %02X as its third byte, the mode; 00 or 01 is expected", path, file[2]);
    } else if (a.number == BED_INDEXES_TOO_BIG_FOR_FILES) {
        fprintf(stderr, "%s has %zu bytes; a file with ", path, len);
        say_counts(h);
        fprintf(stderr, " would have more than 2^64 - 1");
    } else if (a.number == BED_COUNT_TOO_LARGE) {
        fprintf(stderr, "%s: ", path);
        say_counts(h);
        fprintf(stderr, ": a count is at most 2^63 - 1");
    } else {
        bool known = a.number < sizeof words / sizeof *words && words[a.number];
        fprintf(stderr, "%s: %s (%lld, %lld)", path, known ? words[a.number] : "the core says no more", (long long)a.first, (long long)a.second);
    }
    fprintf(stderr, "\n");
    exit(1);
}
