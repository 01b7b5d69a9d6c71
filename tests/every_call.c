/* Uses every call of the header and compares each answer and every buffer with document 01's sentences, written out plainly here: on its
 * worked examples, and on drawn inputs, good ones and damaged ones. Prints a line for each call with the refusals that were seen. */
#include <math.h>
#include <stdio.h>
#include <stdlib.h>
#include <string.h>

#include "mungkelas.h"

/* ---- drawing, counting, comparing */

static uint64_t state = 20240229;

static uint64_t draw(uint64_t below) {
    state += 0x9e3779b97f4a7c15;
    uint64_t z = state;
    z = (z ^ (z >> 30)) * 0xbf58476d1ce4e5b9;
    z = (z ^ (z >> 27)) * 0x94d049bb133111eb;
    return (z ^ (z >> 31)) % below;
}

static const char *call;
static unsigned long calls, all_calls, seen[21];

static void begin(const char *name) {
    call = name;
    calls = 0;
    memset(seen, 0, sizeof seen);
}

static void end(void) {
    printf("%-34s %6lu calls; refusals", call, calls);
    for (int n = 1; n <= 20; n++)
        if (seen[n]) printf(" %d", n);
    printf("\n");
    all_calls += calls;
}

static void fail(const char *what) {
    printf("%s: %s differs at call %lu\n", call, what, calls);
    exit(1);
}

/* Of the refusals seen since `begin`: that one was given, or never was. */
static void expect(int number, bool given) {
    if (!seen[number] != given) return;
    printf("%s: %d was %sgiven\n", call, number, given ? "not " : "");
    exit(1);
}

static bed_answer answer(uint64_t number, int64_t first, int64_t second) {
    bed_answer a = {number, first, second};
    return a;
}

static void same(bed_answer got, bed_answer want) {
    calls++;
    if (got.number <= 20) seen[got.number]++;
    if (got.number != want.number || got.first != want.first || got.second != want.second) {
        printf("got %lu %ld %ld, want %lu %ld %ld\n", got.number, got.first, got.second, want.number, want.first, want.second);
        fail("the answer");
    }
}

static void same_floats(const double *got, const double *want, size_t n, const char *what) {
    for (size_t i = 0; i < n; i++)
        if (memcmp(&got[i], &want[i], 8) && !(isnan(got[i]) && isnan(want[i]))) fail(what);
}

#define ROOM 512
#define TOO_LARGE ((size_t)1 << 63)

/* ---- document 01's sentences */

static size_t width_of(size_t count) { return count == 0 ? 0 : (count - 1) / 4 + 1; }

/* 4, in exact arithmetic */
static bool too_big(size_t items, size_t blocks) {
    return (unsigned __int128)width_of(items) * blocks + 3 > (unsigned __int128)UINT64_MAX;
}

static bool good(size_t count, int64_t e) { return e < 0 ? (uint64_t)(-1 - e) < count : (uint64_t)e < count; }

static size_t means(size_t count, int64_t e) { return e < 0 ? count - (size_t)(-1 - e) - 1 : (size_t)e; }

static bool bad_entry(size_t count, const int64_t *list, size_t n, int64_t *entry) {
    for (size_t i = 0; i < n; i++)
        if (!good(count, list[i])) return *entry = list[i], true;
    return false;
}

static bed_answer accept(const uint8_t *file, size_t len, size_t iids, size_t sids) {
    if (len < 3) return answer(1, 0, 0);
    if (file[0] != 0x6C || file[1] != 0x1B) return answer(2, 0, 0);
    if (file[2] > 1) return answer(3, 0, 0);
    size_t items = file[2] ? iids : sids, blocks = file[2] ? sids : iids;
    if (too_big(items, blocks)) return answer(4, 0, 0);
    return answer(len == 3 + width_of(items) * blocks ? 0 : 2, 0, 0);
}

static int code_of(const uint8_t *file, size_t iids, size_t sids, size_t a, size_t m) {
    size_t block = file[2] ? m : a, item = file[2] ? a : m, width = width_of(file[2] ? iids : sids);
    return file[3 + block * width + item / 4] >> (2 * (item % 4)) & 3;
}

static double value_of(int code, bool flag, double missing) {
    return code == 1 ? missing : code == 2 ? 1 : (code == 0) == flag ? 2 : 0;
}

/* the code of a value, or -1 */
static int coded(double v, bool flag, double missing) {
    if (v == 0) return flag ? 3 : 0;
    if (v == 1) return 2;
    if (v == 2) return flag ? 0 : 3;
    return v == missing || (isnan(v) && isnan(missing)) ? 1 : -1;
}

static size_t place(bool animal_order, size_t iids, size_t sids, size_t a, size_t m) { return animal_order ? a * sids + m : m * iids + a; }

struct reading {
    uint8_t file[ROOM];
    size_t len, iids, sids, iid_len, sid_len, val_len;
    int64_t iid_index[16], sid_index[16];
    bool flag, order;
};

/* The checks of reading; 15 asks for the product of the list lengths. In either mode 5 is the animal list's and 6 the marker list's (document 02). */
static bed_answer read_checks(const struct reading *r, size_t val_len, bool stats_fit) {
    int64_t e;
    if (r->iids >= TOO_LARGE || r->sids >= TOO_LARGE) return answer(18, 0, 0);
    if (val_len != r->iid_len * r->sid_len) return answer(15, 0, 0);
    if (!stats_fit) return answer(17, 0, 0);
    bed_answer a = accept(r->file, r->len, r->iids, r->sids);
    if (a.number) return a;
    if (bad_entry(r->iids, r->iid_index, r->iid_len, &e)) return answer(5, e, 0);
    if (bad_entry(r->sids, r->sid_index, r->sid_len, &e)) return answer(6, e, 0);
    return answer(0, 0, 0);
}

static void read_values(const struct reading *r, double missing, double *val) {
    for (size_t k = 0; k < r->iid_len; k++)
        for (size_t m = 0; m < r->sid_len; m++) {
            int code = code_of(r->file, r->iids, r->sids, means(r->iids, r->iid_index[k]), means(r->sids, r->sid_index[m]));
            val[place(r->order, r->iid_len, r->sid_len, k, m)] = value_of(code, r->flag, missing);
        }
}

/* How many of the listed animals' calls at each listed marker are 0, 1 and 2 copies of the first allele, and missing: four numbers a marker. */
static void count_plainly(const uint8_t *file, size_t iids, size_t sids, const int64_t *iid_index, size_t iid_len, const int64_t *sid_index,
                          size_t sid_len, uint64_t *counts) {
    memset(counts, 0, 4 * sid_len * sizeof *counts);
    for (size_t m = 0; m < sid_len; m++)
        for (size_t k = 0; k < iid_len; k++) {
            int code = code_of(file, iids, sids, means(iids, iid_index[k]), means(sids, sid_index[m]));
            counts[4 * m + (size_t)value_of(code, true, 3)]++;
        }
}

/* How many values of a marker are not NaN. */
static size_t observed(const double *val, size_t iids, size_t sids, bool order, size_t m) {
    size_t n = 0;
    for (size_t i = 0; i < iids; i++) n += !isnan(val[place(order, iids, sids, i, m)]);
    return n;
}

/* Standardises, and answers 0, 13 or 14 with the lowest refused marker. A record is mean, deviation and observed count (document 02). */
static bed_answer standardise(double *val, size_t iids, size_t sids, bool order, bool apply, bool lent, double *stats) {
    bed_answer a = answer(0, 0, 0);
    bool refused[ROOM] = {false};
    for (size_t m = 0; m < sids && !lent; m++) {
        double count = 0, sum = 0, squares = 0;
        for (size_t i = 0; i < iids; i++) {
            double v = val[place(order, iids, sids, i, m)];
            if (!isnan(v)) count += 1, sum += v, squares += v * v;
        }
        double mean = sum / count, variance = squares / count - mean * mean;
        refused[m] = count == 0 || isnan(mean);
        if (refused[m] && a.number == 0) a = answer(count == 0 ? 13 : 14, (int64_t)m, 0);
        if (refused[m]) continue;
        stats[3 * m] = mean, stats[3 * m + 1] = isnan(sqrt(variance)) || sqrt(variance) <= 0 ? INFINITY : sqrt(variance);
        stats[3 * m + 2] = (double)observed(val, iids, sids, order, m);
    }
    for (size_t m = 0; m < sids && apply && !(order && a.number); m++)
        for (size_t i = 0; i < iids && !refused[m]; i++) {
            double *v = &val[place(order, iids, sids, i, m)];
            *v = isnan(*v) || isinf(stats[3 * m + 1]) ? 0 : (*v - stats[3 * m]) * (1 / stats[3 * m + 1]);
        }
    return a;
}

/* ---- drawn inputs */

static size_t draw_count(void) { return draw(60) ? draw(10) : draw(2) ? TOO_LARGE + draw(3) : TOO_LARGE - 1 - draw(3); }

static size_t draw_list(size_t count, int64_t *list) {
    size_t n = draw(8);
    if (count == 0 && draw(8)) n = 0;
    for (size_t i = 0; i < n; i++)
        list[i] = count == 0 || count > 100 || draw(40) == 0 ? (int64_t)draw(40) - 20 : (int64_t)draw(2 * count) - (int64_t)count;
    return n;
}

static void draw_reading(struct reading *r) {
    r->iids = draw_count(), r->sids = draw_count();
    r->flag = draw(2), r->order = draw(2);
    for (size_t i = 0; i < ROOM; i++) r->file[i] = (uint8_t)draw(256);
    uint8_t mode = draw(40) ? (uint8_t)draw(2) : (uint8_t)draw(256);
    size_t items = mode ? r->iids : r->sids, blocks = mode ? r->sids : r->iids;
    r->file[0] = draw(60) ? 0x6C : 0x6D, r->file[1] = draw(60) ? 0x1B : 0x1A, r->file[2] = mode;
    r->len = 3 + (items < 100 && blocks < 100 ? width_of(items) * blocks : 0);
    if (draw(30) == 0) r->len += 1;
    if (draw(30) == 0) r->len -= 1 + draw(3) % r->len;
    r->iid_len = draw_list(r->iids, r->iid_index), r->sid_len = draw_list(r->sids, r->sid_index);
    r->val_len = r->iid_len * r->sid_len + (draw(40) == 0);
}

/* Mostly four a marker; other products too. */
static size_t draw_counts_len(size_t iids, size_t sids) {
    const size_t others[] = {4 * sids + 1, sids ? 4 * sids - 1 : 0, 3 * sids, 4 * iids, iids * sids};
    size_t n = draw(24);
    return n < 5 ? others[n] : BED_COUNTS_PER_MARKER * sids;
}

/* Mostly three a marker; two a marker too. */
static size_t draw_stats_len(size_t sids) {
    size_t n = draw(20);
    return n == 0 ? 3 * sids + 1 : n == 1 && sids ? 3 * sids - 1 : n == 2 ? 2 * sids : BED_STATS_PER_MARKER * sids;
}

static double draw_value(void) {
    static const double wild[] = {0, -0.0, 1, 2, 3, 0.5, 1e300, -1e300, 1e-300, INFINITY, -INFINITY, NAN};
    return draw(12) ? (draw(5) ? (double)draw(3) : NAN) : wild[draw(12)];
}

/* ---- the calls */

static void files_and_widths(void) {
    struct reading r;
    begin("bed_open_and_check");
    for (int i = 0; i < 2000; i++) {
        draw_reading(&r);
        if (draw(10) == 0) r.len = draw(3);
        bed_answer want = r.len < 3 ? answer(1, 0, 0) : r.file[0] != 0x6C || r.file[1] != 0x1B ? answer(2, 0, 0) : answer(0, r.file[2], 0);
        same(bed_open_and_check(r.file, r.len), want);
    }
    same(bed_open_and_check(NULL, 0), answer(1, 0, 0));
    end();

    begin("bed_try_div_4");
    for (int i = 0; i < 2000; i++) {
        size_t iids = draw_count(), sids = draw_count();
        bed_answer want = iids >= TOO_LARGE || sids >= TOO_LARGE ? answer(18, 0, 0)
                          : too_big(iids, sids)                  ? answer(4, 0, 0)
                                                                 : answer(0, (int64_t)width_of(iids), 0);
        same(bed_try_div_4(iids, sids), want);
    }
    same(bed_try_div_4(TOO_LARGE - 1, 8), answer(4, 0, 0));
    same(bed_try_div_4(TOO_LARGE - 1, 7), answer(0, (int64_t)1 << 61, 0));
    end();
}

/* "The byte span of a list is its lowest i/4, rounded down, and the length highest − lowest + 1, or (0, 0) when empty." */
static bed_answer span_of(size_t count, const int64_t *list, size_t n) {
    int64_t e;
    if (count >= TOO_LARGE) return answer(18, 0, 0);
    if (bad_entry(count, list, n, &e)) return answer(5, e, 0);
    if (n == 0) return answer(0, 0, 0);
    size_t lowest = SIZE_MAX, highest = 0;
    for (size_t k = 0; k < n; k++) {
        size_t byte = means(count, list[k]) / 4;
        if (byte < lowest) lowest = byte;
        if (byte > highest) highest = byte;
    }
    return answer(0, (int64_t)lowest, (int64_t)(highest - lowest + 1));
}

static void spans(void) {
    enum { LONG = 1000000 };
    static int64_t list[LONG];
    begin("bed_byte_span");
    for (int i = 0; i < 2000; i++) {
        size_t count = draw_count(), n = draw_list(count, list);
        same(bed_byte_span(count, list, n), span_of(count, list, n));
    }

    /* entries at the ends of what they can be, by counts at the ends of theirs: each alone, and each after each other */
    static const int64_t entries[] = {INT64_MIN, INT64_MIN + 1, INT64_MIN + 2, -2, -1, 0, 1, INT64_MAX - 2, INT64_MAX - 1, INT64_MAX};
    static const size_t counts[] = {0, 1, 2, 9, TOO_LARGE - 2, TOO_LARGE - 1, TOO_LARGE, SIZE_MAX};
    for (size_t c = 0; c < sizeof counts / sizeof *counts; c++)
        for (size_t a = 0; a < sizeof entries / sizeof *entries; a++) {
            same(bed_byte_span(counts[c], &entries[a], 1), span_of(counts[c], &entries[a], 1));
            for (size_t b = 0; b < sizeof entries / sizeof *entries; b++) {
                list[0] = entries[a], list[1] = entries[b];
                same(bed_byte_span(counts[c], list, 2), span_of(counts[c], list, 2));
            }
        }

    /* 1,000,000 entries, some from the end; then with the lowest byte last and the highest first, the other way about, and a bad entry */
    const size_t count = 6000001;
    for (size_t k = 0; k < LONG; k++) {
        int64_t i = (int64_t)(1000 + draw(count - 2000));
        list[k] = draw(2) ? i : i - (int64_t)count;
    }
    same(bed_byte_span(count, list, LONG), span_of(count, list, LONG));
    list[0] = -1, list[LONG - 1] = 7;
    same(bed_byte_span(count, list, LONG), answer(0, 1, 1500000));
    list[0] = -(int64_t)count, list[LONG - 1] = (int64_t)count - 5;
    same(bed_byte_span(count, list, LONG), answer(0, 0, 1500000));
    list[LONG - 1] = -(int64_t)count - 1;
    same(bed_byte_span(count, list, LONG), answer(5, -6000002, 0));
    list[LONG / 2] = (int64_t)count;
    same(bed_byte_span(count, list, LONG), answer(5, 6000001, 0));
    end();
}

/* By its mode: file F of document 01 and the file of mode 0 with the same calls, 5 animals and 2 markers. */
static const uint8_t f_files[2][8] = {{0x6C, 0x1B, 0, 0x0C, 0x0D, 0x0A, 3, 8}, {0x6C, 0x1B, 1, 0xE4, 0, 0x2F, 2}};
static const size_t f_len[2] = {8, 7};

/* The count of calls beside the plain one. The buffer is compared past its length too, and it is as it was at a refusal. */
static void same_counts(const uint8_t *file, size_t len, size_t iids, size_t sids, const int64_t *iid_index, size_t iid_len,
                        const int64_t *sid_index, size_t sid_len, size_t counts_len, bed_answer a) {
    static uint64_t counts[4200], want[4200];
    for (size_t k = 0; k < 4200; k++) counts[k] = want[k] = (k + 1) * 0x9e3779b97f4a7c15;
    if (a.number == 0) count_plainly(file, iids, sids, iid_index, iid_len, sid_index, sid_len, want);
    same(bed_count_calls(file, len, iids, sids, iid_index, iid_len, sid_index, sid_len, counts, counts_len), a);
    if (memcmp(counts, want, sizeof counts)) fail("a count");
}

/* The same lists are refused alike. */
static void lists_of_either_mode(void) {
    static const struct {
        size_t iid_len, sid_len;
        int64_t iid_index[3], sid_index[3];
        uint64_t number;
        int64_t entry;
    } rows[] = {
        /* a bad animal: past the end, before the front, after good ones; the first of two */
        {1, 1, {5}, {0}, 5, 5}, {1, 1, {-6}, {1}, 5, -6}, {3, 2, {4, -5, 5}, {-2, 1}, 5, 5}, {3, 1, {0, -6, 5}, {0}, 5, -6},
        /* a bad marker, which would be a good animal */
        {1, 1, {0}, {2}, 6, 2}, {1, 1, {4}, {-3}, 6, -3}, {2, 3, {-5, 4}, {-2, 1, 3}, 6, 3}, {1, 3, {0}, {1, -5, 4}, 6, -5},
        /* both bad; the same entry in both; an entry that is good for one list alone */
        {1, 1, {5}, {2}, 5, 5}, {2, 2, {0, 7}, {9, 2}, 5, 7}, {1, 1, {9}, {9}, 5, 9}, {2, 3, {4, -6}, {4, 2, 1}, 5, -6},
        /* one list bad, the other empty */
        {1, 0, {5}, {0}, 5, 5}, {2, 0, {4, -6}, {0}, 5, -6}, {0, 1, {0}, {2}, 6, 2}, {0, 2, {0}, {1, -3}, 6, -3},
        /* good animals that would be bad markers */
        {3, 1, {2, 4, -5}, {1}, 0, 0}, {2, 2, {-3, 3}, {-2, 1}, 0, 0}, {1, 0, {4}, {0}, 0, 0},
    };
    struct reading r = {.iids = 5, .sids = 2};
    begin("lists of either mode");
    for (size_t i = 0; i < sizeof rows / sizeof *rows; i++)
        for (int choice = 0; choice < 8; choice++) {
            double val[9], want[9], stats[9], want_stats[9];
            int8_t small[9];
            int mode = choice & 1;
            bed_answer a = answer(rows[i].number, rows[i].entry, 0);
            memcpy(r.file, f_files[mode], 8), r.len = f_len[mode];
            memcpy(r.iid_index, rows[i].iid_index, sizeof rows[i].iid_index), memcpy(r.sid_index, rows[i].sid_index, sizeof rows[i].sid_index);
            r.iid_len = rows[i].iid_len, r.sid_len = rows[i].sid_len, r.val_len = r.iid_len * r.sid_len;
            r.flag = choice >> 1 & 1, r.order = choice >> 2;
            for (size_t k = 0; k < 9; k++) val[k] = want[k] = small[k] = 9, stats[k] = want_stats[k] = 7;
            same_counts(r.file, r.len, 5, 2, r.iid_index, r.iid_len, r.sid_index, r.sid_len, 4 * r.sid_len, a);
            if (a.number == 0) read_values(&r, -127, want);
            same(bed_read_i8(r.file, r.len, 5, 2, r.flag, r.iid_index, r.iid_len, r.sid_index, r.sid_len, -127, r.order, small, r.val_len), a);
            for (size_t k = 0; k < 9; k++)
                if (small[k] != want[k]) fail("a value");
            same(bed_read_f64(r.file, r.len, 5, 2, r.flag, r.iid_index, r.iid_len, r.sid_index, r.sid_len, -127, r.order, val, r.val_len), a);
            same_floats(val, want, 9, "a value");
            for (size_t k = 0; k < 9; k++) val[k] = want[k] = 9;
            if (a.number == 0) {
                read_values(&r, NAN, want);
                a = standardise(want, r.iid_len, r.sid_len, r.order, true, false, want_stats);
            }
            same(bed_read_standardised_f64(r.file, r.len, 5, 2, r.flag, r.iid_index, r.iid_len, r.sid_index, r.sid_len, r.order, val, r.val_len, stats, 3 * r.sid_len), a);
            same_floats(val, want, 9, "a value");
            same_floats(stats, want_stats, 9, "a statistic");
        }
    end();
}

static void reading_calls(void) {
    struct reading r;
    double val[ROOM], want[ROOM];
    int8_t small[ROOM];
    begin("bed_read_f64");
    for (int i = 0; i < 20000; i++) {
        draw_reading(&r);
        double missing = draw(2) ? NAN : draw_value();
        for (size_t k = 0; k < ROOM; k++) val[k] = want[k] = 9;
        bed_answer a = read_checks(&r, r.val_len, true);
        if (a.number == 0) read_values(&r, missing, want);
        same(bed_read_f64(r.file, r.len, r.iids, r.sids, r.flag, r.iid_index, r.iid_len, r.sid_index, r.sid_len, missing, r.order, val, r.val_len), a);
        same_floats(val, want, ROOM, "a value");
    }
    end();

    begin("bed_read_i8");
    for (int i = 0; i < 20000; i++) {
        draw_reading(&r);
        int8_t missing = (int8_t)((int)draw(256) - 128);
        int8_t old = (int8_t)draw(100);
        memset(small, old, ROOM);
        for (size_t k = 0; k < ROOM; k++) want[k] = old;
        bed_answer a = read_checks(&r, r.val_len, true);
        if (a.number == 0) read_values(&r, missing, want);
        same(bed_read_i8(r.file, r.len, r.iids, r.sids, r.flag, r.iid_index, r.iid_len, r.sid_index, r.sid_len, missing, r.order, small, r.val_len), a);
        for (size_t k = 0; k < ROOM; k++) val[k] = small[k];
        same_floats(val, want, ROOM, "a value");
    }
    end();

    begin("bed_read_standardised_f64");
    for (int i = 0; i < 20000; i++) {
        double stats[64], want_stats[64];
        draw_reading(&r);
        size_t stats_len = draw_stats_len(r.sid_len);
        for (size_t k = 0; k < ROOM; k++) val[k] = want[k] = 9;
        for (size_t k = 0; k < 64; k++) stats[k] = want_stats[k] = 7;
        bed_answer a = read_checks(&r, r.val_len, stats_len == 3 * r.sid_len);
        if (a.number == 0) {
            read_values(&r, NAN, want);
            a = standardise(want, r.iid_len, r.sid_len, r.order, true, false, want_stats);
        }
        same(bed_read_standardised_f64(r.file, r.len, r.iids, r.sids, r.flag, r.iid_index, r.iid_len, r.sid_index, r.sid_len, r.order, val, r.val_len, stats, stats_len), a);
        same_floats(val, want, ROOM, "a value");
        same_floats(stats, want_stats, 64, "a statistic");
    }
    expect(13, true), expect(14, false);
    end();

    lists_of_either_mode();

    begin("bed_canonical");
    for (int i = 0; i < 20000; i++) {
        uint8_t out[ROOM], want_out[ROOM];
        draw_reading(&r);
        memset(out, 0xAA, ROOM), memset(want_out, 0xAA, ROOM);
        size_t out_len = 3 + (r.iids < 100 && r.sids < 100 ? width_of(r.iids) * r.sids : 0) + (draw(40) == 0);
        bed_answer a = r.iids >= TOO_LARGE || r.sids >= TOO_LARGE ? answer(18, 0, 0) : accept(r.file, r.len, r.iids, r.sids);
        if (a.number == 0 && too_big(r.iids, r.sids)) a = answer(4, 0, 0);
        if (a.number == 0 && out_len != 3 + width_of(r.iids) * r.sids) a = answer(16, 0, 0);
        if (a.number == 0) {
            memset(want_out, 0, out_len);
            want_out[0] = 0x6C, want_out[1] = 0x1B, want_out[2] = 1;
            for (size_t m = 0; m < r.sids && r.iids; m++)
                for (size_t k = 0; k < r.iids; k++)
                    want_out[3 + m * width_of(r.iids) + k / 4] |= (uint8_t)(code_of(r.file, r.iids, r.sids, k, m) << (2 * (k % 4)));
        }
        same(bed_canonical(r.file, r.len, r.iids, r.sids, out, out_len), a);
        if (memcmp(out, want_out, ROOM)) fail("a byte");
    }
    end();
}

/* Ways through all of a file or most of it. */
enum way { FILE_ORDER, FROM_THE_END, BACKWARD, NO_FIRST, NO_LAST, SECOND_FIRST, EACH_TWICE, LAST_ALONE, WAYS };

static size_t list_by(enum way way, size_t count, int64_t *list) {
    size_t n = way == EACH_TWICE ? 2 * count : count && (way == NO_FIRST || way == NO_LAST) ? count - 1 : count;
    for (size_t k = 0; k < n; k++) {
        int64_t i = (int64_t)k, c = (int64_t)count;
        const int64_t entries[WAYS] = {i, i - c, c - 1 - i, i + 1, i, i, i / 2, -1};
        list[k] = entries[way];
    }
    if (way == SECOND_FIRST && count > 1) list[0] = 1, list[1] = 0;
    return n;
}

static void counting(void) {
    enum { MANY = 70001, MARKERS = 1000 };
    static uint8_t file[3 + MANY];
    static int64_t iid_index[2 * MANY], sid_index[MARKERS];
    struct reading r;
    begin("bed_count_calls");
    for (int i = 0; i < 20000; i++) {
        draw_reading(&r);
        size_t counts_len = draw_counts_len(r.iid_len, r.sid_len);
        bed_answer a = read_checks(&r, r.iid_len * r.sid_len + (counts_len != 4 * r.sid_len), true);
        same_counts(r.file, r.len, r.iids, r.sids, r.iid_index, r.iid_len, r.sid_index, r.sid_len, counts_len, a);
    }

    /* lists of whole files, whose pads are any bits */
    for (size_t iids = 0; iids < 20; iids++)
        for (size_t sids = 0; sids < 10; sids++)
            for (int way = 0; way < 2 * WAYS * WAYS; way++) {
                int mode = way & 1;
                size_t len = 3 + width_of(mode ? iids : sids) * (mode ? sids : iids);
                for (size_t k = 3; k < len; k++) file[k] = (uint8_t)draw(256);
                file[0] = 0x6C, file[1] = 0x1B, file[2] = (uint8_t)mode;
                size_t iid_len = list_by((enum way)(way / 2 % WAYS), iids, iid_index), sid_len = list_by((enum way)(way / 2 / WAYS), sids, sid_index);
                same_counts(file, len, iids, sids, iid_index, iid_len, sid_index, sid_len, 4 * sid_len, answer(0, 0, 0));
            }

    /* every byte as the block of one to four animals */
    for (size_t iids = 1; iids < 5; iids++) {
        for (size_t k = 0; k < 256; k++) file[3 + k] = (uint8_t)k;
        file[2] = 1, list_by(FILE_ORDER, iids, iid_index), list_by(FILE_ORDER, 256, sid_index);
        same_counts(file, 259, iids, 256, iid_index, iids, sid_index, 256, 1024, answer(0, 0, 0));
    }

    /* every number of animals up to seven rows of 16 bytes, in file order: rows, then bytes, then items */
    for (size_t iids = 1; iids < 460; iids++) {
        size_t len = 3 + 3 * width_of(iids);
        for (size_t k = 3; k < len; k++) file[k] = (uint8_t)draw(256);
        file[2] = 1, list_by(FILE_ORDER, iids, iid_index), list_by(FILE_ORDER, 3, sid_index);
        same_counts(file, len, iids, 3, iid_index, iids, sid_index, 3, 12, answer(0, 0, 0));
    }

    /* many animals: all of one code, and of any */
    for (int mode = 0; mode < 2; mode++)
        for (int code = 0; code < 5; code++)
            for (int way = 0; way < WAYS; way++) {
                size_t len = 3 + (mode ? 3 * width_of(MANY) : MANY), iid_len = list_by((enum way)way, MANY, iid_index);
                for (size_t k = 3; k < len; k++) file[k] = (uint8_t)(code < 4 ? 0x55 * (unsigned)code : draw(256));
                file[2] = (uint8_t)mode, list_by(FILE_ORDER, 3, sid_index);
                same_counts(file, len, MANY, 3, iid_index, iid_len, sid_index, 3, 12, answer(0, 0, 0));
            }

    /* no animals, or none listed, and many markers; no markers, or none listed */
    for (int mode = 0; mode < 2; mode++) {
        size_t len = 3 + (mode ? 2 * MARKERS : 5 * MARKERS / 4);
        file[2] = (uint8_t)mode, list_by(FILE_ORDER, 5, iid_index), list_by(FILE_ORDER, MARKERS, sid_index);
        same_counts(file, 3, 0, MARKERS, NULL, 0, sid_index, MARKERS, 4 * MARKERS, answer(0, 0, 0));
        same_counts(file, 3, 0, MARKERS, NULL, 0, sid_index, MARKERS, 0, answer(15, 0, 0));
        same_counts(file, 3, 0, MARKERS, iid_index, 1, sid_index, MARKERS, 4 * MARKERS, answer(5, 0, 0));
        same_counts(file, len, 5, MARKERS, NULL, 0, sid_index, MARKERS, 4 * MARKERS, answer(0, 0, 0));
        same_counts(file, len, 5, MARKERS, iid_index, 5, NULL, 0, 0, answer(0, 0, 0));
        same_counts(file, 3, 5, 0, iid_index, 5, NULL, 0, 0, answer(0, 0, 0));
        same_counts(file, 3, 5, 0, iid_index, 5, sid_index, 1, 4, answer(6, 0, 0));
    }

    /* every length about 4 times the markers */
    list_by(LAST_ALONE, 5, iid_index), list_by(LAST_ALONE, 4, sid_index);
    for (size_t sids = 0; sids < 5; sids++)
        for (size_t len = 0; len <= 20; len++)
            same_counts(f_files[1], f_len[1], 5, 2, iid_index, 5, sid_index, sids, len, answer(len == 4 * sids ? 0 : 15, 0, 0));

    /* 4 times as many passes 2^64. Nobody can lend such a list, so no promise is made of it; 15 is found before it is looked at. */
    for (size_t k = 0; k < 4; k++) {
        same_counts(f_files[1], f_len[1], 5, 2, iid_index, 5, sid_index, SIZE_MAX / 4 + 1 + k, 4 * k, answer(15, 0, 0));
        same_counts(f_files[1], f_len[1], 5, 2, NULL, 0, sid_index, SIZE_MAX / 2 + 1 + k, 4 * k, answer(15, 0, 0));
    }

    /* F: marker 0 is 2, missing, 1, 0, 2 and marker 1 is 0, 0, 1, 2, 1 */
    for (int mode = 0; mode < 2; mode++) {
        uint64_t counts[8];
        list_by(FILE_ORDER, 5, iid_index), list_by(FILE_ORDER, 2, sid_index);
        same(bed_count_calls(f_files[mode], f_len[mode], 5, 2, iid_index, 5, sid_index, 2, counts, 8), answer(0, 0, 0));
        if (memcmp(counts, (uint64_t[]){1, 1, 2, 1, 2, 2, 1, 0}, sizeof counts)) fail("a count");
    }
    end();
}

/* Packing and writing at one of the widths; the plain sentences speak of doubles. */
static void packing(bool narrow) {
    begin(narrow ? "bed_encode1_i8" : "bed_encode1_f64");
    for (int i = 0; i < 20000; i++) {
        double in[64], missing = narrow ? (double)(int)draw(256) - 128 : draw(2) ? NAN : draw_value();
        int8_t small[64];
        uint8_t out[32], want[32];
        size_t n = draw(40), out_len = width_of(n) + (draw(40) == 0), bad = n;
        bool flag = draw(2);
        for (size_t k = 0; k < n; k++) {
            in[k] = draw(100) ? (draw(5) ? (double)draw(3) : missing) : narrow ? (double)(int)draw(256) - 128 : draw_value();
            if (narrow) small[k] = (int8_t)in[k];
            if (bad == n && coded(in[k], flag, missing) < 0) bad = k;
        }
        memset(out, 0xAA, 32), memset(want, 0xAA, 32);
        bed_answer a = out_len != width_of(n) ? answer(16, 0, 0) : bad < n ? answer(7, (int64_t)bad, 0) : answer(0, 0, 0);
        if (a.number == 0) {
            memset(want, 0, width_of(n));
            for (size_t k = 0; k < n; k++) want[k / 4] |= (uint8_t)(coded(in[k], flag, missing) << (2 * (k % 4)));
        }
        same(narrow ? bed_encode1_i8(small, n, out, out_len, flag, (int8_t)missing) : bed_encode1_f64(in, n, out, out_len, flag, missing), a);
        if (memcmp(out, want, 32)) fail("a byte");
    }
    end();

    begin(narrow ? "bed_write_i8" : "bed_write_f64");
    for (int i = 0; i < 20000; i++) {
        double val[ROOM], missing = narrow ? (double)(int)draw(256) - 128 : draw(2) ? NAN : draw_value();
        int8_t small[ROOM];
        uint8_t out[ROOM], want[ROOM];
        size_t iids = draw_count(), sids = draw_count(), few = iids < 100 && sids < 100;
        size_t val_len = (few ? iids * sids : 0) + (draw(40) == 0), out_len = 3 + (few ? width_of(iids) * sids : 0) + (draw(40) == 0);
        bool flag = draw(2), order = draw(2);
        for (size_t k = 0; k < val_len; k++) {
            val[k] = draw(300) ? (draw(5) ? (double)draw(3) : missing) : narrow ? (double)(int)draw(256) - 128 : draw_value();
            if (narrow) small[k] = (int8_t)val[k];
        }
        memset(out, 0xAA, ROOM), memset(want, 0xAA, ROOM);
        bed_answer a = answer(0, 0, 0);
        if (iids >= TOO_LARGE || sids >= TOO_LARGE) a = answer(18, 0, 0);
        else if (too_big(iids, sids)) a = answer(4, 0, 0);
        else if ((unsigned __int128)iids * sids != val_len) a = answer(15, 0, 0);
        else if (out_len != 3 + width_of(iids) * sids) a = answer(16, 0, 0);
        else
            for (size_t m = 0; m < sids && iids && a.number == 0; m++)
                for (size_t k = 0; k < iids && a.number == 0; k++)
                    if (coded(val[place(order, iids, sids, k, m)], flag, missing) < 0) a = answer(7, (int64_t)k, (int64_t)m);
        if (a.number == 0) {
            memset(want, 0, out_len);
            want[0] = 0x6C, want[1] = 0x1B, want[2] = 1;
            for (size_t m = 0; m < sids && iids; m++)
                for (size_t k = 0; k < iids; k++)
                    want[3 + m * width_of(iids) + k / 4] |= (uint8_t)(coded(val[place(order, iids, sids, k, m)], flag, missing) << (2 * (k % 4)));
        }
        same(narrow ? bed_write_i8(small, val_len, iids, sids, order, flag, (int8_t)missing, out, out_len)
                    : bed_write_f64(val, val_len, iids, sids, order, flag, missing, out, out_len), a);
        if (memcmp(out, want, ROOM)) fail("a byte");
    }
    end();
}

/* How a cut is made; its matrix order is drawn at each. */
struct cut {
    bool narrow, flag;
    double missing;
};

static struct cut draw_cut(void) {
    static const double numbers[] = {-127, -128, -1, 3, 127}, others[] = {NAN, -127, 0.5, INFINITY, 1e300};
    bool narrow = draw(2);
    struct cut c = {narrow, draw(2), narrow ? numbers[draw(5)] : others[draw(5)]};
    return c;
}

/* Reads by two lists and writes what was read. Neither call is refused. */
static size_t cut(struct cut c, const uint8_t *file, size_t len, size_t iids, size_t sids, const int64_t *iid_index, size_t iid_len,
                  const int64_t *sid_index, size_t sid_len, uint8_t *out) {
    double val[ROOM];
    int8_t small[ROOM];
    size_t n = iid_len * sid_len, out_len = 3 + width_of(iid_len) * sid_len;
    bool order = draw(2);
    int8_t missing = c.narrow ? (int8_t)c.missing : 0;
    memset(out, 0xAA, ROOM);
    for (size_t k = 0; k < ROOM; k++) val[k] = small[k] = 9;
    same(c.narrow ? bed_read_i8(file, len, iids, sids, c.flag, iid_index, iid_len, sid_index, sid_len, missing, order, small, n)
                  : bed_read_f64(file, len, iids, sids, c.flag, iid_index, iid_len, sid_index, sid_len, c.missing, order, val, n), answer(0, 0, 0));
    same(c.narrow ? bed_write_i8(small, n, iid_len, sid_len, order, c.flag, missing, out, out_len)
                  : bed_write_f64(val, n, iid_len, sid_len, order, c.flag, c.missing, out, out_len), answer(0, 0, 0));
    return out_len;
}

/* Any good entries, repeated ones among them, and often none. */
static size_t draw_good(size_t count, int64_t *list) {
    size_t n = count && draw(8) ? draw(21) : 0;
    for (size_t k = 0; k < n; k++) list[k] = (int64_t)draw(2 * count) - (int64_t)count;
    return n;
}

/* The lists composed: what each entry of the second list means in the first file, as the number or as the first list has it. */
static void compose(size_t count, const int64_t *first, size_t first_len, const int64_t *second, size_t n, int64_t *numbers, int64_t *given) {
    for (size_t k = 0; k < n; k++) given[k] = first[means(first_len, second[k])], numbers[k] = (int64_t)means(count, given[k]);
}

/* Document 02: a cut of a cut leaves the bytes of one cut by the lists composed. Each cut is made in a way of its own, or all alike with missing 0, 1 or 2. */
static void cuts(void) {
    begin("cuts of cuts");
    for (int i = 0; i < 10000; i++) {
        uint8_t file[ROOM], between[ROOM], again[ROOM], last[ROOM], one[ROOM], want[ROOM];
        int64_t il[32], sl[32], jl[32], kl[32], iid_numbers[32], iid_given[32], sid_numbers[32], sid_given[32];
        struct cut made[4] = {draw_cut(), draw_cut(), draw_cut(), draw_cut()};
        bool alike = draw(4) == 0;
        if (alike) made[0].missing = (double)draw(3), made[1] = made[2] = made[3] = made[0];
        size_t iids = draw(21), sids = draw(21);
        for (size_t k = 0; k < ROOM; k++) file[k] = (uint8_t)draw(256);
        file[0] = 0x6C, file[1] = 0x1B, file[2] = (uint8_t)draw(2);
        size_t len = 3 + width_of(file[2] ? iids : sids) * (file[2] ? sids : iids);
        size_t il_len = draw_good(iids, il), sl_len = draw_good(sids, sl), jl_len = draw_good(il_len, jl), kl_len = draw_good(sl_len, kl);
        compose(iids, il, il_len, jl, jl_len, iid_numbers, iid_given), compose(sids, sl, sl_len, kl, kl_len, sid_numbers, sid_given);

        memset(want, 0xAA, ROOM), memset(want, 0, 3 + width_of(jl_len) * kl_len);
        want[0] = 0x6C, want[1] = 0x1B, want[2] = 1;
        for (size_t m = 0; m < kl_len; m++)
            for (size_t k = 0; k < jl_len; k++) {
                int code = code_of(file, iids, sids, (size_t)iid_numbers[k], (size_t)sid_numbers[m]);
                if (alike) code = coded(value_of(code, made[0].flag, made[0].missing), made[0].flag, made[0].missing);
                want[3 + m * width_of(jl_len) + k / 4] |= (uint8_t)(code << (2 * (k % 4)));
            }

        size_t n = cut(made[0], file, len, iids, sids, il, il_len, sl, sl_len, between);
        memset(again, 0xAA, ROOM);
        same(bed_canonical(between, n, il_len, sl_len, again, n), answer(0, 0, 0));
        if (memcmp(between, again, ROOM)) fail("a byte of the canonical file");
        cut(made[1], draw(2) ? between : again, n, il_len, sl_len, jl, jl_len, kl, kl_len, last);
        if (memcmp(last, want, ROOM)) fail("a byte of the second cut");
        cut(made[2], file, len, iids, sids, iid_numbers, jl_len, sid_numbers, kl_len, one);
        if (memcmp(one, want, ROOM)) fail("a byte of the one cut");
        cut(made[3], file, len, iids, sids, iid_given, jl_len, sid_given, kl_len, one);
        if (memcmp(one, want, ROOM)) fail("a byte of the one cut by entries as given");
    }
    end();
}

/* Document 02's records: mean, deviation, and how many values were observed. */
static void records(void) {
    begin("statistics of three numbers");

    /* marker by marker: two observed; none, 13; three of one value; infinities of both signs, 14; one. A refused marker's record is as it was. */
    static const double columns[5][3] = {{0, 2, NAN}, {NAN, NAN, NAN}, {1, 1, 1}, {INFINITY, -INFINITY, 0}, {NAN, NAN, 2}};
    for (int choice = 0; choice < 4; choice++) {
        bool order = choice & 1, apply = choice >> 1;
        double val[15], want[15], stats[15], unused[15];
        for (size_t k = 0; k < 15; k++) val[place(order, 3, 5, k % 3, k / 3)] = columns[k / 3][k % 3], stats[k] = 10 + (double)k;
        memcpy(want, val, sizeof val);
        standardise(want, 3, 5, order, apply, false, unused);
        same(bed_impute_and_zero_mean_snps_f64(val, 15, 3, 5, order, apply, false, stats, 15), answer(13, 1, 0));
        same_floats(val, want, 15, "a value");
        same_floats(stats, (double[]){1, 1, 2, 13, 14, 15, 1, INFINITY, 3, 19, 20, 21, 2, INFINITY, 1}, 15, "a statistic");
    }

    /* F, of either mode and with pads set */
    const double deviations[2] = {sqrt(0.6875), sqrt(1.2 - 0.8 * 0.8)};
    const struct {
        size_t iid_len;
        int64_t iid_index[6];
        uint64_t number;
        double stats[6];
    } rows[] = {
        /* the animals in any order */
        {5, {0, 1, 2, 3, 4}, 0, {1.25, deviations[0], 4, 0.8, deviations[1], 5}},
        {5, {4, 3, 2, 1, 0}, 0, {1.25, deviations[0], 4, 0.8, deviations[1], 5}},
        {5, {-3, 0, -1, 1, 3}, 0, {1.25, deviations[0], 4, 0.8, deviations[1], 5}},
        /* an animal that is listed again is observed again; animal 1 has no call at marker 0 */
        {6, {0, 1, 0, -5, 1, 0}, 0, {2, INFINITY, 4, 0, INFINITY, 6}},
        {2, {1, -4}, 13, {7, 7, 7, 0, INFINITY, 2}},
    };
    for (size_t i = 0; i < sizeof rows / sizeof *rows; i++)
        for (int choice = 0; choice < 6; choice++) {
            int mode = choice % 3 > 0;
            double val[12], stats[6] = {7, 7, 7, 7, 7, 7};
            uint8_t file[8];
            memcpy(file, f_files[mode], 8);
            if (choice % 3 == 2) file[6] |= 0xF0;
            same(bed_read_standardised_f64(file, f_len[mode], 5, 2, true, rows[i].iid_index, rows[i].iid_len, (int64_t[]){0, -1}, 2, choice / 3, val,
                                           2 * rows[i].iid_len, stats, 6), answer(rows[i].number, 0, 0));
            same_floats(stats, rows[i].stats, 6, "a statistic");
        }

    /* lent: the third may be anything, and nothing is written, so that these can be constants */
    static const double fixed[3][6] = {{1, 2, 3, 0.5, -4, 0}, {1, 2, NAN, 0.5, -4, -INFINITY}, {1, 2, INFINITY, 0.5, -4, 1e300}};
    for (int choice = 0; choice < 12; choice++) {
        bool order = choice & 1, apply = choice >> 1 & 1;
        double val[6] = {0, 2, NAN, 1, 1e300, -0.0}, want[6] = {0, 2, NAN, 1, 1e300, -0.0}, pairs[6] = {1, 2, 9, 0.5, -4, 9};
        standardise(want, 3, 2, order, apply, true, pairs);
        same(bed_impute_and_zero_mean_snps_f64(val, 6, 3, 2, order, apply, true, (double *)fixed[choice >> 2], 6), answer(0, 0, 0));
        same_floats(val, want, 6, "a value");
    }

    /* 17 with no animals, by the count of markers and by the marker list: every length about 3 times as many, 2 times among them */
    double stats[16], kept[16];
    for (size_t k = 0; k < 16; k++) stats[k] = kept[k] = 20 + (double)k;
    for (size_t sids = 0; sids < 5; sids++)
        for (size_t len = 0; len <= 16; len++)
            for (int choice = 0; choice < 8; choice++) {
                bool order = choice & 1, lent = choice >> 2;
                uint64_t number = len != 3 * sids ? 17 : sids && !lent ? 13 : 0;
                same(bed_impute_and_zero_mean_snps_f64(NULL, 0, 0, sids, order, choice >> 1 & 1, lent, stats, len), answer(number, 0, 0));
                if (choice < 2)
                    same(bed_read_standardised_f64(f_files[1], f_len[1], 5, 2, true, NULL, 0, (int64_t[]){0, 1, 0, 1}, sids, order, NULL, 0, stats, len),
                         answer(number, 0, 0));
            }
    /* 3 times the markers passes 2^64, and what is left is the length, or another */
    for (int choice = 0; choice < 8; choice++)
        for (size_t k = 1; k < 6; k++) {
            bool order = choice & 1, apply = choice >> 1 & 1, lent = choice >> 2;
            same(bed_impute_and_zero_mean_snps_f64(NULL, 0, 0, SIZE_MAX / 3 + k, order, apply, lent, stats, 3 * k - 1), answer(17, 0, 0));
            same(bed_impute_and_zero_mean_snps_f64(NULL, 0, 0, TOO_LARGE - k, order, apply, lent, stats, 3 * k - 1), answer(17, 0, 0));
        }
    same_floats(stats, kept, 16, "a statistic");
    end();
}

/* Document 02: "Values decoded from a file are 0, 1, 2 or missing", and "the joined call never gives 14. A lent matrix may hold infinities and keeps 14." */
static void illegal_means(void) {
    /* every block of four calls, of either mode, with either flag, in either order, in one call and in two: 13 where no call is there */
    begin("means of decoded calls");
    static const int64_t four[4] = {0, 1, 2, 3};
    for (int choice = 0; choice < 8 * 256; choice++) {
        uint8_t codes = (uint8_t)(choice >> 3), file[7] = {0x6C, 0x1B, choice & 1, codes};
        bool flag = choice >> 1 & 1, order = choice >> 2 & 1;
        size_t len = file[2] ? 4 : 7;
        for (int a = 0; a < 4 && !file[2]; a++) file[3 + a] = (uint8_t)(codes >> 2 * a & 3);
        double val[4], stats[3] = {7, 7, 7};
        bed_answer a = answer(codes == 0x55 ? 13 : 0, 0, 0);
        same(bed_read_standardised_f64(file, len, 4, 1, flag, four, 4, four, 1, order, val, 4, stats, 3), a);
        same(bed_read_f64(file, len, 4, 1, flag, four, 4, four, 1, NAN, order, val, 4), answer(0, 0, 0));
        same(bed_impute_and_zero_mean_snps_f64(val, 4, 4, 1, order, true, false, stats, 3), a);
    }
    expect(13, true), expect(14, false);
    end();

    /* columns whose sum is a NaN, by themselves and behind one that has a mean; with lent statistics none is refused */
    begin("means of a lent matrix");
    static const double columns[3][3] = {{INFINITY, -INFINITY, NAN}, {-INFINITY, 2, INFINITY}, {1.5e308, 1.5e308, -INFINITY}};
    for (int choice = 0; choice < 3 * 8; choice++) {
        const double *column = columns[choice >> 3];
        bool order = choice & 1, apply = choice >> 1 & 1, lent = choice >> 2 & 1;
        double alone[3], behind[6], stats[6] = {7, 7, 7, 8, 8, 8};
        for (size_t i = 0; i < 3; i++) alone[i] = column[i], behind[place(order, 3, 2, i, 0)] = (double)i, behind[place(order, 3, 2, i, 1)] = column[i];
        same(bed_impute_and_zero_mean_snps_f64(alone, 3, 3, 1, order, apply, lent, stats, 3), answer(lent ? 0 : 14, 0, 0));
        same(bed_impute_and_zero_mean_snps_f64(behind, 6, 3, 2, order, apply, lent, stats, 6), answer(lent ? 0 : 14, lent ? 0 : 1, 0));
        if (!lent) same_floats(alone, column, 3, "a value of the refused marker");
        same_floats(stats + 3, (double[]){8, 8, 8}, 3, "a statistic of the refused marker");
    }
    expect(14, true);
    end();
}

static void standardising(void) {
    begin("bed_impute_and_zero_mean_snps_f64");
    for (int i = 0; i < 20000; i++) {
        double val[ROOM], want[ROOM], stats[64], want_stats[64];
        size_t iids = draw_count(), sids = draw_count(), few = iids < 100 && sids < 100;
        size_t val_len = (few ? iids * sids : 0) + (draw(40) == 0), stats_len = draw_stats_len(sids < 100 ? sids : 0);
        bool order = draw(2), apply = draw(2), lent = draw(2);
        for (size_t k = 0; k < ROOM; k++) val[k] = want[k] = draw_value();
        for (size_t k = 0; k < 64; k++) stats[k] = want_stats[k] = draw_value();
        bed_answer a = answer(0, 0, 0);
        if (iids >= TOO_LARGE || sids >= TOO_LARGE) a = answer(18, 0, 0);
        else if ((unsigned __int128)iids * sids != val_len) a = answer(15, 0, 0);
        else if ((unsigned __int128)3 * sids != stats_len) a = answer(17, 0, 0);
        else a = standardise(want, iids, sids, order, apply, lent, want_stats);
        same(bed_impute_and_zero_mean_snps_f64(val, val_len, iids, sids, order, apply, lent, stats, stats_len), a);
        same_floats(val, want, ROOM, "a value");
        same_floats(stats, want_stats, 64, "a statistic");
    }
    /* "Column 0, 2, NaN: mean 1, deviation 1, values -1, 1, +0. Column 1, 1: deviation infinite, values +0." "All-NaN column: 13." */
    double column[3] = {0, 2, NAN}, ones[2] = {1, 1}, none[2] = {NAN, NAN}, s[3] = {9, 9, 9};
    same(bed_impute_and_zero_mean_snps_f64(column, 3, 3, 1, false, true, false, s, 3), answer(0, 0, 0));
    same_floats(column, (double[]){-1, 1, 0}, 3, "a value");
    same_floats(s, (double[]){1, 1, 2}, 3, "a statistic");
    same(bed_impute_and_zero_mean_snps_f64(ones, 2, 2, 1, true, true, false, s, 3), answer(0, 0, 0));
    same_floats(ones, (double[]){0, 0}, 2, "a value");
    same_floats(s, (double[]){1, INFINITY, 2}, 3, "a statistic");
    same(bed_impute_and_zero_mean_snps_f64(none, 2, 2, 1, false, true, false, s, 3), answer(13, 0, 0));
    same_floats(s, (double[]){1, INFINITY, 2}, 3, "a statistic");
    expect(13, true), expect(14, true);
    end();

    records();
    illegal_means();

    begin("bed_root_f64");
    for (int i = 0; i < 200000; i++) {
        uint64_t bits = draw(3) ? draw(UINT64_MAX) : draw(1ull << 54);
        double v, r, want;
        memcpy(&v, &bits, 8);
        r = bed_root_f64(v), want = sqrt(v);
        same_floats(&r, &want, 1, "the root");
        calls++;
    }
    end();
}

/* The list that is lent, how long it is said to be, and the list that should stand at its front. */
static int64_t list[64], wanted[64];
static size_t room, wanted_len;

static void fresh(void) {
    for (size_t k = 0; k < 64; k++) list[k] = 77;
    room = draw(10) ? 48 : draw(12);
    wanted_len = 0;
}

static void want_entry(int64_t e) {
    if (wanted_len < 64) wanted[wanted_len] = e;
    wanted_len++;
}

/* number: what is refused before 19, or 0 */
static void same_list(bed_answer got, uint64_t number) {
    int64_t later[64];
    for (size_t k = 0; k < 64; k++) later[k] = 77;
    if (number == 0 && wanted_len > room) number = 19;
    if (number == 0) memcpy(later, wanted, 8 * wanted_len);
    same(got, number ? answer(number, 0, 0) : answer(0, (int64_t)wanted_len, 0));
    if (memcmp(list, later, sizeof list)) fail("the list");
}

/* A range's bounds, what they mean, and the number of its refusal. */
struct bounds {
    size_t count, start, stop, from, to;
    bool has_start, has_stop;
    uint64_t number;
};

static struct bounds draw_bounds(void) {
    struct bounds b = {.count = draw_count(), .has_start = draw(3), .has_stop = draw(3)};
    b.start = draw(30) ? draw(12) : TOO_LARGE - draw(2), b.stop = draw(30) ? draw(20) : TOO_LARGE - draw(2);
    b.from = b.has_start ? b.start : 0, b.to = b.has_stop ? b.stop : b.count;
    b.number = b.count >= TOO_LARGE || b.from >= TOO_LARGE || b.to >= TOO_LARGE ? 18 : b.from > b.to ? 12 : 0;
    return b;
}

static void lists(void) {
    begin("bed_index_all");
    for (int i = 0; i < 2000; i++) {
        size_t count = draw_count();
        fresh();
        for (size_t k = 0; k < count && k < 60; k++) want_entry((int64_t)k);
        same_list(bed_index_all(count, list, room), count >= TOO_LARGE ? 18 : 0);
    }
    end();

    begin("bed_index_one");
    for (int i = 0; i < 2000; i++) {
        size_t count = draw_count();
        int64_t one = (int64_t)draw(UINT64_MAX);
        fresh();
        want_entry(one);
        same_list(bed_index_one(count, one, list, room), count >= TOO_LARGE ? 18 : 0);
    }
    end();

    begin("bed_index_vec");
    for (int i = 0; i < 2000; i++) {
        size_t count = draw_count();
        int64_t vec[16];
        size_t n = draw(16);
        fresh();
        for (size_t k = 0; k < n; k++) want_entry(vec[k] = (int64_t)draw(40) - 20);
        same_list(bed_index_vec(count, vec, n, list, room), count >= TOO_LARGE ? 18 : 0);
    }
    end();

    begin("bed_index_bool");
    for (int i = 0; i < 2000; i++) {
        size_t count = draw_count(), n = (count < 16 ? count : 3) + (draw(20) == 0);
        uint8_t marks[32];
        fresh();
        for (size_t k = 0; k < n; k++)
            if ((marks[k] = draw(2) ? (uint8_t)draw(256) : 0)) want_entry((int64_t)k);
        same_list(bed_index_bool(count, marks, n, list, room), count >= TOO_LARGE ? 18 : n != count ? 8 : 0);
    }
    end();

    begin("bed_index_range");
    for (int i = 0; i < 4000; i++) {
        struct bounds b = draw_bounds();
        fresh();
        for (size_t k = b.from; k < b.to && wanted_len < 60; k++) want_entry((int64_t)k);
        same_list(bed_index_range(b.count, b.has_start, b.start, b.has_stop, b.stop, list, room), b.number);
    }
    end();

    begin("bed_to_range");
    for (int i = 0; i < 4000; i++) {
        struct bounds b = draw_bounds();
        same(bed_to_range(b.count, b.has_start, b.start, b.has_stop, b.stop),
             b.number ? answer(b.number, 0, 0) : answer(0, (int64_t)b.from, (int64_t)b.to));
    }
    end();

    begin("bed_index_slice");
    for (int i = 0; i < 20000; i++) {
        size_t count = draw(60) ? draw(20) : TOO_LARGE;
        int64_t start = (int64_t)draw(44) - 22, stop = (int64_t)draw(44) - 22, step = (int64_t)draw(9) - 4;
        bool has_stop = draw(3);
        if (draw(50) == 0) start = INT64_MIN;
        if (draw(50) == 0) stop = INT64_MIN;
        if (draw(50) == 0) step = INT64_MIN;
        uint64_t start_size = start < 0 ? -(uint64_t)start : (uint64_t)start, stop_size = stop < 0 ? -(uint64_t)stop : (uint64_t)stop;
        uint64_t number = count >= TOO_LARGE ? 18 : step == 0 ? 9 : start_size > count ? 10 : has_stop && stop_size > count ? 11 : 0;
        fresh();
        if (number == 0) {
            int64_t from = start < 0 ? (int64_t)count + start : start, to = !has_stop ? (int64_t)count : stop < 0 ? (int64_t)count + stop : stop;
            if (step > 0)
                for (int64_t k = from; k < to; k += step) want_entry(k);
            else
                for (__int128 k = (__int128)to - 1; k >= from; k += step) want_entry((int64_t)k);
        }
        same_list(bed_index_slice(count, start, has_stop, stop, step, list, room), number);
    }
    /* "Count 6, slice 1 to 6 step -2: 5, 3, 1." */
    fresh();
    want_entry(5), want_entry(3), want_entry(1);
    same_list(bed_index_slice(6, 1, true, 6, -2, list, room), 0);
    end();
}

static void products(bool over_columns) {
    begin(over_columns ? "bed_file_ata_piece" : "bed_file_aat_piece");
    for (int i = 0; i < 20000; i++) {
        static uint8_t bytes[2048];
        double matrix[256], piece[128], want[128];
        size_t rows = draw(60) ? draw(9) : draw_count(), columns = draw(60) ? draw(9) : draw_count(), few = rows < 12 && columns < 12;
        size_t total = over_columns ? columns : rows, offset = draw(30) ? draw(20) : UINT64_MAX - draw(20);
        size_t start = total && total < 12 ? draw(total) : draw(3), height = total - start, width = draw(height < 12 ? height + 1 : 3);
        if (draw(30) == 0) start += 1;
        if (draw(30) == 0) height += 1;
        if (draw(30) == 0) width += 1 + draw(4);
        size_t piece_len = (height < 12 && width < 12 ? height * width : 0) + (draw(30) == 0);
        size_t bytes_len = few && offset < 20 ? offset + 8 * rows * columns + draw(3) : draw(100);
        if (bytes_len && draw(20) == 0) bytes_len -= 1;
        if (piece_len > 128) piece_len = 128;
        for (size_t k = 0; k < 256; k++) matrix[k] = draw_value();
        for (size_t k = 0; k < sizeof bytes; k++) bytes[k] = (uint8_t)draw(256);
        if (few && offset < 20) memcpy(bytes + offset, matrix, 8 * rows * columns);
        for (size_t k = 0; k < 128; k++) piece[k] = want[k] = 9;
        bed_answer a = answer(0, 0, 0);
        if (rows >= TOO_LARGE || columns >= TOO_LARGE || start >= TOO_LARGE || height >= TOO_LARGE || width >= TOO_LARGE) a = answer(18, 0, 0);
        else if (start >= total || start + height != total || start + width > total || (over_columns && width == 0)) a = answer(20, 0, 0);
        else if ((unsigned __int128)height * width != piece_len) a = answer(15, 0, 0);
        else if (rows && columns && bytes_len < offset + (unsigned __int128)8 * rows * columns) a = answer(1, 0, 0);
        else
            for (size_t r = 0; r < height; r++)
                for (size_t c = 0; c < width; c++) {
                    size_t x = start + (c <= r ? r : c), y = start + (c <= r ? c : r);
                    double sum = 0;
                    if (over_columns)
                        for (size_t k = 0; k < rows; k++) sum += matrix[x * rows + k] * matrix[y * rows + k];
                    else
                        for (size_t k = 0; k < columns; k++) sum += matrix[k * rows + x] * matrix[k * rows + y];
                    want[r * width + c] = !over_columns && c > r ? 0 : sum;
                }
        same(over_columns ? bed_file_ata_piece(bytes, bytes_len, offset, rows, columns, start, height, width, piece, piece_len)
                          : bed_file_aat_piece(bytes, bytes_len, offset, rows, columns, start, height, width, piece, piece_len), a);
        same_floats(piece, want, 128, "an entry");
    }
    end();
}

/* Counts that nothing lent backs: each call returns at once. */
static void bounded(void) {
    const uint8_t header[2][3] = {{0x6C, 0x1B, 0}, {0x6C, 0x1B, 1}};
    size_t large = TOO_LARGE - 1;
    double piece[1];
    begin("counts that nothing lent backs");
    same(bed_read_f64(header[1], 3, 0, large, true, NULL, 0, NULL, 0, NAN, false, NULL, 0), answer(0, 0, 0));
    same(bed_read_f64(header[0], 3, large, 0, true, NULL, 0, NULL, 0, NAN, true, NULL, 0), answer(0, 0, 0));
    same(bed_count_calls(header[1], 3, 0, large, NULL, 0, NULL, 0, NULL, 0), answer(0, 0, 0));
    same(bed_count_calls(header[0], 3, large, 0, NULL, 0, NULL, 0, NULL, 0), answer(0, 0, 0));
    same(bed_canonical(header[1], 3, 0, large, (uint8_t[3]){0}, 3), answer(0, 0, 0));
    same(bed_write_i8(NULL, 0, 0, large, false, true, 0, (uint8_t[3]){0}, 3), answer(0, 0, 0));
    same(bed_impute_and_zero_mean_snps_f64(NULL, 0, large, 0, false, true, false, NULL, 0), answer(0, 0, 0));
    same(bed_file_aat_piece(NULL, 0, 0, large, 0, large - 1, 1, 0, NULL, 0), answer(0, 0, 0));
    same(bed_file_ata_piece(NULL, 0, 0, 0, large, large - 1, 1, 1, piece, 1), answer(0, 0, 0));
    same(bed_index_range(large, false, 0, false, 0, list, 4), answer(19, 0, 0));
    same(bed_index_slice(large, 0, false, 0, 1, list, 4), answer(19, 0, 0));
    end();
}

/* Every buffer of every call, null where its length is 0. */
static void nulls(void) {
    const uint8_t header[3] = {0x6C, 0x1B, 1};
    uint8_t out[3];
    begin("null buffers of length 0");
    same(bed_open_and_check(NULL, 0), answer(1, 0, 0));
    same(bed_byte_span(5, NULL, 0), answer(0, 0, 0));
    same(bed_read_i8(NULL, 0, 0, 0, true, NULL, 0, NULL, 0, 0, true, NULL, 0), answer(1, 0, 0));
    same(bed_read_f64(NULL, 0, 0, 0, true, NULL, 0, NULL, 0, NAN, true, NULL, 0), answer(1, 0, 0));
    same(bed_read_i8(header, 3, 0, 0, true, NULL, 0, NULL, 0, 0, false, NULL, 0), answer(0, 0, 0));
    same(bed_read_f64(header, 3, 0, 0, true, NULL, 0, NULL, 0, NAN, false, NULL, 0), answer(0, 0, 0));
    same(bed_read_standardised_f64(NULL, 0, 0, 0, true, NULL, 0, NULL, 0, true, NULL, 0, NULL, 0), answer(1, 0, 0));
    same(bed_read_standardised_f64(header, 3, 0, 0, true, NULL, 0, NULL, 0, false, NULL, 0, NULL, 0), answer(0, 0, 0));
    same(bed_count_calls(NULL, 0, 0, 0, NULL, 0, NULL, 0, NULL, 0), answer(1, 0, 0));
    same(bed_count_calls(header, 3, 0, 0, NULL, 0, NULL, 0, NULL, 0), answer(0, 0, 0));
    same(bed_canonical(NULL, 0, 0, 0, NULL, 0), answer(1, 0, 0));
    same(bed_canonical(header, 3, 0, 0, NULL, 0), answer(16, 0, 0));
    same(bed_encode1_i8(NULL, 0, NULL, 0, true, 0), answer(0, 0, 0));
    same(bed_encode1_f64(NULL, 0, NULL, 0, true, NAN), answer(0, 0, 0));
    same(bed_write_i8(NULL, 0, 0, 0, true, true, 0, out, 3), answer(0, 0, 0));
    same(bed_write_f64(NULL, 0, 0, 0, true, true, NAN, out, 3), answer(0, 0, 0));
    same(bed_write_i8(NULL, 0, 0, 0, false, true, 0, NULL, 0), answer(16, 0, 0));
    same(bed_write_f64(NULL, 0, 0, 0, false, true, NAN, NULL, 0), answer(16, 0, 0));
    same(bed_impute_and_zero_mean_snps_f64(NULL, 0, 0, 0, true, true, false, NULL, 0), answer(0, 0, 0));
    same(bed_impute_and_zero_mean_snps_f64(NULL, 0, 0, 0, false, true, true, NULL, 0), answer(0, 0, 0));
    same(bed_index_all(0, NULL, 0), answer(0, 0, 0));
    same(bed_index_one(1, 0, NULL, 0), answer(19, 0, 0));
    same(bed_index_vec(1, NULL, 0, NULL, 0), answer(0, 0, 0));
    same(bed_index_bool(0, NULL, 0, NULL, 0), answer(0, 0, 0));
    same(bed_index_range(1, false, 0, true, 0, NULL, 0), answer(0, 0, 0));
    same(bed_index_slice(1, 1, false, 0, 1, NULL, 0), answer(0, 0, 0));
    same(bed_file_ata_piece(NULL, 0, 0, 0, 1, 0, 1, 1, NULL, 0), answer(15, 0, 0));
    same(bed_file_aat_piece(NULL, 0, 0, 1, 0, 0, 1, 0, NULL, 0), answer(0, 0, 0));
    end();
}

int main(void) {
    files_and_widths();
    spans();
    reading_calls();
    counting();
    packing(true);
    packing(false);
    cuts();
    standardising();
    lists();
    products(true);
    products(false);
    bounded();
    nulls();
    printf("every call of the header was used; %lu calls, none differs\n", all_calls);
    return 0;
}
