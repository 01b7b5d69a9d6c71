/* The speed of each call of libmungkelas.a beside the original's loops, in one run, on the same buffers, one thread each.
 *
 * The original's loops are written out here in C, each in the original's way of going through memory: animal lists are taken apart once
 * into byte and shift, each marker's bytes are copied to a buffer first (the original reads them from a file), values are stored by strides,
 * rows are counted into an array for each sum, a product's columns are copied before use. Checks of bounds, threads and errors are left out.
 *
 * bench [animals markers repetitions]: each row is run that often on both sides in turn, and the least time of each side counts.
 * Exit 1 if the two sides' outputs differ anywhere, or a call is refused. */
#include <math.h>
#include <stdbool.h>
#include <stdint.h>
#include <stdio.h>
#include <stdlib.h>
#include <string.h>
#include <time.h>

typedef struct {
    uint64_t number;
    int64_t first, second;
} bed_answer;

bed_answer bed_byte_span(size_t, const int64_t *, size_t);
bed_answer bed_read_i8(const uint8_t *, size_t, size_t, size_t, bool, const int64_t *, size_t, const int64_t *, size_t, int8_t, bool, int8_t *,
                       size_t);
bed_answer bed_read_f64(const uint8_t *, size_t, size_t, size_t, bool, const int64_t *, size_t, const int64_t *, size_t, double, bool, double *,
                        size_t);
bed_answer bed_count_calls(const uint8_t *, size_t, size_t, size_t, const int64_t *, size_t, const int64_t *, size_t, uint64_t *, size_t);
bed_answer bed_encode1_i8(const int8_t *, size_t, uint8_t *, size_t, bool, int8_t);
bed_answer bed_encode1_f64(const double *, size_t, uint8_t *, size_t, bool, double);
bed_answer bed_write_i8(const int8_t *, size_t, size_t, size_t, bool, bool, int8_t, uint8_t *, size_t);
bed_answer bed_write_f64(const double *, size_t, size_t, size_t, bool, bool, double, uint8_t *, size_t);
bed_answer bed_canonical(const uint8_t *, size_t, size_t, size_t, uint8_t *, size_t);
bed_answer bed_impute_and_zero_mean_snps_f64(double *, size_t, size_t, size_t, bool, bool, bool, double *, size_t);
bed_answer bed_read_standardised_f64(const uint8_t *, size_t, size_t, size_t, bool, const int64_t *, size_t, const int64_t *, size_t, bool, double *,
                                     size_t, double *, size_t);
bed_answer bed_file_ata_piece(const uint8_t *, size_t, uint64_t, size_t, size_t, size_t, size_t, size_t, double *, size_t);
bed_answer bed_file_aat_piece(const uint8_t *, size_t, uint64_t, size_t, size_t, size_t, size_t, size_t, double *, size_t);

#define ALONE __attribute__((noinline))

/* ---- the original's loops ---- */

/* Each entry's byte, counted from the list's lowest one, and shift. Returns whether every entry is good. */
static ALONE bool list_places(size_t count, const int64_t *list, size_t n, size_t *byte, uint8_t *shift, size_t *lowest, size_t *length) {
    bool good = true;
    for (size_t k = 0; k < n; k++) {
        int64_t e = list[k];
        size_t i = 0;
        if (e >= 0 && e < (int64_t)count)
            i = (size_t)e;
        else if (e < 0 && e >= -(int64_t)count)
            i = count - (size_t)(-e);
        else
            good = false;
        byte[k] = i / 4;
        shift[k] = (uint8_t)(i % 4 * 2);
    }
    size_t least = n ? byte[0] : 0, greatest = least;
    for (size_t k = 0; k < n; k++) {
        if (byte[k] < least)
            least = byte[k];
        if (byte[k] > greatest)
            greatest = byte[k];
    }
    if (least > 0)
        for (size_t k = 0; k < n; k++)
            byte[k] -= least;
    *lowest = least;
    *length = n ? greatest - least + 1 : 0;
    return good;
}

/* One block's calls, `stride` values apart. */
#define READ(T, NAME)                                                                                                                          \
    static ALONE void NAME##_block(const uint8_t *restrict bytes, const size_t *restrict byte, const uint8_t *restrict shift, size_t n,         \
                                   const T *restrict value, T *restrict col, size_t stride) {                                                  \
        if (stride == 1)                                                                                                                       \
            for (size_t k = 0; k < n; k++)                                                                                                     \
                col[k] = value[(bytes[byte[k]] >> shift[k]) & 3];                                                                              \
        else                                                                                                                                   \
            for (size_t k = 0; k < n; k++)                                                                                                     \
                col[k * stride] = value[(bytes[byte[k]] >> shift[k]) & 3];                                                                     \
    }                                                                                                                                          \
    static ALONE bool NAME(const uint8_t *file, size_t iids, size_t sids, bool counted, const int64_t *iid_list, size_t iid_n,                  \
                           const int64_t *sid_list, size_t sid_n, T missing, bool animal_order, T *val) {                                      \
        size_t iid_stride = animal_order ? sid_n : 1, sid_stride = animal_order ? 1 : iid_n;                                                   \
        if (file[2] == 0) { /* counts, lists and strides trade places */                                                                       \
            size_t t = iids;                                                                                                                   \
            iids = sids, sids = t;                                                                                                             \
            t = iid_n, iid_n = sid_n, sid_n = t;                                                                                               \
            t = iid_stride, iid_stride = sid_stride, sid_stride = t;                                                                           \
            const int64_t *l = iid_list;                                                                                                       \
            iid_list = sid_list, sid_list = l;                                                                                                 \
        }                                                                                                                                      \
        size_t width = (iids + 3) / 4, lowest, length;                                                                                         \
        size_t *byte = malloc(iid_n * sizeof *byte);                                                                                           \
        uint8_t *shift = malloc(iid_n);                                                                                                        \
        bool good = list_places(iids, iid_list, iid_n, byte, shift, &lowest, &length);                                                         \
        T value[4] = {counted ? 2 : 0, missing, 1, counted ? 0 : 2};                                                                           \
        uint8_t *bytes = malloc(length);                                                                                                       \
        for (size_t m = 0; m < sid_n && good; m++) {                                                                                           \
            int64_t e = sid_list[m];                                                                                                           \
            size_t block;                                                                                                                      \
            if (e >= 0 && e < (int64_t)sids)                                                                                                   \
                block = (size_t)e;                                                                                                             \
            else if (e < 0 && e >= -(int64_t)sids)                                                                                             \
                block = sids - (size_t)(-e);                                                                                                   \
            else {                                                                                                                             \
                good = false;                                                                                                                  \
                break;                                                                                                                         \
            }                                                                                                                                  \
            memcpy(bytes, file + 3 + block * width + lowest, length);                                                                          \
            NAME##_block(bytes, byte, shift, iid_n, value, val + m * sid_stride, iid_stride);                                                  \
        }                                                                                                                                      \
        free(byte), free(shift), free(bytes);                                                                                                  \
        return good;                                                                                                                           \
    }

READ(double, c_read_f64)
READ(int8_t, c_read_i8)

/* The calls of each marker in file order, counted one by one: no, one and two copies, missing. Where a block is an animal, block by block. */
static ALONE void c_count_codes(const uint8_t *file, size_t iids, size_t sids, uint64_t *counts) {
    static const uint8_t place[4] = {2, 3, 1, 0};
    size_t items = file[2] ? iids : sids, blocks = file[2] ? sids : iids, width = (items + 3) / 4;
    memset(counts, 0, 4 * sids * sizeof *counts);
    for (size_t b = 0; b < blocks; b++) {
        const uint8_t *bytes = file + 3 + b * width;
        uint64_t n[4] = {0};
        for (size_t i = 0; i < items; i++) {
            unsigned code = bytes[i / 4] >> i % 4 * 2 & 3;
            if (file[2])
                n[code]++;
            else
                counts[4 * i + place[code]]++;
        }
        for (unsigned code = 0; code < 4 && file[2]; code++)
            counts[4 * b + place[code]] = n[code];
    }
}

/* The same where a block is a marker, by a table of what each byte has, 16 bits for each of the four. */
static ALONE void c_count_bytes(const uint8_t *file, size_t iids, size_t sids, uint64_t *counts) {
    static const uint8_t place[4] = {2, 3, 1, 0};
    enum { FULL = 16383 }; /* bytes whose calls 16 bits can count */
    uint64_t table[256];
    size_t width = (iids + 3) / 4, whole = iids / 4;
    for (unsigned b = 0; b < 256; b++) {
        table[b] = 0;
        for (unsigned p = 0; p < 4; p++)
            table[b] += (uint64_t)1 << 16 * place[b >> 2 * p & 3];
    }
    for (size_t m = 0; m < sids; m++) {
        const uint8_t *bytes = file + 3 + m * width;
        uint64_t n[4] = {0};
        for (size_t start = 0; start < whole; start += FULL) {
            size_t end = whole - start < FULL ? whole : start + FULL;
            uint64_t sum = 0;
            for (size_t i = start; i < end; i++)
                sum += table[bytes[i]];
            for (unsigned k = 0; k < 4; k++)
                n[k] += sum >> 16 * k & 0xFFFF;
        }
        for (size_t i = 4 * whole; i < iids; i++)
            n[place[bytes[i / 4] >> i % 4 * 2 & 3]]++;
        memcpy(counts + 4 * m, n, sizeof n);
    }
}

/* Values to bytes: tests against 0, 1, 2 and missing in turn. */
#define WRITE(T, NAME)                                                                                                                         \
    static inline int NAME##_group(const T *v, size_t stride, size_t n, uint8_t zero, uint8_t two, bool nan, T missing) {                      \
        unsigned byte = 0;                                                                                                                     \
        for (size_t k = 0; k < n; k++) {                                                                                                       \
            T x = v[k * stride];                                                                                                               \
            unsigned code;                                                                                                                     \
            if (x == 0)                                                                                                                        \
                code = zero;                                                                                                                   \
            else if (x == 1)                                                                                                                   \
                code = 2;                                                                                                                      \
            else if (x == 2)                                                                                                                   \
                code = two;                                                                                                                    \
            else if ((nan && x != x) || (!nan && x == missing))                                                                                \
                code = 1;                                                                                                                      \
            else                                                                                                                               \
                return -1;                                                                                                                     \
            byte |= code << (2 * k);                                                                                                           \
        }                                                                                                                                      \
        return (int)byte;                                                                                                                      \
    }                                                                                                                                          \
    static ALONE bool NAME##_marker(const T *v, size_t stride, size_t n, uint8_t *out, bool counted, T missing) {                              \
        uint8_t zero = counted ? 3 : 0, two = counted ? 0 : 3;                                                                                 \
        bool nan = missing != missing;                                                                                                         \
        for (size_t b = 0; b < n / 4; b++) {                                                                                                   \
            int byte = NAME##_group(v + 4 * b * stride, stride, 4, zero, two, nan, missing);                                                   \
            if (byte < 0)                                                                                                                      \
                return false;                                                                                                                  \
            out[b] = (uint8_t)byte;                                                                                                            \
        }                                                                                                                                      \
        if (n % 4) {                                                                                                                           \
            int byte = NAME##_group(v + n / 4 * 4 * stride, stride, n % 4, zero, two, nan, missing);                                           \
            if (byte < 0)                                                                                                                      \
                return false;                                                                                                                  \
            out[n / 4] = (uint8_t)byte;                                                                                                        \
        }                                                                                                                                      \
        return true;                                                                                                                           \
    }                                                                                                                                          \
    static ALONE bool NAME(const T *val, size_t iids, size_t sids, bool animal_order, bool counted, T missing, uint8_t *out) {                 \
        size_t width = (iids + 3) / 4;                                                                                                         \
        uint8_t *bytes = malloc(width);                                                                                                        \
        bool good = true;                                                                                                                      \
        out[0] = 0x6C, out[1] = 0x1B, out[2] = 1;                                                                                              \
        for (size_t m = 0; m < sids && good; m++) {                                                                                            \
            memset(bytes, 0, width);                                                                                                           \
            good = NAME##_marker(val + (animal_order ? m : m * iids), animal_order ? sids : 1, iids, bytes, counted, missing);                 \
            memcpy(out + 3 + m * width, bytes, width);                                                                                         \
        }                                                                                                                                      \
        free(bytes);                                                                                                                           \
        return good;                                                                                                                           \
    }

WRITE(double, c_write_f64)
WRITE(int8_t, c_write_i8)

static bool find_stats(double count, double sum, double squares, double *stats) {
    if (count < 1)
        return false;
    double mean = sum / count, variance = squares / count - mean * mean;
    if (mean != mean)
        return false;
    double deviation = sqrt(variance);
    if (deviation != deviation || deviation <= 0)
        deviation = INFINITY;
    stats[0] = mean, stats[1] = deviation, stats[2] = count;
    return true;
}

/* Marker order: a marker at a time. */
static ALONE bool c_standardise_marker(double *col, size_t n, double *stats) {
    double count = 0, sum = 0, squares = 0;
    for (size_t i = 0; i < n; i++) {
        double v = col[i];
        if (v == v) {
            sum += v;
            squares += v * v;
            count += 1;
        }
    }
    if (!find_stats(count, sum, squares, stats))
        return false;
    double mean = stats[0], factor = 1 / stats[1];
    bool same = isinf(stats[1]);
    for (size_t i = 0; i < n; i++)
        if (col[i] != col[i] || same)
            col[i] = 0;
        else
            col[i] = (col[i] - mean) * factor;
    return true;
}

static ALONE void c_count_row(const double *restrict row, size_t n, double *restrict count, double *restrict sum, double *restrict squares) {
    for (size_t m = 0; m < n; m++) {
        double v = row[m];
        if (v == v) {
            count[m] += 1;
            sum[m] += v;
            squares[m] += v * v;
        }
    }
}

static ALONE void c_apply_row(double *restrict row, size_t n, const double *restrict stats, const double *restrict factor) {
    for (size_t m = 0; m < n; m++)
        if (row[m] != row[m] || isinf(stats[3 * m + 1]))
            row[m] = 0;
        else
            row[m] = (row[m] - stats[3 * m]) * factor[m];
}

static ALONE bool c_standardise(double *val, size_t iids, size_t sids, bool animal_order, double *stats) {
    bool good = true;
    if (!animal_order) {
        for (size_t m = 0; m < sids; m++)
            good &= c_standardise_marker(val + m * iids, iids, stats + 3 * m);
        return good;
    }
    double *count = calloc(sids, sizeof *count), *sum = calloc(sids, sizeof *sum), *squares = calloc(sids, sizeof *squares);
    double *factor = calloc(sids, sizeof *factor);
    for (size_t i = 0; i < iids; i++)
        c_count_row(val + i * sids, sids, count, sum, squares);
    for (size_t m = 0; m < sids; m++)
        good &= find_stats(count[m], sum[m], squares[m], stats + 3 * m);
    if (good) {
        for (size_t m = 0; m < sids; m++)
            factor[m] = 1 / stats[3 * m + 1];
        for (size_t i = 0; i < iids; i++)
            c_apply_row(val + i * sids, sids, stats, factor);
    }
    free(count), free(sum), free(squares), free(factor);
    return good;
}

static ALONE double c_dot(const double *restrict x, const double *restrict y, size_t n) {
    double sum = 0;
    for (size_t i = 0; i < n; i++)
        sum += x[i] * y[i];
    return sum;
}

/* A'A: the first `width` columns are kept, and each column is multiplied with those kept so far. */
static ALONE void c_ata(const uint8_t *bytes, size_t rows, size_t cols, size_t start, size_t width, double *piece) {
    size_t height = cols - start, kept = 0;
    double *keep = malloc(width * rows * sizeof *keep), *reuse = malloc(rows * sizeof *reuse);
    for (size_t r = 0; r < height; r++) {
        double *col = kept < width ? keep + kept++ * rows : reuse;
        memcpy(col, bytes + 8 * (start + r) * rows, rows * sizeof *col);
        for (size_t c = 0; c < kept; c++)
            piece[r * width + c] = c_dot(keep + c * rows, col, rows);
    }
    for (size_t r = 0; r + 1 < width; r++)
        for (size_t c = r; c < width; c++)
            piece[r * width + c] = piece[c * width + r];
    free(keep), free(reuse);
}

static ALONE void c_add_column(double v, const double *restrict col, size_t n, double *restrict out, size_t stride) {
    if (stride == 1)
        for (size_t r = 0; r < n; r++)
            out[r] += v * col[r];
    else
        for (size_t r = 0; r < n; r++)
            out[r * stride] += v * col[r];
}

/* AA': each column of the file is added to every column of the piece, whose entry (r, c) is at r * down + c * across. */
static ALONE void c_aat(const uint8_t *bytes, size_t rows, size_t cols, size_t start, size_t width, double *piece, size_t down, size_t across) {
    size_t height = rows - start;
    double *col = malloc(height * sizeof *col);
    memset(piece, 0, height * width * sizeof *piece);
    for (size_t k = 0; k < cols; k++) {
        memcpy(col, bytes + 8 * (k * rows + start), height * sizeof *col);
        for (size_t c = 0; c < width; c++)
            c_add_column(col[c], col + c, height - c, piece + c * down + c * across, down);
    }
    free(col);
}

/* ---- inputs, the same for both sides ---- */

static size_t iids = 5003, sids = 4001, reps = 7;
static size_t calls;
static uint8_t *file1, *file0, *packed, *columns;
static size_t file1_len, file0_len;
static int64_t *iid_order, *iid_shuffled, *iid_from_end, *sid_order;
static double *val, *start_m, *start_a, *stats, *piece;
static int8_t *val8, *start8_m, *start8_a;
static uint64_t *counts;
static size_t piece_rows, piece_cols;

static uint64_t state = 0x9E3779B97F4A7C15u;
static uint64_t draw(void) {
    state ^= state << 13;
    state ^= state >> 7;
    state ^= state << 17;
    return state * 0x2545F4914F6CDD1Du >> 32;
}

static void *room(size_t n) {
    void *p = aligned_alloc(4096, (n + 4095) / 4096 * 4096 + 4096);
    if (!p)
        exit(2);
    memset(p, 0, n);
    return p;
}

static void inputs(void) {
    calls = iids * sids;
    size_t w1 = (iids + 3) / 4, w0 = (sids + 3) / 4;
    file1_len = 3 + w1 * sids, file0_len = 3 + w0 * iids;
    file1 = room(file1_len), file0 = room(file0_len), packed = room(file1_len);
    file1[0] = file0[0] = 0x6C, file1[1] = file0[1] = 0x1B, file1[2] = 1, file0[2] = 0;
    for (size_t m = 0; m < sids; m++) {
        unsigned share = 5 + draw() % 90; /* of 100: an allele's frequency, so that markers differ */
        for (size_t a = 0; a < iids; a++) {
            unsigned code = (draw() % 100 < share) + (draw() % 100 < share);
            code = draw() % 50 == 0 ? 1 : code == 0 ? 0 : code + 1;
            file1[3 + m * w1 + a / 4] |= (uint8_t)(code << (a % 4 * 2));
            file0[3 + a * w0 + m / 4] |= (uint8_t)(code << (m % 4 * 2));
        }
    }
    iid_order = room(iids * 8), iid_shuffled = room(iids * 8), iid_from_end = room(iids * 8), sid_order = room(sids * 8);
    for (size_t a = 0; a < iids; a++)
        iid_order[a] = iid_shuffled[a] = (int64_t)a;
    for (size_t a = iids; a-- > 1;) {
        size_t b = draw() % (a + 1);
        int64_t t = iid_shuffled[a];
        iid_shuffled[a] = iid_shuffled[b], iid_shuffled[b] = t;
    }
    for (size_t a = 0; a < iids; a++) /* half of them counted from the end */
        iid_from_end[a] = iid_shuffled[a] - (a % 2 ? (int64_t)iids : 0);
    for (size_t m = 0; m < sids; m++)
        sid_order[m] = (int64_t)m;
    val = room(calls * 8), start_m = room(calls * 8), start_a = room(calls * 8), stats = room(sids * 24);
    val8 = room(calls), start8_m = room(calls), start8_a = room(calls);
    counts = room(sids * 32);
    c_read_f64(file1, iids, sids, true, iid_order, iids, sid_order, sids, NAN, false, start_m);
    c_read_f64(file1, iids, sids, true, iid_order, iids, sid_order, sids, NAN, true, start_a);
    c_read_i8(file1, iids, sids, true, iid_order, iids, sid_order, sids, -127, false, start8_m);
    c_read_i8(file1, iids, sids, true, iid_order, iids, sid_order, sids, -127, true, start8_a);
    piece_rows = iids, piece_cols = sids;
    columns = room(calls * 8);
    for (size_t i = 0; i < calls; i++) {
        double v = start_m[i] == start_m[i] ? (start_m[i] - 0.7) * 1.3 : 0;
        memcpy(columns + 8 * i, &v, 8);
    }
    piece = room((iids > sids ? iids : sids) * 64 * 8);
}

/* ---- rows ---- */

typedef struct {
    const char *name;
    bool mode0, animal_order;
    int list;
    size_t width;
} shape;

static bool done(bed_answer a) { return a.number == 0; }
static const uint8_t *file_of(shape s) { return s.mode0 ? file0 : file1; }
static size_t file_len(shape s) { return s.mode0 ? file0_len : file1_len; }
static const int64_t *list_of(shape s) { return s.list == 2 ? iid_from_end : s.list == 1 ? iid_shuffled : iid_order; }

static bool our_read_f64(shape s) {
    return done(bed_read_f64(file_of(s), file_len(s), iids, sids, true, list_of(s), iids, sid_order, sids, NAN, s.animal_order, val, calls));
}
static bool c_row_read_f64(shape s) {
    return c_read_f64(file_of(s), iids, sids, true, list_of(s), iids, sid_order, sids, NAN, s.animal_order, val);
}
static bool our_read_i8(shape s) {
    return done(bed_read_i8(file_of(s), file_len(s), iids, sids, true, list_of(s), iids, sid_order, sids, -127, s.animal_order, val8, calls));
}
static bool c_row_read_i8(shape s) {
    return c_read_i8(file_of(s), iids, sids, true, list_of(s), iids, sid_order, sids, -127, s.animal_order, val8);
}
static bool our_count(shape s) {
    return done(bed_count_calls(file_of(s), file_len(s), iids, sids, iid_order, iids, sid_order, sids, counts, 4 * sids));
}
static bool c_row_count_codes(shape s) {
    c_count_codes(file_of(s), iids, sids, counts);
    return true;
}
static bool c_row_count_bytes(shape s) {
    c_count_bytes(file_of(s), iids, sids, counts);
    return true;
}
static bool our_canonical(shape s) { return done(bed_canonical(file_of(s), file_len(s), iids, sids, packed, file1_len)); }
static bool c_row_canonical(shape s) {
    return c_read_i8(file_of(s), iids, sids, true, iid_order, iids, sid_order, sids, -127, false, val8) &&
           c_write_i8(val8, iids, sids, false, true, -127, packed);
}
static bool our_encode_f64(shape s) {
    bool good = true;
    size_t width = (iids + 3) / 4;
    (void)s;
    packed[0] = 0x6C, packed[1] = 0x1B, packed[2] = 1;
    for (size_t m = 0; m < sids; m++)
        good &= done(bed_encode1_f64(start_m + m * iids, iids, packed + 3 + m * width, width, true, NAN));
    return good;
}
static bool c_row_encode_f64(shape s) {
    bool good = true;
    size_t width = (iids + 3) / 4;
    (void)s;
    packed[0] = 0x6C, packed[1] = 0x1B, packed[2] = 1;
    for (size_t m = 0; m < sids; m++)
        good &= c_write_f64_marker(start_m + m * iids, 1, iids, packed + 3 + m * width, true, NAN);
    return good;
}
static bool our_encode_i8(shape s) {
    bool good = true;
    size_t width = (iids + 3) / 4;
    (void)s;
    packed[0] = 0x6C, packed[1] = 0x1B, packed[2] = 1;
    for (size_t m = 0; m < sids; m++)
        good &= done(bed_encode1_i8(start8_m + m * iids, iids, packed + 3 + m * width, width, true, -127));
    return good;
}
static bool c_row_encode_i8(shape s) {
    bool good = true;
    size_t width = (iids + 3) / 4;
    (void)s;
    packed[0] = 0x6C, packed[1] = 0x1B, packed[2] = 1;
    for (size_t m = 0; m < sids; m++)
        good &= c_write_i8_marker(start8_m + m * iids, 1, iids, packed + 3 + m * width, true, -127);
    return good;
}
static bool our_write_f64(shape s) {
    return done(bed_write_f64(s.animal_order ? start_a : start_m, calls, iids, sids, s.animal_order, true, NAN, packed, file1_len));
}
static bool c_row_write_f64(shape s) {
    return c_write_f64(s.animal_order ? start_a : start_m, iids, sids, s.animal_order, true, NAN, packed);
}
static bool our_write_i8(shape s) {
    return done(bed_write_i8(s.animal_order ? start8_a : start8_m, calls, iids, sids, s.animal_order, true, -127, packed, file1_len));
}
static bool c_row_write_i8(shape s) { return c_write_i8(s.animal_order ? start8_a : start8_m, iids, sids, s.animal_order, true, -127, packed); }
static bool our_standardise(shape s) {
    return done(bed_impute_and_zero_mean_snps_f64(val, calls, iids, sids, s.animal_order, true, false, stats, 3 * sids));
}
static bool c_row_standardise(shape s) { return c_standardise(val, iids, sids, s.animal_order, stats); }
static bool our_joined(shape s) {
    return done(bed_read_standardised_f64(file_of(s), file_len(s), iids, sids, true, list_of(s), iids, sid_order, sids, s.animal_order, val, calls,
                                          stats, 3 * sids));
}
static bool c_row_joined(shape s) { return c_row_read_f64(s) && c_standardise(val, iids, sids, s.animal_order, stats); }
static bool our_ata(shape s) {
    return done(bed_file_ata_piece(columns, calls * 8, 0, piece_rows, piece_cols, 0, piece_cols, s.width, piece, piece_cols * s.width));
}
static bool c_row_ata(shape s) {
    c_ata(columns, piece_rows, piece_cols, 0, s.width, piece);
    return true;
}
static bool our_aat(shape s) {
    return done(bed_file_aat_piece(columns, calls * 8, 0, piece_rows, piece_cols, 0, piece_rows, s.width, piece, piece_rows * s.width));
}
static bool c_row_aat(shape s) {
    c_aat(columns, piece_rows, piece_cols, 0, s.width, piece, s.width, 1);
    return true;
}
static double *turned;
static bool c_row_aat_turned(shape s) { /* the original's loop with the piece in the order that suits it */
    c_aat(columns, piece_rows, piece_cols, 0, s.width, turned, 1, piece_rows);
    return true;
}
static void turn_back(shape s) {
    for (size_t r = 0; r < piece_rows; r++)
        for (size_t c = 0; c < s.width; c++)
            piece[r * s.width + c] = turned[c * piece_rows + r];
}

/* What a row leaves, and what it needs before each run. */
enum { VAL, VAL8, COUNTS, PACKED, VAL_STATS, PIECE_ATA, PIECE_AAT };

static size_t leaves(int kind, shape s) {
    switch (kind) {
    case VAL:
    case VAL_STATS:
        return calls * 8;
    case VAL8:
        return calls;
    case COUNTS:
        return sids * 32;
    case PACKED:
        return file1_len;
    default:
        return (kind == PIECE_ATA ? piece_cols : piece_rows) * s.width * 8;
    }
}

static void *output(int kind) {
    if (kind == COUNTS)
        return counts;
    return kind == VAL || kind == VAL_STATS ? (void *)val : kind == VAL8 ? (void *)val8 : kind == PACKED ? packed : (void *)piece;
}

static bool alike(const double *x, const double *y, size_t n) {
    for (size_t i = 0; i < n; i++)
        if (memcmp(x + i, y + i, 8) != 0 && !(x[i] != x[i] && y[i] != y[i]))
            return false;
    return true;
}

static double now(void) {
    struct timespec t;
    clock_gettime(CLOCK_MONOTONIC, &t);
    return (double)t.tv_sec + 1e-9 * (double)t.tv_nsec;
}

static ALONE void store(uint64_t *out, size_t n, uint64_t v) {
    for (size_t i = 0; i < n; i++)
        out[i] = v;
}

static bool all_good = true;
static const char *only;

static void row(shape s, int kind, bool in_place, bool (*ours)(shape), bool (*theirs)(shape), void (*after)(shape)) {
    if (only && !strstr(s.name, only))
        return;
    double best[3] = {1e9, 1e9, 1e9};
    size_t n = leaves(kind, s), first = 0;
    bool same = true;
    double *kept_stats = malloc(sids * 24);
    unsigned char *kept = malloc(n);
    for (size_t r = 0; r < reps; r++)
        for (int side = 0; side < 3; side++) {
            if (in_place && side < 2)
                memcpy(val, s.animal_order ? start_a : start_m, calls * 8);
            else if (r == 0)
                memset(output(kind), 0x55, n);
            if (r == 0)
                memset(stats, 0x55, sids * 24);
            double t = now();
            bool good = true;
            if (side == 0)
                good = ours(s);
            else if (side == 1)
                good = theirs(s);
            else
                store(output(kind), n / 8, r);
            t = now() - t;
            if (t < best[side])
                best[side] = t;
            if (side == 1 && after)
                after(s);
            same &= good;
            if (r == first && side == 0) {
                memcpy(kept, output(kind), n);
                memcpy(kept_stats, stats, sids * 24);
            }
            if (r == first && side == 1) {
                if (kind == PACKED || kind == VAL8 || kind == COUNTS)
                    same &= memcmp(kept, output(kind), n) == 0;
                else
                    same &= alike((double *)kept, output(kind), n / 8);
                same &= kind != VAL_STATS || alike(kept_stats, stats, 3 * sids);
            }
        }
    double per = 1e9 / (double)calls;
    printf("| %-60s | %7.3f | %7.3f | %5.2f | %7.3f |%s\n", s.name, best[0] * per, best[1] * per, best[0] / best[1], best[2] * per,
           same ? "" : " THE OUTPUTS DIFFER");
    fflush(stdout);
    all_good &= same;
    free(kept), free(kept_stats);
}

/* The lowest and the highest byte of a list in one plain loop. */
static ALONE bed_answer c_span(int64_t count, const int64_t *list, size_t n) {
    int64_t least = INT64_MAX, greatest = -1;
    for (size_t k = 0; k < n; k++) {
        int64_t i = list[k] < 0 ? list[k] + count : list[k];
        if (i < 0 || i >= count)
            return (bed_answer){5, list[k], 0};
        least = i / 4 < least ? i / 4 : least;
        greatest = i / 4 > greatest ? i / 4 : greatest;
    }
    return n ? (bed_answer){0, least, greatest - least + 1} : (bed_answer){0, 0, 0};
}

/* The byte span of a list of a million entries, half of them from the end; nanoseconds an entry. The count is not told to the compiler, which
   would make a loop for that count alone. */
static void span_row(void) {
    enum { ENTRIES = 1000000 };
    volatile size_t told = ENTRIES;
    const size_t count = told;
    const char *name = "byte span, 1,000,000 entries (nanoseconds an entry)";
    if (only && !strstr(name, only))
        return;
    int64_t *list = malloc(ENTRIES * sizeof *list);
    for (int64_t k = 0; k < ENTRIES; k++) {
        int64_t i = k * 7919 % 999999 + 1; /* every number but 0 */
        list[k] = k % 2 ? i - ENTRIES : i;
    }
    double best[2] = {1e9, 1e9};
    bool same = true;
    for (size_t r = 0; r < reps; r++) {
        double t0 = now();
        bed_answer ours = bed_byte_span(count, list, count);
        double t1 = now();
        bed_answer theirs = c_span((int64_t)count, list, count);
        double t2 = now();
        if (t1 - t0 < best[0])
            best[0] = t1 - t0;
        if (t2 - t1 < best[1])
            best[1] = t2 - t1;
        same &= ours.number == theirs.number && ours.first == theirs.first && ours.second == theirs.second;
    }
    double per = 1e9 / ENTRIES;
    printf("| %-60s | %7.3f | %7.3f | %5.2f | %7s |%s\n", name, best[0] * per, best[1] * per, best[0] / best[1], "", same ? "" : " THE OUTPUTS DIFFER");
    all_good &= same;
    free(list);
}

int main(int argc, char **argv) {
    if (argc > 2)
        iids = strtoull(argv[1], 0, 10), sids = strtoull(argv[2], 0, 10);
    if (argc > 3)
        reps = strtoull(argv[3], 0, 10);
    if (argc > 4)
        only = argv[4];
    if (iids < 64 || sids < 64 || reps < 1)
        return 2;
    inputs();
    turned = room(piece_rows * 64 * 8);
    printf("%zu animals, %zu markers, %zu calls; least of %zu runs; nanoseconds a call\n", iids, sids, calls, reps);
    printf("| %-60s | %7s | %7s | %5s | %7s |\n", "call", "ours", "C", "ratio", "store");
    printf("|---|---|---|---|---|\n");
    row((shape){"read f64, mode 1, marker order, file order", 0, 0, 0, 0}, VAL, 0, our_read_f64, c_row_read_f64, 0);
    row((shape){"read f64, mode 1, marker order, shuffled animals", 0, 0, 1, 0}, VAL, 0, our_read_f64, c_row_read_f64, 0);
    row((shape){"read f64, mode 1, marker order, shuffled, half from the end", 0, 0, 2, 0}, VAL, 0, our_read_f64, c_row_read_f64, 0);
    row((shape){"read f64, mode 1, animal order", 0, 1, 0, 0}, VAL, 0, our_read_f64, c_row_read_f64, 0);
    row((shape){"read f64, mode 1, animal order, shuffled animals", 0, 1, 1, 0}, VAL, 0, our_read_f64, c_row_read_f64, 0);
    row((shape){"read f64, mode 0, marker order", 1, 0, 0, 0}, VAL, 0, our_read_f64, c_row_read_f64, 0);
    row((shape){"read f64, mode 0, animal order", 1, 1, 0, 0}, VAL, 0, our_read_f64, c_row_read_f64, 0);
    row((shape){"read i8, mode 1, marker order, file order", 0, 0, 0, 0}, VAL8, 0, our_read_i8, c_row_read_i8, 0);
    row((shape){"read i8, mode 1, marker order, shuffled animals", 0, 0, 1, 0}, VAL8, 0, our_read_i8, c_row_read_i8, 0);
    row((shape){"read i8, mode 1, marker order, shuffled, half from the end", 0, 0, 2, 0}, VAL8, 0, our_read_i8, c_row_read_i8, 0);
    row((shape){"read i8, mode 1, animal order", 0, 1, 0, 0}, VAL8, 0, our_read_i8, c_row_read_i8, 0);
    row((shape){"read i8, mode 0, marker order", 1, 0, 0, 0}, VAL8, 0, our_read_i8, c_row_read_i8, 0);
    row((shape){"read i8, mode 0, animal order", 1, 1, 0, 0}, VAL8, 0, our_read_i8, c_row_read_i8, 0);
    row((shape){"count calls, mode 1, file order (C: call by call)", 0, 0, 0, 0}, COUNTS, 0, our_count, c_row_count_codes, 0);
    row((shape){"count calls, mode 1, file order (C: a table of bytes)", 0, 0, 0, 0}, COUNTS, 0, our_count, c_row_count_bytes, 0);
    row((shape){"count calls, mode 0, file order (C: call by call)", 1, 0, 0, 0}, COUNTS, 0, our_count, c_row_count_codes, 0);
    row((shape){"canonical, mode 1 (C: read i8, then write)", 0, 0, 0, 0}, PACKED, 0, our_canonical, c_row_canonical, 0);
    row((shape){"canonical, mode 0 (C: read i8, then write)", 1, 0, 0, 0}, PACKED, 0, our_canonical, c_row_canonical, 0);
    row((shape){"encode1 f64, marker by marker", 0, 0, 0, 0}, PACKED, 0, our_encode_f64, c_row_encode_f64, 0);
    row((shape){"encode1 i8, marker by marker", 0, 0, 0, 0}, PACKED, 0, our_encode_i8, c_row_encode_i8, 0);
    row((shape){"write f64, marker order", 0, 0, 0, 0}, PACKED, 0, our_write_f64, c_row_write_f64, 0);
    row((shape){"write f64, animal order", 0, 1, 0, 0}, PACKED, 0, our_write_f64, c_row_write_f64, 0);
    row((shape){"write i8, marker order", 0, 0, 0, 0}, PACKED, 0, our_write_i8, c_row_write_i8, 0);
    row((shape){"write i8, animal order", 0, 1, 0, 0}, PACKED, 0, our_write_i8, c_row_write_i8, 0);
    row((shape){"standardise, marker order", 0, 0, 0, 0}, VAL_STATS, 1, our_standardise, c_row_standardise, 0);
    row((shape){"standardise, animal order", 0, 1, 0, 0}, VAL_STATS, 1, our_standardise, c_row_standardise, 0);
    row((shape){"joined call, mode 1, marker order", 0, 0, 0, 0}, VAL_STATS, 0, our_joined, c_row_joined, 0);
    row((shape){"joined call, mode 1, animal order", 0, 1, 0, 0}, VAL_STATS, 0, our_joined, c_row_joined, 0);
    row((shape){"A'A, width 1", 0, 0, 0, 1}, PIECE_ATA, 0, our_ata, c_row_ata, 0);
    row((shape){"A'A, width 2", 0, 0, 0, 2}, PIECE_ATA, 0, our_ata, c_row_ata, 0);
    row((shape){"A'A, width 3", 0, 0, 0, 3}, PIECE_ATA, 0, our_ata, c_row_ata, 0);
    row((shape){"A'A, width 4", 0, 0, 0, 4}, PIECE_ATA, 0, our_ata, c_row_ata, 0);
    row((shape){"A'A, width 5", 0, 0, 0, 5}, PIECE_ATA, 0, our_ata, c_row_ata, 0);
    row((shape){"A'A, width 8", 0, 0, 0, 8}, PIECE_ATA, 0, our_ata, c_row_ata, 0);
    row((shape){"A'A, width 16", 0, 0, 0, 16}, PIECE_ATA, 0, our_ata, c_row_ata, 0);
    row((shape){"A'A, width 64", 0, 0, 0, 64}, PIECE_ATA, 0, our_ata, c_row_ata, 0);
    row((shape){"AA', width 1", 0, 0, 0, 1}, PIECE_AAT, 0, our_aat, c_row_aat, 0);
    row((shape){"AA', width 2", 0, 0, 0, 2}, PIECE_AAT, 0, our_aat, c_row_aat, 0);
    row((shape){"AA', width 3", 0, 0, 0, 3}, PIECE_AAT, 0, our_aat, c_row_aat, 0);
    row((shape){"AA', width 4", 0, 0, 0, 4}, PIECE_AAT, 0, our_aat, c_row_aat, 0);
    row((shape){"AA', width 5", 0, 0, 0, 5}, PIECE_AAT, 0, our_aat, c_row_aat, 0);
    row((shape){"AA', width 8", 0, 0, 0, 8}, PIECE_AAT, 0, our_aat, c_row_aat, 0);
    row((shape){"AA', width 16", 0, 0, 0, 16}, PIECE_AAT, 0, our_aat, c_row_aat, 0);
    row((shape){"AA', width 64", 0, 0, 0, 64}, PIECE_AAT, 0, our_aat, c_row_aat, 0);
    row((shape){"AA', width 64 (C: piece in its own column order)", 0, 0, 0, 64}, PIECE_AAT, 0, our_aat, c_row_aat_turned, turn_back);
    span_row();
    return all_good ? 0 : 1;
}
