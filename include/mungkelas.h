/* Mungkelas: reading, writing and standardising genotypes of PLINK .bed files.
 *
 * What the caller keeps, since the proofs rest on it:
 *   - a buffer that a call writes overlaps no other buffer of the same call;
 *   - each buffer is aligned for its type, and is shorter than 2^63 bytes;
 *   - every buffer holds as many values as its length says, all of them set, and nobody else writes to it during the call;
 *   - a bool is 0 or 1;
 *   - any NaN may come back with another payload.
 * Nothing else is asked: no count, list, file or float can stop a call or make it read or write outside its buffers.
 * A buffer of length 0 may be null: that no call reads or writes past a length is proved, so none uses that pointer; that the
 * compiled calls take a null one is run by tests/every_call.c, and not proved.
 *
 * A length is a number of values, not of bytes. No call allocates, keeps a pointer, or holds state; calls on buffers of their
 * own may run on several threads at once. No call needed more than 28 KB of stack when measured (tools/stack); that is not proved.
 *
 * Words. An animal is an iid, a marker a sid. A matrix is a buffer of animals times markers values: in marker order (animal_order
 * 0) a marker's values stand beside each other, value (a, m) at m * animals + a; in animal order (1) an animal's do, at
 * a * markers + m. An entry of a list from 0 to count - 1 means itself, one from -count to -1 means count + entry, any other is bad.
 * is_a1_counted 1: values count the first allele (codes 0, 1, 2, 3 are 2, missing, 1, 0); 0: the second (0, missing, 1, 2).
 *
 * At a refusal every buffer is as it was, but where a call below says otherwise. Each call's refusals are listed in the order in
 * which they are looked for: the first that applies is given.
 */
#ifndef MUNGKELAS_H
#define MUNGKELAS_H

#include <stdbool.h>
#include <stddef.h>
#include <stdint.h>

/* The version; it stands here alone. MAJOR rises with every change that breaks a caller (CHANGELOG.md). */
#define MUNGKELAS_VERSION_MAJOR 2
#define MUNGKELAS_VERSION_MINOR 0
#define MUNGKELAS_VERSION_PATCH 1
#define MUNGKELAS_TEXT_(a, b, c) #a "." #b "." #c
#define MUNGKELAS_TEXT(a, b, c) MUNGKELAS_TEXT_(a, b, c)
#define MUNGKELAS_VERSION MUNGKELAS_TEXT(MUNGKELAS_VERSION_MAJOR, MUNGKELAS_VERSION_MINOR, MUNGKELAS_VERSION_PATCH)

#ifdef __cplusplus
extern "C" {
#endif

/* number 0: done, and first and second have what the call answers (else 0). Another number: refused, and first and second have what
 * this refusal carries (else 0). */
typedef struct {
    uint64_t number;
    int64_t first, second;
} bed_answer;

enum {
    BED_DONE = 0,
    BED_READ_ERROR = 1,                   /* fewer bytes than needed */
    BED_ILL_FORMED = 2,                   /* byte 0 not 6C or byte 1 not 1B, or wrong length */
    BED_BAD_MODE = 3,                     /* byte 2 is neither 0 nor 1 */
    BED_INDEXES_TOO_BIG_FOR_FILES = 4,    /* block width times blocks, plus 3, passes 2^64 - 1 */
    BED_IID_INDEX_TOO_BIG = 5,            /* first bad entry of the animal list (bed_byte_span: of its list); first: the entry */
    BED_SID_INDEX_TOO_BIG = 6,            /* first bad entry of the marker list; first: the entry */
    BED_BAD_VALUE = 7,                    /* a value is none of 0, 1, 2, missing; first: animal, second: marker (whole file) */
    BED_BOOL_ARRAY_VECTOR_WRONG_LENGTH = 8, /* marks and count differ */
    BED_STEP_ZERO = 9,                    /* step 0 */
    BED_START_GREATER_THAN_COUNT = 10,    /* start's magnitude above count */
    BED_END_GREATER_THAN_COUNT = 11,      /* end's magnitude above count */
    BED_START_GREATER_THAN_END = 12,      /* range start above end */
    BED_NO_INDIVIDUALS = 13,              /* lowest refused marker has no value but NaN; first: its place in the matrix */
    BED_ILLEGAL_SNP_MEAN = 14,            /* lowest refused marker of a lent matrix has a NaN mean; first: its place in the matrix */
    BED_INDEX_MISMATCH = 15,              /* value or counts buffer of another length than the counts or list lengths ask */
    BED_ENCODING_LENGTH = 16,             /* packed buffer of the wrong length */
    BED_STATS_MISMATCH = 17,              /* statistics buffer is not BED_STATS_PER_MARKER times the matrix's markers */
    BED_COUNT_TOO_LARGE = 18,             /* a count, a piece's height, width or start, or a range bound passes 2^63 - 1 */
    BED_LIST_TOO_SHORT = 19,              /* list buffer shorter than the list */
    BED_CANNOT_CONVERT_BETA_TO_FROM_F64 = 20 /* bad product piece */
};

/* A statistics record is a marker's mean, its deviation, and how many of its values were observed, that is, are not NaN: marker m's
 * stand at 3 * m, 3 * m + 1 and 3 * m + 2. */
#define BED_STATS_PER_MARKER 3

/* The counts of a marker are how many of its calls have no, one and two copies of the first allele, and how many are missing: marker m's
 * stand at 4 * m to 4 * m + 3. */
#define BED_COUNTS_PER_MARKER 4

/* ---- headers, widths, spans ---- */

/* Reads the first three bytes of file; writes nothing. Done, first: byte 2. Refusals: 1 (under 3 bytes), 2 (first two bytes). */
bed_answer bed_open_and_check(const uint8_t *file, size_t file_len);

/* Writes nothing. Done, first: the width in bytes of a block of in_iid_count items. Refusals: 18 (either count), 4. */
bed_answer bed_try_div_4(size_t in_iid_count, size_t in_sid_count);

/* Reads index; writes nothing. Done, first: the lowest byte of a block that the list touches, second: how many bytes from it to the
 * highest; both 0 for an empty list. Refusals: 18, 5. */
bed_answer bed_byte_span(size_t count, const int64_t *index, size_t index_len);

/* ---- reading ---- */

/* Reads file, iid_index and sid_index; writes val: the calls of the listed animals at the listed markers, as iid_len times sid_len
 * values in the order asked, missing_value where a call is missing.
 * Refusals: 18 (either count), 15 (val_len is not iid_len * sid_len), 1 (under 3 bytes), 2 (first two bytes), 3, 4, 2 (length), 5, 6.
 * In either mode 5 is the animal list's, 6 the marker list's, and a list is looked at even if the other is empty. */
bed_answer bed_read_i8(const uint8_t *file, size_t file_len, size_t iid_count, size_t sid_count, bool is_a1_counted,
                       const int64_t *iid_index, size_t iid_len, const int64_t *sid_index, size_t sid_len,
                       int8_t missing_value, bool animal_order, int8_t *val, size_t val_len);
bed_answer bed_read_f64(const uint8_t *file, size_t file_len, size_t iid_count, size_t sid_count, bool is_a1_counted,
                        const int64_t *iid_index, size_t iid_len, const int64_t *sid_index, size_t sid_len,
                        double missing_value, bool animal_order, double *val, size_t val_len);

/* Reads file, iid_index and sid_index; writes counts: for each listed marker the counts of the listed animals' calls. An animal that is
 * listed twice counts twice; a marker that is listed twice has its counts at both places.
 * Refusals: 18 (either count), 15 (counts_len is not 4 * sid_len), 1 (under 3 bytes), 2 (first two bytes), 3, 4, 2 (length), 5, 6, the last
 * two as above. */
bed_answer bed_count_calls(const uint8_t *file, size_t file_len, size_t iid_count, size_t sid_count,
                           const int64_t *iid_index, size_t iid_len, const int64_t *sid_index, size_t sid_len,
                           uint64_t *counts, size_t counts_len);

/* Reads file; writes out: the file of mode 1 with the same calls and zero pads, 3 + width * sid_count bytes, where width is that of
 * iid_count (bed_try_div_4). Refusals: 18 (either count), 1, 2 (first two bytes), 3, 4, 2 (length), 4 (for the length to be written), 16. */
bed_answer bed_canonical(const uint8_t *file, size_t file_len, size_t iid_count, size_t sid_count, uint8_t *out, size_t out_len);

/* ---- packing and writing ---- */

/* Reads in; writes out: one marker's values packed, four a byte, low bits first, pads zero.
 * Refusals: 16 (out_len is not the block width of in_len), 7 (first: the animal). */
bed_answer bed_encode1_i8(const int8_t *in, size_t in_len, uint8_t *out, size_t out_len, bool is_a1_counted, int8_t missing);
bed_answer bed_encode1_f64(const double *in, size_t in_len, uint8_t *out, size_t out_len, bool is_a1_counted, double missing);

/* Reads val; writes out: a whole file of mode 1. A value is tested against 0, 1, 2, then missing, by number; any NaN is missing if
 * missing is NaN. Refusals: 18 (either count), 4, 15 (val_len is not iid_count * sid_count), 16, 7 (first: the animal, second: the
 * marker, of the first marker with a bad value, and in it the first animal). */
bed_answer bed_write_i8(const int8_t *val, size_t val_len, size_t iid_count, size_t sid_count, bool animal_order,
                        bool is_a1_counted, int8_t missing, uint8_t *out, size_t out_len);
bed_answer bed_write_f64(const double *val, size_t val_len, size_t iid_count, size_t sid_count, bool animal_order,
                         bool is_a1_counted, double missing, uint8_t *out, size_t out_len);

/* ---- standardising ---- */

/* Reads and may write val and stats. Without use_stats each marker's mean and deviation are found from its values that are not NaN
 * and written to stats, then how many these are, exact up to 2^53. With use_stats each record's mean and deviation are read, its
 * third number is not, stats is not written, and nothing is found or refused for 13 or 14. With apply_in_place each value
 * becomes (value - mean) * (1 / deviation), or +0 where it is NaN or the deviation is infinite; without it no value changes.
 * Refusals: 18 (either count), 15 (val_len is not iid_count * sid_count), 17, then the lowest marker refused for 13 or 14. At 13 and
 * 14 the markers that are not refused have new statistics and, in marker order with apply_in_place, values standardised; in animal
 * order no value changes. A refused marker's statistics and values are as they were. */
bed_answer bed_impute_and_zero_mean_snps_f64(double *val, size_t val_len, size_t iid_count, size_t sid_count, bool animal_order,
                                             bool apply_in_place, bool use_stats, double *stats, size_t stats_len);

/* Reading with missing NaN, then statistics, then applying, in one call. Reads file, iid_index and sid_index; writes val and stats.
 * An animal that is listed twice is observed twice.
 * Refusals: 18 (either count), 15 (val_len is not iid_len * sid_len), 17 (by sid_len), then as bed_read_f64 from 1 on, then the lowest
 * marker refused for 13: val then holds the values read, standardised as the call above says. Calls that were read have a mean, however
 * many they are: 14 is never given. */
bed_answer bed_read_standardised_f64(const uint8_t *file, size_t file_len, size_t iid_count, size_t sid_count, bool is_a1_counted,
                                     const int64_t *iid_index, size_t iid_len, const int64_t *sid_index, size_t sid_len,
                                     bool animal_order, double *val, size_t val_len, double *stats, size_t stats_len);

/* The correctly rounded square root; NaN of a number below 0 and of NaN, +infinity of +infinity, and a zero of a zero, with its sign. */
double bed_root_f64(double variance);

/* ---- lists ---- */

/* Writes nothing. An absent start is 0, an absent end count; an absent bound's number is not looked at. Done, first: start, second:
 * end. Refusals: 18 (count or a bound), 12. */
bed_answer bed_to_range(size_t count, bool has_start, size_t start, bool has_end, size_t end);

/* Each writes the list that an index means to the first places of list; later places are as they were. Done, first: the list's
 * length. Refusals of all six: 18 first and 19 last; between them 8 for marks, 12 for a range, 9, 10, 11 for a slice.
 * marks: a mark that is not 0 is chosen. slice: a negative start or end counts from count; an absent end is count; a negative step
 * goes from end - 1 down while not below start. */
bed_answer bed_index_all(size_t count, int64_t *list, size_t list_len);
bed_answer bed_index_one(size_t count, int64_t one, int64_t *list, size_t list_len);
bed_answer bed_index_vec(size_t count, const int64_t *vec, size_t vec_len, int64_t *list, size_t list_len);
bed_answer bed_index_bool(size_t count, const uint8_t *marks, size_t marks_len, int64_t *list, size_t list_len);
bed_answer bed_index_range(size_t count, bool has_start, size_t start, bool has_end, size_t end, int64_t *list, size_t list_len);
bed_answer bed_index_slice(size_t count, int64_t start, bool has_end, int64_t end, int64_t step, int64_t *list, size_t list_len);

/* ---- products ---- */

/* Reads bytes: after offset, a matrix of f64, little-endian, column by column, row i of column j at offset + 8 * (j * row_count + i).
 * Writes piece, entry (r, c) at r * width + c. A'A: entry (r, c) is column col_start + r times column col_start + c, and the copy of
 * (c, r) above the diagonal. AA': the same over rows, and +0 above the diagonal. Each sum runs upward from +0.
 * Refusals: 18 (a count, start, height or width), 20 (start at or past the columns or rows, start + height not their number,
 * start + width past it, or in A'A width 0), 15 (piece_len is not height * width), 1 (row_count and col_count are both above 0 and
 * bytes_len is below offset + 8 * row_count * col_count, in exact arithmetic). */
bed_answer bed_file_ata_piece(const uint8_t *bytes, size_t bytes_len, uint64_t offset, size_t row_count, size_t col_count,
                              size_t col_start, size_t height, size_t width, double *piece, size_t piece_len);
bed_answer bed_file_aat_piece(const uint8_t *bytes, size_t bytes_len, uint64_t offset, size_t row_count, size_t col_count,
                              size_t row_start, size_t height, size_t width, double *piece, size_t piece_len);

#ifdef __cplusplus
}
#endif

#endif
