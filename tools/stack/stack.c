/* How much stack each call of libmungkelas.a needs: it runs on a thread whose stack was painted, and the bytes that lost their paint are
 * counted, less those that a thread which calls nothing uses. Each call is made in every mode, order and choice that it has, with lists in
 * file order and others, and with counts on both sides of the sizes at which its loops change. Exit 1 if a call is refused. */
#include "mungkelas.h"
#include <math.h>
#include <pthread.h>
#include <stdio.h>
#include <stdlib.h>
#include <string.h>

enum { STACK = 1 << 20, PAINT = 0xA5, IIDS = 2051, SIDS = 1103, WIDEST = 130 };

static uint8_t *file[2], packed[3 + (IIDS / 4 + 1) * SIDS];
static size_t file_len[2];
static int64_t iid_list[2][IIDS], sid_list[2][SIDS], list[IIDS];
static double val[IIDS * SIDS], stats[BED_STATS_PER_MARKER * SIDS], piece[IIDS * WIDEST];
static int8_t val8[IIDS * SIDS];
static uint8_t marks[IIDS];
static uint64_t counts[BED_COUNTS_PER_MARKER * SIDS];

static int refused;
static void done(bed_answer a) { refused += a.number != BED_DONE; }

static void nothing(void) {}

static void header(void) {
    done(bed_open_and_check(file[1], file_len[1])), done(bed_try_div_4(IIDS, SIDS)), done(bed_byte_span(IIDS, iid_list[1], IIDS));
}

static void lists(void) {
    done(bed_to_range(IIDS, true, 1, true, 5));
    done(bed_index_all(IIDS, list, IIDS)), done(bed_index_one(IIDS, -1, list, IIDS)), done(bed_index_vec(IIDS, iid_list[1], IIDS, list, IIDS));
    done(bed_index_bool(IIDS, marks, IIDS, list, IIDS)), done(bed_index_range(IIDS, true, 1, false, 0, list, IIDS));
    done(bed_index_slice(IIDS, -7, true, -2, 2, list, IIDS)), done(bed_index_slice(IIDS, 1, false, 0, -3, list, IIDS));
}

/* each way of reading: bit 0 the mode, bit 1 the order, bit 2 the lists */
#define READINGS(CALL)                                                                                                                               \
    for (int w = 0; w < 8; w++) {                                                                                                                    \
        int mode = w & 1;                                                                                                                            \
        bool order = w >> 1 & 1;                                                                                                                     \
        int64_t *il = iid_list[w >> 2], *sl = sid_list[w >> 2];                                                                                      \
        CALL;                                                                                                                                        \
    }

static void read_i8(void) {
    READINGS(done(bed_read_i8(file[mode], file_len[mode], IIDS, SIDS, true, il, IIDS, sl, SIDS, -127, order, val8, IIDS * SIDS)))
}
static void read_f64(void) {
    READINGS(done(bed_read_f64(file[mode], file_len[mode], IIDS, SIDS, true, il, IIDS, sl, SIDS, NAN, order, val, IIDS * SIDS)))
}
static void read_standardised(void) {
    READINGS(done(bed_read_standardised_f64(file[mode], file_len[mode], IIDS, SIDS, true, il, IIDS, sl, SIDS, order, val, IIDS * SIDS, stats,
                                            BED_STATS_PER_MARKER * SIDS)))
}

static void count_calls(void) {
    for (int w = 0; w < 8; w++)
        done(bed_count_calls(file[w & 1], file_len[w & 1], IIDS, SIDS, iid_list[w >> 1 & 1], IIDS, sid_list[w >> 2], SIDS, counts,
                             BED_COUNTS_PER_MARKER * SIDS));
}

static void encode1(void) {
    done(bed_encode1_i8(val8, IIDS, packed, IIDS / 4 + 1, true, -127)), done(bed_encode1_f64(val, IIDS, packed, IIDS / 4 + 1, true, NAN));
}

static void write_i8(void) {
    for (int order = 0; order < 2; order++)
        done(bed_write_i8(val8, IIDS * SIDS, IIDS, SIDS, order, true, -127, packed, file_len[1]));
}

static void write_f64(void) {
    for (int order = 0; order < 2; order++)
        done(bed_write_f64(val, IIDS * SIDS, IIDS, SIDS, order, true, NAN, packed, file_len[1]));
}

static void canonical(void) {
    for (int mode = 0; mode < 2; mode++)
        done(bed_canonical(file[mode], file_len[mode], IIDS, SIDS, packed, file_len[1]));
}

static void standardise(void) {
    for (int w = 0; w < 8; w++)
        done(bed_impute_and_zero_mean_snps_f64(val, IIDS * SIDS, IIDS, SIDS, w & 1, w >> 1 & 1, w >> 2, stats, BED_STATS_PER_MARKER * SIDS));
}

static void products(void) {
    for (size_t width = 1; width <= WIDEST; width += width < 20 ? 1 : 22) {
        done(bed_file_ata_piece((uint8_t *)val, sizeof val, 0, IIDS, SIDS, 0, SIDS, width, piece, SIDS * width));
        done(bed_file_aat_piece((uint8_t *)val, sizeof val, 0, IIDS, SIDS, 0, IIDS, width, piece, IIDS * width));
    }
}

static void root(void) { stats[0] = bed_root_f64(2) + bed_root_f64(5e-324); }

static void *on_thread(void *call) {
    ((void (*)(void))call)();
    return NULL;
}

static size_t used(void (*call)(void)) {
    static uint8_t *stack;
    if (!stack)
        stack = aligned_alloc(4096, STACK);
    memset(stack, PAINT, STACK);
    pthread_attr_t attr;
    pthread_t thread;
    pthread_attr_init(&attr);
    if (pthread_attr_setstack(&attr, stack, STACK) || pthread_create(&thread, &attr, on_thread, (void *)call) || pthread_join(thread, NULL))
        exit(2);
    size_t n = 0;
    while (n < STACK && stack[n] == PAINT)
        n++;
    return STACK - n;
}

int main(void) {
    size_t width[2] = {(SIDS + 3) / 4, (IIDS + 3) / 4}, blocks[2] = {IIDS, SIDS};
    for (int mode = 0; mode < 2; mode++) {
        file_len[mode] = 3 + width[mode] * blocks[mode];
        file[mode] = malloc(file_len[mode]);
        for (size_t i = 0; i < file_len[mode]; i++)
            file[mode][i] = (uint8_t)(i * 2654435761u >> 13);
        file[mode][0] = 0x6C, file[mode][1] = 0x1B, file[mode][2] = (uint8_t)mode;
    }
    for (int64_t i = 0; i < IIDS; i++)
        iid_list[0][i] = i, iid_list[1][i] = -1 - i, marks[i] = i % 3 == 0;
    for (int64_t m = 0; m < SIDS; m++)
        sid_list[0][m] = m, sid_list[1][m] = -1 - m;
    /* in this order: what reading leaves is packed and written, then multiplied and standardised */
    struct {
        const char *name;
        void (*call)(void);
    } calls[] = {{"header, block width, byte span", header},
                 {"lists", lists},
                 {"reading i8", read_i8},
                 {"reading f64", read_f64},
                 {"counting calls", count_calls},
                 {"packing one marker", encode1},
                 {"writing i8", write_i8},
                 {"writing f64", write_f64},
                 {"the canonical call", canonical},
                 {"the products", products},
                 {"standardising", standardise},
                 {"the joined call", read_standardised},
                 {"root", root}};
    size_t none = used(nothing);
    for (size_t k = 0; k < sizeof calls / sizeof *calls; k++) {
        size_t n = used(calls[k].call);
        printf("%-32s %6zu bytes\n", calls[k].name, n > none ? n - none : 0);
    }
    return refused != 0;
}
