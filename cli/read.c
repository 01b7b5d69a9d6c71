/* read: the calls as a NumPy array. */
#include <math.h>
#include <stdio.h>

#include "cli.h"

#define MISSING_I8 (-127)

struct reading {
    const struct herd *herd;
    void *val; /* int8_t or double */
};

/* Some markers in marker order, some animals in animal order: in both a part of the values that stand together. */
static bed_answer read_part(void *with, size_t start, size_t lines, size_t thread) {
    const struct reading *r = with;
    const struct herd *h = r->herd;
    const struct options *o = h->options;
    (void)thread;
    const int64_t *iids = o->animal_order ? h->iids + start : h->iids, *sids = o->animal_order ? h->sids : h->sids + start;
    size_t iid_len = o->animal_order ? lines : h->iid_len, sid_len = o->animal_order ? h->sid_len : lines;
    size_t at = start * (o->animal_order ? h->sid_len : h->iid_len);
    if (o->f64)
        return bed_read_f64(h->bed.bytes.at, h->bed.bytes.len, h->animals, h->markers, o->is_a1_counted, iids, iid_len, sids, sid_len, NAN,
                            o->animal_order, (double *)r->val + at, iid_len * sid_len);
    return bed_read_i8(h->bed.bytes.at, h->bed.bytes.len, h->animals, h->markers, o->is_a1_counted, iids, iid_len, sids, sid_len, MISSING_I8,
                       o->animal_order, (int8_t *)r->val + at, iid_len * sid_len);
}

void read_matrix(const struct herd *h) {
    const struct options *o = h->options;
    size_t size = o->f64 ? sizeof(double) : sizeof(int8_t);
    spare_own_files(h, o->out);
    uint8_t *out = make_output(o->out, NPY_HEADER + h->iid_len * h->sid_len * size);
    write_npy_header(out, o->f64 ? "<f8" : "|i1", !o->animal_order, h->iid_len, h->sid_len);
    struct reading reading = {h, out + NPY_HEADER};
    size_t lines = o->animal_order ? h->iid_len : h->sid_len, line_bytes = (o->animal_order ? h->sid_len : h->iid_len) * size;
    size_t a_part = lines_a_part(lines, line_bytes, h->mode_1 == o->animal_order, o->threads);
    bed_answer a = run_parts(&(struct run){"reading", o->quiet, lines, a_part, o->threads, read_part, &reading});
    if (a.number) refuse(h, a);
    keep_outputs();
    if (!o->quiet)
        printf("%s: %zu %s by %zu %s, %s, order %c\n", o->out, COUNTED(h->iid_len, "animal", "animals"), COUNTED(h->sid_len, "marker", "markers"),
               o->f64 ? "f64" : "i8", o->animal_order ? 'C' : 'F');
}
