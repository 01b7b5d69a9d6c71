/* A prefix, and what is read of it: the counts, the lists, and the core's checks of both before anything is made for them. */
#include <stdio.h>
#include <stdlib.h>
#include <string.h>
#include <sys/stat.h>

#include "cli.h"

/* The places that are marked, as a list; all of count places if marks is null. */
static int64_t *list_of(const struct herd *h, const uint8_t *marks, size_t count, size_t *len) {
    int64_t *list = room_for(count, sizeof *list);
    bed_answer a = marks ? bed_index_bool(count, marks, count, list, count) : bed_index_all(count, list, count);
    if (a.number) refuse(h, a);
    *len = (size_t)a.first;
    return list;
}

typedef size_t marking(struct bytes lines, struct bytes list, uint8_t *marks, uint8_t mark, size_t *names);

static void mark_listed(const struct options *o, marking *by, const struct file *lines, const char *path, uint8_t *marks, uint8_t mark) {
    struct file list = open_file(joined(path, ""));
    size_t names, missing = by(lines->bytes, list.bytes, marks, mark, &names);
    if (missing && !o->quiet) fprintf(stderr, "mungkelas: %s: %zu of %zu names are in no line of %s\n", path, missing, names, lines->path);
    close_file(&list);
}

static void make_lists(struct herd *h) {
    const struct options *o = h->options;
    uint8_t *animals = o->keep ? room_for(h->animals, 1) : NULL, *markers = o->extract || o->exclude ? room_for(h->markers, 1) : NULL;
    if (o->keep) mark_listed(o, mark_animals, &h->fam, o->keep, animals, 1);
    if (o->extract) mark_listed(o, mark_markers, &h->bim, o->extract, markers, 1);
    if (!o->extract && o->exclude) memset(markers, 1, h->markers);
    if (o->exclude) mark_listed(o, mark_markers, &h->bim, o->exclude, markers, 0);
    h->iids = list_of(h, animals, h->animals, &h->iid_len);
    h->sids = list_of(h, markers, h->markers, &h->sid_len);
    free(animals), free(markers);
}

/* A reading of no value: what the core says of the file and of the lists. */
static void accept(const struct herd *h, const int64_t *iids, size_t iid_len, const int64_t *sids, size_t sid_len) {
    bed_answer a = bed_read_i8(h->bed.bytes.at, h->bed.bytes.len, h->animals, h->markers, true, iids, iid_len, sids, sid_len, 0, false, NULL, 0);
    if (a.number) refuse(h, a);
}

struct herd open_herd(const struct options *o) {
    struct herd h = {.options = o, .animals = o->animals, .markers = o->markers};
    h.bed = open_file(joined(o->prefix, ".bed"));
    if (!o->has_animals) {
        h.fam = open_file(joined(o->prefix, ".fam"));
        h.animals = count_lines(h.fam.bytes);
    }
    if (!o->has_markers) {
        h.bim = open_file(joined(o->prefix, ".bim"));
        h.markers = count_lines(h.bim.bytes);
    }
    accept(&h, NULL, 0, NULL, 0);
    h.mode_1 = bed_open_and_check(h.bed.bytes.at, h.bed.bytes.len).first == 1;
    if (o->subcommand == READ || o->subcommand == STANDARDISE || o->subcommand == FREQ) {
        make_lists(&h);
        accept(&h, h.iids, h.iid_len, NULL, 0);
        accept(&h, NULL, 0, h.sids, h.sid_len);
    }
    return h;
}

static void spare(const struct herd *h, const char *path) {
    const struct options *o = h->options;
    const char *own[] = {h->bed.path, h->fam.path, h->bim.path, o->keep, o->extract, o->exclude};
    struct stat here, there;
    if (stat(path, &here)) return;
    for (size_t i = 0; i < sizeof own / sizeof *own; i++)
        if (own[i] && !stat(own[i], &there) && here.st_dev == there.st_dev && here.st_ino == there.st_ino)
            fail("%s: this is read, and is not written over", path);
}

void spare_own_files(const struct herd *h, const char *path) {
    char *part = joined(path, ".part");
    spare(h, path), spare(h, part);
    free(part);
}

void close_herd(struct herd *h) {
    close_file(&h->bed), close_file(&h->fam), close_file(&h->bim);
    free(h->iids), free(h->sids);
}
