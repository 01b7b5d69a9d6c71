/* What the files of the command share. */
#ifndef CLI_H
#define CLI_H

#include <stdbool.h>
#include <stddef.h>
#include <stdint.h>
#include <stdnoreturn.h>

#include "mungkelas.h"

/* ---- arguments.c ---- */

enum subcommand { CHECK, READ, STANDARDISE, FREQ, CANONICAL };

struct options {
    enum subcommand subcommand;
    const char *prefix, *out, *keep, *extract, *exclude; /* null if not given, but for prefix */
    bool f64, animal_order, is_a1_counted, quiet;
    bool has_animals, has_markers; /* --animals, --markers */
    size_t animals, markers;
    size_t threads;
};

/* Ends the program at --help, --version and a usage that is wrong. */
struct options read_arguments(int argc, char **argv);

/* ---- files.c: files that are read ---- */

struct bytes {
    const uint8_t *at;
    size_t len;
};

struct file {
    char *path; /* null: not opened */
    struct bytes bytes;
    bool mapped;
};

struct file open_file(char *path);
void close_file(struct file *file);

/* a followed by b, to be freed */
char *joined(const char *a, const char *b);
void *room_for(size_t count, size_t size);

/* ---- output.c: files that are written ---- */

#define OUTPUTS 2

/* Catches the signals that end a run, so that no .part is left. Before the first output. */
void catch_signals(void);
/* Makes path.part of len bytes, reserved on the disk, and maps it. Every way out of the program but keep_outputs removes it. */
uint8_t *make_output(const char *path, size_t len);
/* Leaves the first len bytes of the output made last, for one whose length is not known before. */
void cut_output(size_t len);
/* Puts every output under its own name, the first one made last. */
void keep_outputs(void);

/* ---- names.c: .fam, .bim and lists of names ---- */

/* A blank line does not count. */
size_t count_lines(struct bytes text);
/* Sets marks[i] to mark for each line i of a .fam or .bim that the list names. Answers how many of its *names names are in no line. */
size_t mark_animals(struct bytes fam, struct bytes list, uint8_t *marks, uint8_t mark, size_t *names);
size_t mark_markers(struct bytes bim, struct bytes list, uint8_t *marks, uint8_t mark, size_t *names);
/* The name in the next line of a .bim, which is taken off; of length 0 if there is none. */
struct bytes next_marker(struct bytes *bim);
/* The fields of the next line of a .bim, which is taken off; one that is absent has length 0. */
#define BIM_FIELDS 6
void next_fields(struct bytes *bim, struct bytes fields[BIM_FIELDS]);

/* ---- herd.c: a prefix, and what is read of it ---- */

struct herd {
    const struct options *options;
    struct file bed, fam, bim; /* fam and bim are not opened if the counts are given */
    size_t animals, markers;   /* the counts of the file */
    bool mode_1;
    int64_t *iids, *sids; /* the lists, in file order */
    size_t iid_len, sid_len;
};

/* Ends the program if the core refuses the file or a list. Lists are made for read, standardise and freq alone. */
struct herd open_herd(const struct options *options);
void close_herd(struct herd *herd);
/* Ends the program if the path, or path.part, is one of the files that are read. */
void spare_own_files(const struct herd *herd, const char *path);

/* ---- words.c ---- */

/* Says why, and ends with 2: usage or system. */
noreturn void fail(const char *format, ...) __attribute__((format(printf, 1, 2)));
/* Says a refusal of the core in words, and ends with 1. */
noreturn void refuse(const struct herd *herd, bed_answer answer);
/* "1 animal", "2 animals" */
#define COUNTED(n, one, many) (n), (n) == 1 ? (one) : (many)

/* ---- npy.c ---- */

#define NPY_HEADER 128

/* Writes the NPY_HEADER bytes before the values of a matrix: descr is NumPy's word for the type, fortran_order that columns are kept together. */
void write_npy_header(uint8_t *to, const char *descr, bool fortran_order, size_t rows, size_t columns);

/* ---- parts.c: threads ---- */

/* A run over lines, a part of them at a time. Parts are taken by threads; which thread has which part changes no byte. */
struct run {
    const char *doing; /* for the progress */
    bool quiet;
    size_t lines, lines_a_part, threads;
    bed_answer (*part)(void *with, size_t start, size_t lines, size_t thread);
    void *with;
};

/* How many lines a part has. across: a line is not a block of the file, so that each part goes through all blocks. */
size_t lines_a_part(size_t lines, size_t line_bytes, bool across, size_t threads);
/* How many of the threads are used: no more than there are parts. The number of a part's thread is below it. */
size_t threads_used(size_t lines, size_t lines_a_part, size_t threads);
/* Answers what the first part that is refused does, or done. Every part is run. */
bed_answer run_parts(const struct run *run);

/* ---- the subcommands, each in its file ---- */

void check(const struct herd *herd);
void read_matrix(const struct herd *herd);
void standardise(const struct herd *herd);
void freq(const struct herd *herd);
void canonical(const struct herd *herd);

#endif
