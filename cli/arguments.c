/* The arguments: one table of options, which says what each subcommand takes. */
#include <errno.h>
#include <stdarg.h>
#include <stdio.h>
#include <stdlib.h>
#include <string.h>
#include <unistd.h>

#include "cli.h"

static const char help[] =
    "usage: mungkelas check PREFIX [--animals N] [--markers N] [--quiet]\n"
    "       mungkelas read PREFIX -o OUT.npy [--dtype i8|f64] [options]\n"
    "       mungkelas standardise PREFIX -o OUT.npy [options]\n"
    "       mungkelas freq PREFIX -o OUT [options]\n"
    "       mungkelas canonical PREFIX -o OUT [--animals N] [--markers N] [--quiet]\n"
    "       mungkelas --help | --version\n"
    "\n"
    "Reads PREFIX.bed, PREFIX.fam and PREFIX.bim.\n"
    "  check          says whether the .bed file is accepted, and whether its pads are set\n"
    "  read           writes the calls as a NumPy array, animals by markers\n"
    "  standardise    writes the standardised values, and the statistics beside them, as OUT.stats.npy\n"
    "  freq           writes a table of text: the counts of each marker's calls, and the first allele's frequency\n"
    "  canonical      writes OUT.bed, the file of mode 1 with the same calls and zero pads\n"
    "\n"
    "options of read and standardise, and from --animals on of freq:\n"
    "  --dtype i8|f64   the type of the values (read: i8; standardise: f64 alone)\n"
    "  --order F|C      F: a marker's values stand beside each other (as it is without this); C: an animal's\n"
    "  --a2             count the second allele, not the first\n"
    "  --animals N      the number of animals, else the lines of PREFIX.fam\n"
    "  --markers N      the number of markers, else the lines of PREFIX.bim\n"
    "  --keep FILE      read the animals named in FILE alone: a line is FID and IID, or IID\n"
    "  --extract FILE   read the markers named in FILE alone\n"
    "  --exclude FILE   leave out the markers named in FILE\n"
    "  --threads N      use N threads (else one a processor)\n"
    "  --quiet          say nothing but what is wrong\n"
    "\n"
    "Exit status: 0 done, 1 refused, 2 wrong usage or a failure of the system. The manual page is mungkelas(1).\n";

enum option { OUT, DTYPE, ORDER, A2, ANIMALS, MARKERS, KEEP, EXTRACT, EXCLUDE, THREADS, QUIET, OPTIONS };

#define IN(subcommand) (1u << (subcommand))
#define MATRIX (IN(READ) | IN(STANDARDISE))
#define LISTED (MATRIX | IN(FREQ))
#define ALL (LISTED | IN(CHECK) | IN(CANONICAL))

static const struct {
    const char *name;
    bool has_value;
    unsigned of; /* the subcommands that take it */
} table[OPTIONS] = {
    [OUT] = {"-o", true, LISTED | IN(CANONICAL)}, [DTYPE] = {"--dtype", true, MATRIX},
    [ORDER] = {"--order", true, MATRIX},          [A2] = {"--a2", false, MATRIX},
    [ANIMALS] = {"--animals", true, ALL},         [MARKERS] = {"--markers", true, ALL},
    [KEEP] = {"--keep", true, LISTED},            [EXTRACT] = {"--extract", true, LISTED},
    [EXCLUDE] = {"--exclude", true, LISTED},      [THREADS] = {"--threads", true, ALL},
    [QUIET] = {"--quiet", false, ALL},
};

static const char *const subcommands[] = {
    [CHECK] = "check", [READ] = "read", [STANDARDISE] = "standardise", [FREQ] = "freq", [CANONICAL] = "canonical"};

static noreturn void misused(const char *format, ...) {
    va_list rest;
    va_start(rest, format);
    fprintf(stderr, "mungkelas: ");
    vfprintf(stderr, format, rest);
    fprintf(stderr, "; mungkelas --help says more\n");
    va_end(rest);
    exit(2);
}

static noreturn void say(const char *text) {
    if (fputs(text, stdout) == EOF || fflush(stdout)) fail("standard output: %s", strerror(errno));
    exit(0);
}

/* The option that the argument is, or OPTIONS; value is what stands behind its = (else null). */
static enum option find(const char *argument, const char **value) {
    for (enum option i = 0; i < OPTIONS; i++) {
        size_t len = strlen(table[i].name);
        if (strncmp(argument, table[i].name, len)) continue;
        *value = argument[len] == '=' ? argument + len + 1 : NULL;
        if (!argument[len] || (*value && table[i].has_value)) return i;
    }
    return OPTIONS;
}

static size_t number(enum option option, const char *text) {
    errno = 0;
    unsigned long long n = strtoull(text, NULL, 10);
    if (!*text || strspn(text, "0123456789") != strlen(text) || errno) misused("%s: %s is no number from 0 to 2^64 - 1", table[option].name, text);
    return n;
}

/* Whether the text is the second of the two words; it has to be one of them. */
static bool second(enum option option, const char *text, const char *first, const char *other) {
    if (strcmp(text, first) && strcmp(text, other)) misused("%s: %s is neither %s nor %s", table[option].name, text, first, other);
    return !strcmp(text, other);
}

#define MOST_THREADS 1024

static size_t processors(void) {
    long n = sysconf(_SC_NPROCESSORS_ONLN);
    return n < 1 ? 1 : n < MOST_THREADS ? (size_t)n : MOST_THREADS;
}

struct options read_arguments(int argc, char **argv) {
    const char *given[OPTIONS] = {0}, *words[2] = {0};
    int count = 0;
    bool ended = false; /* by -- */
    for (int k = 1; k < argc; k++) {
        const char *argument = argv[k], *value;
        if (ended || argument[0] != '-' || !argument[1]) {
            if (count == 2) misused("%s is one word too many", argument);
            words[count++] = argument;
            continue;
        }
        ended = !strcmp(argument, "--");
        if (ended) continue;
        if (!strcmp(argument, "--help") || !strcmp(argument, "-h")) say(help);
        if (!strcmp(argument, "--version")) say("mungkelas " MUNGKELAS_VERSION "\n");
        enum option option = find(argument, &value);
        if (option == OPTIONS) misused("%s is no option", argument);
        if (given[option]) misused("%s is given twice", table[option].name);
        if (table[option].has_value && !value && ++k == argc) misused("%s has no value", argument);
        given[option] = !table[option].has_value ? "" : value ? value : argv[k];
    }
    if (count == 0) misused("no subcommand is given");

    struct options options = {.prefix = words[1], .out = given[OUT], .keep = given[KEEP], .extract = given[EXTRACT], .exclude = given[EXCLUDE]};
    size_t s = 0;
    while (s <= CANONICAL && strcmp(words[0], subcommands[s])) s++;
    if (s > CANONICAL) misused("%s is no subcommand", words[0]);
    options.subcommand = (enum subcommand)s;
    if (count == 1) misused("%s: no PREFIX is given", words[0]);
    for (enum option i = 0; i < OPTIONS; i++)
        if (given[i] && !(table[i].of & IN(s))) misused("%s takes no %s", words[0], table[i].name);
    if (s != CHECK && (!options.out || !*options.out)) misused("%s: no -o OUT is given", words[0]);

    options.f64 = s == STANDARDISE;
    if (given[DTYPE]) options.f64 = second(DTYPE, given[DTYPE], "i8", "f64");
    if (s == STANDARDISE && !options.f64) misused("standardise: the values are f64");
    options.animal_order = given[ORDER] && second(ORDER, given[ORDER], "F", "C");
    options.is_a1_counted = !given[A2];
    options.quiet = given[QUIET];
    options.has_animals = given[ANIMALS];
    options.has_markers = given[MARKERS];
    if (given[ANIMALS]) options.animals = number(ANIMALS, given[ANIMALS]);
    if (given[MARKERS]) options.markers = number(MARKERS, given[MARKERS]);
    if (given[ANIMALS] && given[KEEP]) misused("--keep takes names from the .fam file, which is not read with --animals");
    if (given[MARKERS] && (given[EXTRACT] || given[EXCLUDE]))
        misused("%s takes names from the .bim file, which is not read with --markers", given[EXTRACT] ? "--extract" : "--exclude");
    options.threads = given[THREADS] ? number(THREADS, given[THREADS]) : processors();
    if (options.threads < 1 || options.threads > MOST_THREADS) misused("--threads: %s is not from 1 to %d", given[THREADS], MOST_THREADS);
    return options;
}
