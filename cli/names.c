/* Names: those in the lines of a .fam and a .bim, and those in a list of them. */
#include <stdlib.h>
#include <string.h>

#include "cli.h"

/* ---- lines and words ---- */

static bool is_blank(uint8_t c) { return c == ' ' || c == '\t' || c == '\r'; }

/* Takes the next word off the line; it has length 0 at the end. */
static struct bytes next_word(struct bytes *line) {
    size_t start = 0;
    while (start < line->len && is_blank(line->at[start])) start++;
    size_t end = start;
    while (end < line->len && !is_blank(line->at[end])) end++;
    struct bytes word = {line->at + start, end - start};
    *line = (struct bytes){line->at + end, line->len - end};
    return word;
}

/* Takes the next line that is not blank off the text. */
static bool next_line(struct bytes *text, struct bytes *line) {
    while (text->len) {
        const uint8_t *end = memchr(text->at, '\n', text->len);
        size_t len = end ? (size_t)(end - text->at) : text->len, gone = end ? len + 1 : len;
        *line = (struct bytes){text->at, len};
        *text = (struct bytes){text->at + gone, text->len - gone};
        struct bytes rest = *line;
        if (next_word(&rest).len) return true;
    }
    return false;
}

size_t count_lines(struct bytes text) {
    struct bytes line;
    size_t n = 0;
    while (next_line(&text, &line)) n++;
    return n;
}

/* ---- names ---- */

struct name {
    struct bytes own, family; /* family.at null: no family is named */
    bool found;
};

struct list {
    struct name *at;
    size_t len, room;
};

static void add(struct list *list, struct name name) {
    if (list->len == list->room) {
        list->room = list->room ? 2 * list->room : 1024;
        list->at = realloc(list->at, list->room * sizeof *list->at);
        if (!list->at) fail("no memory for %zu names", list->room);
    }
    list->at[list->len++] = name;
}

static int compare_words(struct bytes a, struct bytes b) {
    if (!a.at || !b.at) return (a.at != NULL) - (b.at != NULL);
    int order = memcmp(a.at, b.at, a.len < b.len ? a.len : b.len);
    return order ? order : (a.len > b.len) - (a.len < b.len);
}

static int compare(const void *a, const void *b) {
    const struct name *x = a, *y = b;
    int order = compare_words(x->own, y->own);
    return order ? order : compare_words(x->family, y->family);
}

/* Sorts, and leaves each name once. */
static void sort(struct list *list) {
    size_t len = 0;
    if (list->len) qsort(list->at, list->len, sizeof *list->at, compare);
    for (size_t i = 0; i < list->len; i++)
        if (len == 0 || compare(&list->at[len - 1], &list->at[i])) list->at[len++] = list->at[i];
    list->len = len;
}

static bool find(struct list *list, struct bytes own, struct bytes family) {
    struct name name = {own, family, false};
    struct name *found = list->len ? bsearch(&name, list->at, list->len, sizeof name, compare) : NULL;
    if (found) found->found = true;
    return found;
}

static size_t not_found(struct list *list, size_t *names) {
    size_t n = 0;
    for (size_t i = 0; i < list->len; i++) n += !list->at[i].found;
    *names = list->len;
    free(list->at);
    return n;
}

static const struct bytes none;

/* A line of the list is FID and IID, or IID alone, which is then meant in every family. */
size_t mark_animals(struct bytes fam, struct bytes text, uint8_t *marks, uint8_t mark, size_t *names) {
    struct list list = {0};
    struct bytes line;
    while (next_line(&text, &line)) {
        struct bytes first = next_word(&line), second = next_word(&line);
        add(&list, second.len ? (struct name){second, first, false} : (struct name){first, none, false});
    }
    sort(&list);
    for (size_t i = 0; next_line(&fam, &line); i++) {
        struct bytes family = next_word(&line), own = next_word(&line);
        bool alone = find(&list, own, none), together = find(&list, own, family);
        if (alone || together) marks[i] = mark;
    }
    return not_found(&list, names);
}

struct bytes next_marker(struct bytes *bim) {
    struct bytes line;
    if (!next_line(bim, &line)) return none;
    next_word(&line);
    return next_word(&line);
}

void next_fields(struct bytes *bim, struct bytes fields[BIM_FIELDS]) {
    struct bytes line;
    bool found = next_line(bim, &line);
    for (size_t i = 0; i < BIM_FIELDS; i++) fields[i] = found ? next_word(&line) : none;
}

/* Every word of the list is a name. */
size_t mark_markers(struct bytes bim, struct bytes text, uint8_t *marks, uint8_t mark, size_t *names) {
    struct list list = {0};
    struct bytes line, word;
    while (next_line(&text, &line))
        while ((word = next_word(&line)).len) add(&list, (struct name){word, none, false});
    sort(&list);
    size_t markers = count_lines(bim);
    for (size_t i = 0; i < markers; i++)
        if (find(&list, next_marker(&bim), none)) marks[i] = mark;
    return not_found(&list, names);
}
