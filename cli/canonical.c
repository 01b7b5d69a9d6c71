/* canonical: the file of mode 1 with the same calls and zero pads. */
#include <stdio.h>
#include <stdlib.h>
#include <string.h>

#include "cli.h"

void canonical(const struct herd *h) {
    const struct options *o = h->options;
    size_t end = strlen(o->out);
    char *path = joined(o->out, end > 4 && !strcmp(o->out + end - 4, ".bed") ? "" : ".bed");
    bed_answer width = bed_try_div_4(h->animals, h->markers);
    if (width.number) refuse(h, width);
    size_t len = 3 + (size_t)width.first * h->markers;
    uint8_t *out = make_output(path, len);
    bed_answer a = bed_canonical(h->bed.bytes.at, h->bed.bytes.len, h->animals, h->markers, out, len);
    if (a.number) refuse(h, a);
    keep_outputs();
    if (!o->quiet)
        printf("%s: %zu %s by %zu %s, mode 1, %zu bytes\n", path, COUNTED(h->animals, "animal", "animals"), COUNTED(h->markers, "marker", "markers"),
               len);
    free(path);
}
