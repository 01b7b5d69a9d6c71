/* The header of a .npy file, version 1.0: a mark, the version, the length of what follows, and a Python dict, with blanks up to NPY_HEADER bytes, a
 * multiple of 64. */
#include <stdio.h>
#include <string.h>

#include "cli.h"

void write_npy_header(uint8_t *to, const char *descr, bool fortran_order, size_t rows, size_t columns) {
    static const uint8_t mark[10] = {0x93, 'N', 'U', 'M', 'P', 'Y', 1, 0, NPY_HEADER - 10, 0};
    char dict[NPY_HEADER];
    int len = snprintf(dict, sizeof dict, "{'descr': '%s', 'fortran_order': %s, 'shape': (%zu, %zu), }", descr, fortran_order ? "True" : "False",
                       rows, columns);
    if (len < 0 || (size_t)len + sizeof mark >= NPY_HEADER) fail("%zu by %zu: the header of the array is too long", rows, columns);
    memset(to, ' ', NPY_HEADER);
    memcpy(to, mark, sizeof mark);
    memcpy(to + sizeof mark, dict, (size_t)len);
    to[NPY_HEADER - 1] = '\n';
}
