/* mungkelas: the core on files. */
#include <errno.h>
#include <stdio.h>
#include <string.h>

#include "cli.h"

int main(int argc, char **argv) {
    struct options options = read_arguments(argc, argv);
    catch_signals();
    struct herd herd = open_herd(&options);
    switch (options.subcommand) {
    case CHECK: check(&herd); break;
    case READ: read_matrix(&herd); break;
    case STANDARDISE: standardise(&herd); break;
    case FREQ: freq(&herd); break;
    case CANONICAL: canonical(&herd); break;
    }
    close_herd(&herd);
    if (fflush(stdout)) fail("standard output: %s", strerror(errno));
    return 0;
}
