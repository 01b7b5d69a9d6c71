/* Files that are read: mapped if that can be, else (a pipe) read whole. */
#include <errno.h>
#include <fcntl.h>
#include <stdlib.h>
#include <string.h>
#include <sys/mman.h>
#include <sys/stat.h>
#include <unistd.h>

#include "cli.h"

void *room_for(size_t count, size_t size) {
    void *at = calloc(count ? count : 1, size);
    if (!at) fail("no memory for %zu times %zu bytes", count, size);
    return at;
}

char *joined(const char *a, const char *b) {
    char *both = room_for(strlen(a) + strlen(b) + 1, 1);
    return strcat(strcpy(both, a), b);
}

static struct bytes read_whole(int fd, const char *path) {
    size_t room = 0, len = 0;
    uint8_t *at = NULL;
    for (;;) {
        if (len == room) {
            room = room ? 2 * room : 65536;
            at = realloc(at, room);
            if (!at) fail("%s: no memory for %zu bytes", path, room);
        }
        ssize_t got = read(fd, at + len, room - len);
        if (got < 0 && errno == EINTR) continue;
        if (got < 0) fail("%s: %s", path, strerror(errno));
        if (got == 0) return (struct bytes){at, len};
        len += (size_t)got;
    }
}

struct file open_file(char *path) {
    struct file file = {.path = path};
    struct stat about;
    int fd = open(path, O_RDONLY | O_CLOEXEC);
    if (fd < 0 || fstat(fd, &about)) fail("%s: %s", path, strerror(errno));
    if (!S_ISREG(about.st_mode)) {
        file.bytes = read_whole(fd, path);
    } else if (about.st_size) {
        void *at = mmap(NULL, (size_t)about.st_size, PROT_READ, MAP_SHARED, fd, 0);
        if (at == MAP_FAILED) fail("%s: %s", path, strerror(errno));
        file.bytes = (struct bytes){at, (size_t)about.st_size};
        file.mapped = true;
    }
    if (close(fd)) fail("%s: %s", path, strerror(errno));
    return file;
}

void close_file(struct file *file) {
    if (!file->path) return;
    if (!file->mapped) free((void *)file->bytes.at);
    else if (munmap((void *)file->bytes.at, file->bytes.len)) fail("%s: %s", file->path, strerror(errno));
    free(file->path);
    *file = (struct file){0};
}
