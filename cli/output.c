/* Files that are written: OUT.part is reserved, mapped, filled, and renamed OUT at the end. However the program ends before that, OUT.part
 * is removed, and OUT is as it was. */
#include <errno.h>
#include <fcntl.h>
#include <signal.h>
#include <stdatomic.h>
#include <stdio.h>
#include <stdlib.h>
#include <string.h>
#include <sys/file.h>
#include <sys/mman.h>
#include <sys/stat.h>
#include <unistd.h>

#include "cli.h"

static struct output {
    char *path, *part;
    int fd;
    uint8_t *at;
    size_t len;
} outputs[OUTPUTS];
static volatile sig_atomic_t made; /* how many of them there are */

/* Calls only what a signal handler may. */
static void remove_parts(void) {
    for (int i = 0; i < made; i++) unlink(outputs[i].part);
    made = 0;
}

/* The handler is gone when it runs, so that the signal that it raises ends the program. */
static void interrupted(int number) {
    remove_parts();
    raise(number);
}

static void lost_page(int number) {
    static const char words[] = "mungkelas: a mapped file was cut short by someone else, or its disk failed\n";
    static atomic_flag once = ATOMIC_FLAG_INIT;
    (void)number;
    while (atomic_flag_test_and_set(&once)) pause(); /* another thread says it */
    remove_parts();
    ssize_t said = write(STDERR_FILENO, words, sizeof words - 1);
    (void)said;
    _exit(2);
}

static void on(int number, void (*handler)(int), int flags) {
    struct sigaction now, then = {.sa_handler = handler, .sa_flags = flags};
    sigemptyset(&then.sa_mask);
    if (sigaction(number, NULL, &now)) fail("signal %d: %s", number, strerror(errno));
    if (now.sa_handler == SIG_IGN) return; /* as under nohup */
    if (sigaction(number, &then, NULL)) fail("signal %d: %s", number, strerror(errno));
}

static const int ending[] = {SIGINT, SIGTERM, SIGHUP, SIGQUIT, SIGPIPE};

void catch_signals(void) {
    for (size_t i = 0; i < sizeof ending / sizeof *ending; i++) on(ending[i], interrupted, (int)SA_RESETHAND | SA_NODEFER);
    on(SIGBUS, lost_page, 0);
    on(SIGXFSZ, SIG_IGN, 0); /* a file past its limit is then an error of the call */
    if (atexit(remove_parts)) fail("no memory");
}

/* Holds the signals that end a run back, or lets them through. */
static void hold_signals(int how) {
    sigset_t held;
    sigemptyset(&held);
    for (size_t i = 0; i < sizeof ending / sizeof *ending; i++) sigaddset(&held, ending[i]);
    if (sigprocmask(how, &held, NULL)) fail("signals cannot be held: %s", strerror(errno));
}

uint8_t *make_output(const char *path, size_t len) {
    struct output *o = &outputs[made];
    struct stat opened, named;
    if (!stat(path, &named) && !S_ISREG(named.st_mode)) fail("%s: this is no plain file, and is not written over", path);
    *o = (struct output){.path = joined(path, ""), .part = joined(path, ".part"), .len = len};
    hold_signals(SIG_BLOCK);
    o->fd = open(o->part, O_RDWR | O_CREAT | O_CLOEXEC | O_NOFOLLOW, 0666);
    if (o->fd < 0) fail("%s: %s", o->part, strerror(errno));
    /* One run at a time: else the lock is another's, or what was opened has got its own name meanwhile. */
    if (flock(o->fd, LOCK_EX | LOCK_NB)) fail("%s: %s", o->part, errno == EWOULDBLOCK ? "another run is writing it" : strerror(errno));
    if (fstat(o->fd, &opened) || stat(o->part, &named)) fail("%s: %s", o->part, strerror(errno));
    if (opened.st_dev != named.st_dev || opened.st_ino != named.st_ino) fail("%s: another run has just written it", o->part);
    made++;
    hold_signals(SIG_UNBLOCK);
    if (ftruncate(o->fd, 0)) fail("%s: %s", o->part, strerror(errno));
    int error;
    while ((error = posix_fallocate(o->fd, 0, (off_t)len)) == EINTR) {}
    if (error) fail("%s: %zu bytes cannot be reserved: %s", o->part, len, strerror(error));
    void *at = mmap(NULL, len, PROT_READ | PROT_WRITE, MAP_SHARED, o->fd, 0);
    if (at == MAP_FAILED) fail("%s: %s", o->part, strerror(errno));
    return o->at = at;
}

void cut_output(size_t len) {
    struct output *o = &outputs[made - 1];
    if (ftruncate(o->fd, (off_t)len)) fail("%s: %s", o->part, strerror(errno));
}

void keep_outputs(void) {
    int count = made;
    for (int i = 0; i < count; i++)
        if (munmap(outputs[i].at, outputs[i].len) || fsync(outputs[i].fd)) fail("%s: %s", outputs[i].part, strerror(errno));
    hold_signals(SIG_BLOCK);
    for (int i = count; i-- > 0;) {
        if (!rename(outputs[i].part, outputs[i].path)) continue;
        int error = errno;
        for (int k = i + 1; k < count; k++) unlink(outputs[k].path);
        fail("%s: cannot be renamed %s: %s", outputs[i].part, outputs[i].path, strerror(error));
    }
    made = 0;
    hold_signals(SIG_UNBLOCK);
    for (int i = 0; i < count; i++) {
        if (close(outputs[i].fd)) fail("%s: %s", outputs[i].path, strerror(errno));
        free(outputs[i].path), free(outputs[i].part);
    }
}
