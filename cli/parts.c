/* Threads, each taking the next part until none is left. */
#include <pthread.h>
#include <stdio.h>
#include <stdlib.h>
#include <string.h>
#include <unistd.h>

#include "cli.h"

#define PART_BYTES ((size_t)1 << 24) /* so that progress is seen and threads end together */
#define LINES_ACROSS 512

size_t lines_a_part(size_t lines, size_t line_bytes, bool across, size_t threads) {
    size_t n = line_bytes ? PART_BYTES / line_bytes : lines, share = lines / threads + (lines % threads != 0);
    if (n > share) n = share;
    size_t least = across ? LINES_ACROSS : 1;
    return n < least ? least : n;
}

size_t threads_used(size_t lines, size_t lines_a_part, size_t threads) {
    size_t parts = lines / lines_a_part + (lines % lines_a_part != 0);
    return parts < threads ? parts : threads;
}

struct shared {
    const struct run *run;
    pthread_mutex_t lock;
    size_t next, done; /* lines taken, lines done */
    size_t refused_at; /* the first line of the part that answer is of */
    bed_answer answer;
    bool shown;
    unsigned percent;
};

struct worker {
    struct shared *shared;
    size_t thread;
};

static void check_lock(int error) {
    if (error) fail("a lock failed: %s", strerror(error));
}

static void show(struct shared *s) {
    unsigned percent = (unsigned)(100.0 * (double)s->done / (double)s->run->lines);
    if (!s->shown || percent == s->percent) return;
    s->percent = percent;
    fprintf(stderr, "\r%s: %u%%", s->run->doing, percent);
}

static void *work(void *with) {
    struct worker *w = with;
    struct shared *s = w->shared;
    check_lock(pthread_mutex_lock(&s->lock));
    while (s->next < s->run->lines) {
        size_t start = s->next, left = s->run->lines - start, lines = left < s->run->lines_a_part ? left : s->run->lines_a_part;
        s->next += lines;
        check_lock(pthread_mutex_unlock(&s->lock));
        bed_answer a = s->run->part(s->run->with, start, lines, w->thread);
        check_lock(pthread_mutex_lock(&s->lock));
        if (a.number && (!s->answer.number || start < s->refused_at)) s->answer = a, s->refused_at = start;
        s->done += lines;
        show(s);
    }
    check_lock(pthread_mutex_unlock(&s->lock));
    return NULL;
}

bed_answer run_parts(const struct run *run) {
    struct shared s = {.run = run, .lock = PTHREAD_MUTEX_INITIALIZER, .shown = !run->quiet && isatty(STDERR_FILENO), .percent = 101};
    struct worker *workers = room_for(run->threads, sizeof *workers);
    pthread_t *threads = room_for(run->threads, sizeof *threads);
    size_t started = 1; /* this thread is the first */
    for (size_t t = 0; t < run->threads; t++) workers[t] = (struct worker){&s, t};
    size_t wanted = threads_used(run->lines, run->lines_a_part, run->threads);
    /* A thread that cannot be had is done without. */
    while (started < wanted && !pthread_create(&threads[started], NULL, work, &workers[started])) started++;
    work(&workers[0]);
    for (size_t t = 1; t < started; t++) check_lock(pthread_join(threads[t], NULL));
    if (s.shown) fprintf(stderr, "\r%*s\r", (int)strlen(run->doing) + 6, "");
    free(workers), free(threads);
    return s.answer;
}
