"""Cutting work into parts, and running them in threads."""
import os
from concurrent.futures import ThreadPoolExecutor

PART = 1 << 19  # values of a part or of a scratch buffer, about
LEAST = 1 << 14  # values that are worth a part
ACROSS = 512  # lines that are worth a part across the blocks, since it goes through every block


def cut(total, size):
    """The pairs of start and end that cut 0 to total into parts of this size."""
    return [(start, min(start + size, total)) for start in range(0, total, size)]


def lines_of_part(lines, length, across, threads, whole):
    """How many lines of this length a part has. whole: as many parts as threads, else parts of about PART values."""
    length = max(length, 1)
    share = -(-lines // threads)
    return max(1, share if whole else min(share, PART // length), LEAST // length, ACROSS if across else 1)


def run_lines(work, lines, length, across, threads, told):
    """work(start, end) for parts of the lines of a matrix."""
    whole = told.progress is None and (threads == 1 or across)
    cuts = cut(lines, lines_of_part(lines, length, across, threads, whole))
    run(lambda part: work(*part), cuts, threads, lambda part: told.add((part[1] - part[0]) * length))


def thread_count(*wishes):
    """The first wish that is not None, else the environment's, else the processors that this process may use."""
    wishes += os.environ.get("MUNGKELAS_NUM_THREADS"), os.environ.get("NUM_THREADS"), 0
    count = int(next(wish for wish in wishes if wish is not None))
    if count < 0:
        raise ValueError("num_threads is {}".format(count))
    return count or len(os.sched_getaffinity(0))


class Told:
    """Tells progress, a function or None, how many values are done."""

    def __init__(self, progress, total):
        self.progress, self.done, self.total = progress, 0, total
        self.add(0)

    def add(self, values):
        self.done += values
        if self.progress is not None:
            self.progress(self.done, self.total)


def run(work, parts, threads, tell):
    """work(part) for each part, in threads; tell(part) after each, in order and in this thread."""
    if threads == 1 or len(parts) < 2:
        for part in parts:
            work(part)
            tell(part)
        return
    with ThreadPoolExecutor(min(threads, len(parts))) as pool:
        runs = [pool.submit(work, part) for part in parts]
        try:
            for part, running in zip(parts, runs):
                running.result()
                tell(part)
        finally:
            for running in runs:
                running.cancel()
