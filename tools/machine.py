"""What a machine is like: how many processors a run may use, and how long something may take there."""

import functools
import os
import time

USUAL = 0.09  # seconds of the reference on the machine that limits are told for
USUAL_PROCESSORS = 4


def processors():
    """How many processors this run may use."""
    return len(os.sched_getaffinity(0))


def reference():
    """The seconds of some fixed work of one processor."""
    begun, value = time.perf_counter(), 0
    for k in range(1_000_000):
        value = (31 * value + k) % 1_000_003
    return time.perf_counter() - begun


@functools.lru_cache(maxsize=None)
def slowness():
    """How many times longer work may take here than on the usual machine, at least 1: by the reference, timed in this run, and by
    processors, where there are fewer."""
    return max(1, sorted(reference() for _ in range(5))[2] / USUAL) * max(1, USUAL_PROCESSORS / processors())


def seconds(usual):
    """How long something may take here that may take so many seconds on the usual machine."""
    return usual * slowness()
