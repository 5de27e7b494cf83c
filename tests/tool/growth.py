"""How the time of a run grows with what it is given.

It is that of processors, and goes by proportion: a machine that is slow or busy takes longer for all of it, and fails no test; work that is
a square does. """

import resource

# A run of four times as much takes four times as long where the work is in proportion, and sixteen times where it is a square.
QUARTER, MOST_TIMES = 4, 7
# What a whole run may take in any case, in seconds.
MOST_SECONDS = 60
# How often both are tried at most: the least counts, since what else the machine does only adds to it.
TRIES = 3


def used():
    """The seconds that processors gave to the processes that this one has run."""
    taken = resource.getrusage(resource.RUSAGE_CHILDREN)
    return taken.ru_utime + taken.ru_stime


def seconds(run, count):
    """What a run of so many gives, and the seconds of processors that it took."""
    before = used()
    return run(count), used() - before


def grown(run, count):
    """What a run of so many gives, and what is wrong with how much longer it takes than one of a quarter, or None."""
    quarters, wholes = [], []
    for _ in range(TRIES):
        quarters.append(seconds(run, count // QUARTER)[1])
        given, took = seconds(run, count)
        wholes.append(took)
        if min(wholes) <= min(MOST_TIMES * min(quarters), MOST_SECONDS):
            return given, None
    return given, f"{min(wholes):.1f} seconds of processors, and {min(quarters):.1f} for a quarter"
