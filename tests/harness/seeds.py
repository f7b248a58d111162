"""Seeded random sources. Every failure tells the seeds in use; SEED=N in the environment takes the place of each."""
import os
import random

USED = []


def number(usual):
    """The seed: the usual one, or SEED."""
    chosen = int(os.environ.get('SEED') or usual)
    if chosen not in USED:
        USED.append(chosen)
    return chosen


def seeded(usual):
    """A random source with the seed, which failures tell from then on."""
    return random.Random(number(usual))


def told():
    """What a failure's line has behind it."""
    return f' (seed {", ".join(map(str, USED))})' if USED else ''
