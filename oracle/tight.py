"""What a store needs, by asking the oracle, and jobs in a folder."""

import os
import random
import subprocess
import sys

ORACLE = os.path.join(os.path.dirname(os.path.abspath(__file__)), "..", "target", "oracle", "oracle")
COUNTS = ["work", "predicates", "positions", "links", "live", "rounds", "bytes", "widened"]


def answer(text):
    done = subprocess.run([ORACLE], input=text.encode(), capture_output=True, timeout=60)
    if done.returncode != 0:
        sys.exit(f"the oracle failed:\n{done.stderr.decode()}\non the job\n{text}")
    return done.stdout.decode().splitlines()


def charged(store, resource):
    """Each call with what had been counted before it and after it."""
    calls = [call for call in store.calls if call != [50]]
    lines = answer(store.text(calls=[item for call in calls for item in (call, [50])]))
    after = [int(line.split()[1 + COUNTS.index(resource)]) for line in lines if line.startswith("n ")]
    return list(zip(calls, [0] + after, after))


def entries_needed(store):
    """The least limit on live entries that refuses nothing, by bisection."""
    def enough(limit):
        lines = answer(store.text(entries=limit))
        return not any(line.startswith(("refused 9 ", "stop 9 ")) for line in lines)
    high = 1
    while not enough(high):
        high *= 2
    low = -1
    while high - low > 1:
        middle = (low + high) // 2
        if enough(middle):
            high = middle
        else:
            low = middle
    return high


def write_jobs(seed, count, folder, texts):
    """The first `count` of the texts that belong to a seed; each turn makes some, from the seed and its number alone."""
    os.makedirs(folder, exist_ok=True)
    written, turn = 0, 0
    while written < count:
        turn += 1
        for text in texts(random.Random(f"{seed}/{turn}"))[:count - written]:
            written += 1
            with open(os.path.join(folder, f"{seed}-{written:04}.job"), "w", encoding="utf-8", newline="") as job:
                job.write(text)
