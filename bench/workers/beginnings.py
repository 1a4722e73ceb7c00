"""Counts how many beginnings of sets are made where workers take the sets in turn. The words are the program and the plants.

An examiner keeps the tables and runs of the beginnings of its last set, so a set takes those of its further beginnings alone. The count is
from the order of the sets, as `trace` with one worker prints it, and from nothing that is timed: of one worker, of workers who each take
every second or fourth set of a level, and of four who take stretches of eight neighbours, which the registry doesn't give out.
"""

import subprocess
import sys
from itertools import groupby, takewhile
from pathlib import Path


def claimed(program, file):
    """The sets of a plant in the order of their claims."""
    plant = Path(file).read_text().split("\nstates\n")[0].encode()
    history = subprocess.run([program, "trace"], input=plant, capture_output=True, check=True).stdout.decode()
    texts = [line.split()[2].strip("{}") for line in history.splitlines() if line.startswith("claim")]
    return [tuple(map(int, text.split(","))) if text else () for text in texts]


def alike(one, other):
    """With how many members two sets begin alike."""
    return sum(1 for _ in takewhile(lambda pair: pair[0] == pair[1], zip(one, other)))


def made(sets, workers, stretch):
    """How many beginnings with members are made by so many workers, who take stretches of so many sets of a level in turn."""
    last = [()] * workers
    count = 0
    for _, level in groupby(sets, len):
        for place, one in enumerate(level):
            worker = place // stretch % workers
            count += max(0, len(one) - 1 - alike(last[worker], one))
            last[worker] = one
    return count


def main():
    program, files = sys.argv[1], sys.argv[2:]
    print("| plant | sets | 1 worker | 2 in turn | 4 in turn | 4, by eight neighbours |")
    print("|---" * 6 + "|")
    for file in files:
        sets = claimed(program, file)
        counts = [made(sets, 1, 1), made(sets, 2, 1), made(sets, 4, 1), made(sets, 4, 8)]
        print(f"| {Path(file).stem} | {len(sets)} | " + " | ".join(map(str, counts)) + " |", flush=True)


if __name__ == "__main__":
    main()
