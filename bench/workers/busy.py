"""Times `trace` with several workers while other programs take all processors. The words are the program, the number of runs, the workers
(as 1,2,4,8,32) and the plants.

As many loops as the machine has processors run beside it. Of each number of workers the median of all runs counts, in wall time, beside that
of one worker; the runs of one worker, of two and so on take turns.
"""

import os
import statistics
import subprocess
import sys
import tempfile
from contextlib import contextmanager
from pathlib import Path

from times import seconds

LOOP = "while True: pass"
MOST = 1.5


@contextmanager
def busy(processors):
    """Takes the processors for as long as the block lasts."""
    loops = [subprocess.Popen([sys.executable, "-c", LOOP]) for _ in range(processors)]
    try:
        yield
    finally:
        for loop in loops:
            loop.kill()
            loop.wait()


def medians(program, plant, runs, crews):
    """The median of the wall times of each number of workers."""
    took = {workers: [] for workers in crews}
    with open(os.devnull, "wb") as nowhere:
        for _ in range(runs):
            for workers in crews:
                took[workers].append(seconds(program, plant, workers, nowhere)[0])
    return {workers: statistics.median(times) for workers, times in took.items()}


def main():
    program, runs, crews, files = sys.argv[1], int(sys.argv[2]), [int(w) for w in sys.argv[3].split(",")], sys.argv[4:]
    processors = len(os.sched_getaffinity(0))
    print(f"{processors} processors, all taken by other programs, the median of {runs} runs each: wall time, how many times that of one worker")
    print("| plant | " + " | ".join(f"{w} workers" if w > 1 else "1 worker" for w in crews) + " |")
    print("|---" * (1 + len(crews)) + "|")
    slowest = 0.0
    with tempfile.TemporaryDirectory() as folder, busy(processors):
        plant = Path(folder, "plant")
        for file in files:
            plant.write_bytes(Path(file).read_text().split("\nstates\n")[0].encode())
            wall = medians(program, plant, runs, crews)
            slowest = max(slowest, *(wall[w] / wall[crews[0]] for w in crews))
            cells = [f"{wall[w] * 1000:.1f} ms, {wall[w] / wall[crews[0]]:.2f}" for w in crews]
            print(f"| {Path(file).stem} | " + " | ".join(cells) + " |", flush=True)
    print(f"at most {slowest:.2f} times the time of one worker (aim: {MOST})")


if __name__ == "__main__":
    main()
