"""Compares `fleet` with `compile` of the same plants one after the other, and times both. The words are the program, the number of runs, the
workers (as 2,4) and the plants, 8 at most.

Of each the least time counts. `fleet` is one process and the others are several, so their starts but one are taken off, each as long as the
program without words takes, which starts and ends. `compile` builds and checks a tree in threads from two workers on, as `fleet` always does.
"""

import subprocess
import sys
import time
from pathlib import Path


def run(program, text, *words):
    """How long the program takes, and what it writes."""
    begin = time.perf_counter()
    done = subprocess.run([program, *words], input=text, capture_output=True, timeout=600)
    return time.perf_counter() - begin, done.returncode, done.stdout


def one_by_one(program, plants, words):
    """The time of `compile` on the plants one after the other, and the text that `fleet` is to write."""
    took, text = 0.0, b""
    for k, plant in enumerate(plants, 1):
        some, code, answer = run(program, plant, "compile", *words)
        took += some
        text += b"plant %d %d\n" % (k, code) + answer
    return took, text


def main():
    program, runs, crews, files = sys.argv[1], int(sys.argv[2]), [int(w) for w in sys.argv[3].split(",")], sys.argv[4:]
    plants = [Path(file).read_text().split("\nstates\n")[0].encode() for file in files]
    fleet = b"\nnext\n".join(plants)
    print("workers | one after the other, with one start | fleet")
    for workers in crews:
        words = ["--workers", str(workers)]
        start, alone, together = [], [], []
        for _ in range(runs):
            start.append(run(program, b"")[0])
            took, due = one_by_one(program, plants, words)
            alone.append(took)
            took, code, text = run(program, fleet, "fleet", *words)
            together.append(took)
            if code != 0 or text != due:
                sys.exit(f"{workers} workers: fleet ends with {code}, or writes another text than compile on each plant")
        least = min(alone) - (len(plants) - 1) * min(start)
        print(f"{workers} | {least:.4f} s | {min(together):.4f} s ({min(together) / least:.2f})", flush=True)


if __name__ == "__main__":
    main()
