"""Times `trace` with several workers, side by side. The words are the program, the number of runs, the workers (as 1,2,4) and the plants.

Of each number of workers the least time of all runs counts, in wall time and in processor time of all threads, start and output of the
program included. The runs of one worker, of two and so on take turns, so that a disturbance meets them alike. At the end as many programs
as the machine has processors run beside each other with one worker each on the last plant: how much slower they are than one alone is what
the machine itself takes from workers beside each other.
"""

import os
import subprocess
import sys
import tempfile
import time
from pathlib import Path


def begin(program, plant, workers, output):
    words = [program, "trace"] if workers == 1 else [program, "trace", "--workers", str(workers)]
    return subprocess.Popen(words, stdin=open(plant, "rb"), stdout=output)


def finish(process):
    """The processor time of a run, which must end well."""
    _, status, used = os.wait4(process.pid, 0)
    process.returncode = os.waitstatus_to_exitcode(status)
    if process.returncode != 0:
        sys.exit(f"{' '.join(process.args)}: status {process.returncode}")
    return used.ru_utime + used.ru_stime


def seconds(program, plant, workers, output):
    """Wall time and processor time of one run."""
    start = time.perf_counter()
    used = finish(begin(program, plant, workers, output))
    return time.perf_counter() - start, used


def together(program, plant, count, output):
    """Wall time of so many runs of one worker beside each other."""
    start = time.perf_counter()
    for process in [begin(program, plant, 1, output) for _ in range(count)]:
        finish(process)
    return time.perf_counter() - start


def shape(history):
    """How many sets a history has, how many laws, and the size of its widest level."""
    claims = [line.split()[2] for line in history.splitlines() if line.startswith("claim")]
    sizes = [0 if s == "{}" else s.count(",") + 1 for s in claims]
    return len(claims), history.count(" region\n"), max(sizes.count(n) for n in set(sizes))


def main():
    program, runs, crews, files = sys.argv[1], int(sys.argv[2]), [int(w) for w in sys.argv[3].split(",")], sys.argv[4:]
    processors = len(os.sched_getaffinity(0))
    print(f"{processors} processors, load {os.getloadavg()[0]:.1f} over the last minute, the least of {runs} runs each: wall time, how many times as fast as one worker, processor time")
    print("| plant | sets | laws | widest level | " + " | ".join(f"{w} workers" if w > 1 else "1 worker" for w in crews) + " |")
    print("|---" * (4 + len(crews)) + "|")
    with tempfile.TemporaryDirectory() as folder, open(os.devnull, "wb") as nowhere:
        plant = Path(folder, "plant")
        for file in files:
            plant.write_bytes(Path(file).read_text().split("\nstates\n")[0].encode())
            history = subprocess.run([program, "trace"], stdin=open(plant, "rb"), capture_output=True, check=True).stdout.decode()
            took = {w: [] for w in crews}
            for _ in range(runs):
                for workers in crews:
                    took[workers].append(seconds(program, plant, workers, nowhere))
            wall = {w: min(t for t, _ in took[w]) for w in crews}
            used = {w: min(t for _, t in took[w]) for w in crews}
            cells = [f"{wall[w] * 1000:.1f} ms, {wall[crews[0]] / wall[w]:.2f}, {used[w] * 1000:.1f} ms" for w in crews]
            print(f"| {Path(file).parent.name}/{Path(file).stem} | " + " | ".join(map(str, shape(history))) + " | " + " | ".join(cells) + " |", flush=True)
        alone = min(together(program, plant, 1, nowhere) for _ in range(runs))
        if alone < 0.05:
            # A shorter run is mostly its start.
            return
        many = min(together(program, plant, processors, nowhere) for _ in range(runs))
        print(f"{processors} programs beside each other with one worker each take {many / alone:.2f} times as long as one")


if __name__ == "__main__":
    main()
