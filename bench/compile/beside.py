"""Times `compile` of two programs beside each other. The words are the programs, the number of runs of each, and plants or folders of plants.
Prints for each plant the least processor time and the peak of memory of both, and how many times as much the first takes. The time is user
and system time together, since of a short run the system doesn't know the shares."""

import os
import subprocess
import sys
import tempfile
from pathlib import Path

SPENT = 30.0  # seconds of one program on one plant, after which it isn't run again
TIME = "/usr/bin/time"  # which starts a program from a small one: a child of this one would begin with its peak of memory


def plants(words):
    for word in map(Path, words):
        yield from sorted(word.glob("*.json")) + sorted(word.glob("*.txt")) if word.is_dir() else [word]


def compiled(program, plant):
    """The status, the output, the seconds of processor time and the peak of memory in megabytes."""
    with tempfile.TemporaryFile() as given, tempfile.TemporaryFile() as out, tempfile.NamedTemporaryFile("r") as peak:
        given.write(plant)
        given.seek(0)
        words = [TIME, "--quiet", "-f", "%M", "-o", peak.name, program, "compile"]
        child = subprocess.Popen(words, stdin=given, stdout=out, stderr=subprocess.DEVNULL)
        _, status, usage = os.wait4(child.pid, 0)
        child.returncode = os.waitstatus_to_exitcode(status)
        out.seek(0)
        return child.returncode, out.read(), usage.ru_utime + usage.ru_stime, int(peak.read().split()[-1]) / 1024


def measure(programs, plant, runs):
    """Of each program the status and the output, the least processor time and the least peak of memory. The programs take turns."""
    found = [[] for _ in programs]
    for _ in range(runs):
        for program, all_runs in zip(programs, found):
            if sum(run[2] for run in all_runs) < SPENT:
                all_runs.append(compiled(program, plant))
    return [(all_runs[0][:2], min(run[2] for run in all_runs), min(run[3] for run in all_runs)) for all_runs in found]


def nodes(output):
    return sum(line.split(b" ")[0] in (b"split", b"leaf", b"none") for line in output.splitlines())


def main():
    programs, runs = sys.argv[1:3], int(sys.argv[3])
    print(f"{'plant':28} {'nodes':>6} | {'seconds':>8} {'other':>8} {'ratio':>6} | {'MB':>7} {'other':>7} {'ratio':>6} | output")
    different = False
    for file in plants(sys.argv[4:]):
        plant = file.read_text().split("\nstates\n")[0].encode()
        (own, seconds, memory), (said, other_seconds, other_memory) = measure(programs, plant, runs)
        different |= own != said
        output = "different" if own != said else "same" if own[0] == 0 else f"same, status {own[0]}"
        times = f"{seconds:8.4f} {other_seconds:8.4f} {seconds / other_seconds:6.2f}"
        room = f"{memory:7.1f} {other_memory:7.1f} {memory / other_memory:6.2f}"
        name = file.parent.name if file.stem == "plant" else file.stem
        print(f"{name:28} {nodes(own[1]):6} | {times} | {room} | {output}", flush=True)
    sys.exit(different)


if __name__ == "__main__":
    main()
