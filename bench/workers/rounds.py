"""Rounds of `trace` and `compile` with several workers. The words are the program, the number of rounds and the plants."""

import subprocess
import sys
from pathlib import Path

from judge import judge


def run(program, plant, *words):
    """What the program writes. It must end well."""
    done = subprocess.run([program, *words], input=plant, capture_output=True, timeout=600)
    if done.returncode != 0:
        sys.exit(f"{' '.join(words)}: status {done.returncode}: {done.stderr.decode()}")
    return done.stdout


def main():
    program, rounds, files = sys.argv[1], int(sys.argv[2]), sys.argv[3:]
    played = 0
    for file in files:
        plant = Path(file).read_text().split("\nstates\n")[0].encode()
        controller = run(program, plant, "compile")
        fault, alone = judge(run(program, plant, "trace").decode(), 1)
        if fault:
            sys.exit(f"{file}: one worker: {fault}")
        for workers in (2, 8, 32):
            shared = 0
            for _ in range(rounds):
                history = run(program, plant, "trace", "--workers", str(workers)).decode()
                fault, done = judge(history, workers)
                if fault or done != alone:
                    sys.exit(f"{file}: {workers} workers: {fault or 'other sets or verdicts than those of one worker'}")
                if run(program, plant, "compile", "--workers", str(workers)) != controller:
                    sys.exit(f"{file}: {workers} workers: another file than that of one worker")
                shared += len({line.split()[1] for line in history.splitlines()}) > 1
                played += 2
            print(f"{Path(file).name}: {len(alone)} sets, {workers} workers: {rounds} rounds, in {shared} of them more than one worker had a set", flush=True)
    print(f"{played} runs: every history keeps the rules, every file is that of one worker")


if __name__ == "__main__":
    main()
