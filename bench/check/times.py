"""Times `check` on the controllers of plants, with one, two and four processors in turn. The words are the program, the number of runs and
the plants, which the program compiles; one that is too wide is named with its answer."""

import subprocess
import sys
import time
from pathlib import Path

PROCESSORS = ["0", "0,1", "0-3"]
TOO_WIDE = 5


def run(words, text):
    begin = time.perf_counter()
    done = subprocess.run(words, input=text, capture_output=True, timeout=600)
    took = time.perf_counter() - begin
    if done.returncode not in (0, TOO_WIDE):
        sys.exit(f"{' '.join(words)}: status {done.returncode}: {done.stderr.decode()}")
    return took, done.stdout


def main():
    program, runs, plants = sys.argv[1], int(sys.argv[2]), sys.argv[3:]
    print("plant | bytes | nodes | " + " | ".join(f"processors {p}" for p in PROCESSORS))
    for plant in plants:
        text = run([program, "compile"], Path(plant).read_text().split("\nstates\n")[0].encode())[1]
        if text.startswith(b"too wide"):
            print(f"{Path(plant).stem} | {text.decode().strip()}", flush=True)
            continue
        nodes = sum(line.split()[0] in (b"split", b"leaf", b"none") for line in text.splitlines())
        took = {p: [] for p in PROCESSORS}
        for _ in range(runs):
            for p in PROCESSORS:
                some, said = run(["taskset", "-c", p, program, "check"], text)
                if said != b"accepted\n":
                    sys.exit(f"{plant}: {said!r}")
                took[p].append(some)
        best = [min(took[p]) for p in PROCESSORS]
        shown = " | ".join(f"{b:.4f} s ({best[0] / b:.2f})" for b in best)
        print(f"{Path(plant).stem} | {len(text)} | {nodes} | {shown}", flush=True)


if __name__ == "__main__":
    main()
