"""Times `compile` on some of the processors, and `trace`, which ends where the tree begins. The words are the program, the number of runs, the
workers that decide the active sets, the lists of processors (as 0,1 or 0-3, the first with one alone), and the plants. A plant that is too wide is
named with its answer. Last comes what the machine gives: a copy of the program on each processor of a list, all at once, on the plant whose tree
takes longest."""

import subprocess
import sys
import time
from pathlib import Path

TOO_WIDE = 5


def seconds(program, plant, processors, command, workers):
    words = [command] if workers == 1 else [command, "--workers", str(workers)]
    begin = time.perf_counter()
    done = subprocess.run(["taskset", "-c", processors, program, *words], input=plant, capture_output=True, timeout=600)
    took = time.perf_counter() - begin
    if done.returncode not in (0, TOO_WIDE):
        sys.exit(f"{' '.join(words)}: status {done.returncode}: {done.stderr.decode()}")
    return took, done.stdout


def numbers(processors):
    """The processors of a list."""
    ends = [part.split("-") for part in processors.split(",")]
    return [number for end in ends for number in range(int(end[0]), int(end[-1]) + 1)]


def copies_at_once(program, plant, processors):
    """The seconds that copies of the program take, each on a processor of its own."""
    begin = time.perf_counter()
    room = {"stdin": subprocess.PIPE, "stdout": subprocess.DEVNULL, "stderr": subprocess.DEVNULL}
    copies = [subprocess.Popen(["taskset", "-c", str(number), program, "compile"], **room) for number in numbers(processors)]
    for copy in copies:
        copy.stdin.write(plant)
        copy.stdin.close()
    for copy in copies:
        copy.wait()
    return time.perf_counter() - begin


def print_limits(program, runs, lists, plant):
    """Says how many times as fast copies at once are as copies one after another."""
    least = {p: min(copies_at_once(program, plant, p) for _ in range(runs)) for p in lists}
    gains = [f"{len(numbers(p))} on {p} {least[lists[0]] * len(numbers(p)) / least[p]:.2f}" for p in lists[1:]]
    print(f"copies of the program at once, times as fast as one after another: {', '.join(gains)}", flush=True)


def main():
    program, runs, workers = sys.argv[1], int(sys.argv[2]), int(sys.argv[3])
    lists = [word for word in sys.argv[4:] if not Path(word).exists()]
    print("plant | laws | nodes | " + " | ".join(f"on {p}: compile, behind trace" for p in lists))
    longest = (0.0, b"")
    for file in sys.argv[4 + len(lists) :]:
        plant = Path(file).read_text().split("\nstates\n")[0].encode()
        least = {(command, p): float("inf") for command in ("trace", "compile") for p in lists}
        texts = set()
        for _ in range(runs):
            for command, processors in least:
                took, text = seconds(program, plant, processors, command, workers)
                least[command, processors] = min(least[command, processors], took)
                if command == "compile":
                    texts.add(text)
        if len(texts) != 1:
            sys.exit(f"{file}: the file differs from run to run")
        lines = texts.pop().decode().splitlines()
        if lines[0].startswith("too wide"):
            print(f"{Path(file).stem} | {lines[0]}", flush=True)
            continue
        nodes = sum(line.split(" ")[0] in ("split", "leaf", "none") for line in lines[lines.index("tree") :])
        laws = next(line.split(" ")[1] for line in lines if line.startswith("laws "))
        whole = [least["compile", p] for p in lists]
        tree = [least["compile", p] - least["trace", p] for p in lists]
        shown = " | ".join(f"{w:.3f} s, {t:.3f} s ({tree[0] / t:.2f})" for w, t in zip(whole, tree))
        print(f"{Path(file).stem} | {laws} | {nodes} | {shown}", flush=True)
        longest = max(longest, (tree[0], plant))
    print_limits(program, runs, lists, longest[1])


if __name__ == "__main__":
    main()
