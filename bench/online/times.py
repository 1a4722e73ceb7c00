"""The processor time of `solve` a state, beside that of the same run in plain Rust, and the number of states at which a table pays.

The words are the program, the plain Rust body, the number of states and the plants. What a state takes is the least time of several runs on
so many random states less the least of runs on one state, so that neither the start nor the reading of the plant counts. The programs take
turns, so that a disturbance meets them alike. It ends where two reply lines differ: of `solve`, of the plain Rust body with each kind of
fractions, and of `reply` from the plant's table, which alone has an answer where a run of `solve` is too wide. A plant whose compilation is
refused as too wide has no table.
"""
import json
import os
import random
import subprocess
import sys
import tempfile
from pathlib import Path

from program import text as program_text

RUNS = 5
# A reply takes so little that more of them are timed.
MORE = 10


def lines(plant, count):
    """So many lines of counts, the same in each run."""
    chosen = random.Random(1)
    limits = [axis["count"] for axis in plant["grid"]]
    return "".join(" ".join(str(chosen.randint(0, n)) for n in limits) + "\n" for _ in range(count))


def spent(words, text):
    """The output of a run, its standard error and its processor time in seconds; nothing where it is refused."""
    with tempfile.TemporaryFile() as given, tempfile.TemporaryFile() as output, tempfile.TemporaryFile() as errors:
        given.write(text)
        given.seek(0)
        process = subprocess.Popen(words, stdin=given, stdout=output, stderr=errors)
        _, status, used = os.wait4(process.pid, 0)
        process.returncode = os.waitstatus_to_exitcode(status)
        output.seek(0)
        errors.seek(0)
        if process.returncode != 0:
            return None
        return output.read(), errors.read(), used.ru_utime + used.ru_stime


class Body:
    """A program that answers the states behind a head."""

    def __init__(self, words, head, plant, count):
        self.words, self.more = words, count - 1
        self.texts = [head + b"states\n" + lines(plant, number).encode() for number in (1, count)]
        self.least = [float("inf")] * len(self.texts)

    def go(self):
        for place, text in enumerate(self.texts):
            answer = spent(self.words, text)
            if answer is None:
                sys.exit(f"{' '.join(self.words)}: refused")
            output, self.errors, time = answer
            self.least[place] = min(self.least[place], time)
        self.replies = output.splitlines()

    def each(self):
        """The microseconds of a state."""
        one, many = self.least
        return (many - one) / self.more * 1e6


def compare(name, solved, replies, table=False):
    """Ends where two reply lines differ, but for those of a table where a run is too wide. A table has answered more states."""
    if len(solved) > len(replies):
        sys.exit(f"{name}: {len(solved)} and {len(replies)} reply lines")
    for place, (left, right) in enumerate(zip(solved, replies), 1):
        if left != right and not (table and left == b"too wide"):
            sys.exit(f"{name}: the reply lines {place} differ: {left!r} and {right!r}")


def run_together(bodies):
    for _ in range(RUNS):
        for body in bodies:
            body.go()


def measure(program, rust, count, name):
    """The cells of a plant."""
    head = Path(name).read_bytes().split(b"\nstates\n")[0].strip() + b"\n"
    plant = json.loads(head)
    numbers = program_text(plant).encode()
    solve = Body([program, "solve"], head, plant, count)
    schoolbook, fast = (Body([rust, word], numbers, plant, count) for word in ("plain", "fast"))
    run_together([solve, schoolbook, fast])
    compare(name, solve.replies, schoolbook.replies)
    compare(name, solve.replies, fast.replies)
    # Step 0 isn't among those that the plain body counts.
    steps = int(schoolbook.errors) / count + 1
    _, unknowns, rows, _ = numbers.split(b"\n")[0].decode().split()
    each = solve.each()
    bad, wide = solve.replies.count(b"infeasible"), solve.replies.count(b"too wide")
    yield f"{Path(name).stem} | {unknowns}, {rows} | {steps:.1f} | {each:.1f} | {each / steps:.1f}"
    yield f"{schoolbook.each():.1f} | {fast.each():.1f} | {bad}, {wide}"
    compiled = spent([program, "compile"], head)
    if compiled is None:
        yield "no table | | "
        return
    table = Body([program, "reply"], compiled[0], plant, MORE * count)
    run_together([table])
    compare(name, solve.replies, table.replies, table=True)
    compiling, reply = min(spent([program, "compile"], head)[2] for _ in range(RUNS)), table.each()
    yield f"{compiling * 1e3:.1f} | {reply:.2f} | {compiling * 1e6 / (each - reply):.0f}"


def main():
    program, rust, count = sys.argv[1], sys.argv[2], int(sys.argv[3])
    print(f"load {os.getloadavg()[0]:.1f} over the last minute, {count} states, the least of {RUNS} runs each")
    print("`solve`, plain Rust and `reply` in microseconds, `compile` in milliseconds")
    columns = ["plant", "unknowns, rows", "steps a state", "`solve` a state", "a step", "schoolbook Rust a state", "fast Rust"]
    columns += ["infeasible, too wide", "`compile`", "`reply` a state", "a table pays from so many states"]
    print("| " + " | ".join(columns) + " |")
    print("|---" * len(columns) + "|")
    for name in sys.argv[4:]:
        print("| " + " | ".join(measure(program, rust, count, name)) + " |", flush=True)


main()
