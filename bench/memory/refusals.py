"""Runs the program with each growth of memory refused in turn, and judges how it ends. The words are the program, the library that
refuses, and the most growths of an input that are tried, 0 for all."""

import os
import subprocess
import sys
from concurrent.futures import ThreadPoolExecutor
from pathlib import Path

HERE = Path(__file__).resolve().parent
sys.path.insert(0, str(HERE.parent / "workers"))

from judge import judge  # noqa: E402

NO_MEMORY, NO_WORDS = 11, 19
SECONDS = 20

TANK = ('{"version":1,"horizon":1,"A":[[1]],"B":[[1]],"Q":[[1]],"R":[[1]],"P":[[1]],ROWS'
        '"grid":[{"low":-4,"step":1,"count":8}]}')
BOUND = TANK.replace("ROWS", '"rows":[{"u":[1],"max":1},{"u":[-1],"max":1}],').encode()
ENDING = TANK.replace("ROWS", '"rows":[{"u":[1],"max":1},{"u":[-1],"max":1}],'
                      '"terminal":[{"x":[1],"max":1},{"x":[-1],"max":1}],').encode()
FREE = TANK.replace("ROWS", "").encode()
COUNTS = b"\nstates\n0\n3\n9\nx\n8\n"


def run(program, words, text, library=None, first=0, behind=False):
    """The status, the output, and how many growths there were, of one run."""
    names = dict(os.environ)
    told, tell = os.pipe()
    if library:
        names |= {"LD_PRELOAD": library, "REFUSE_FROM": str(first), "REFUSE_ALL": str(int(behind)), "REFUSE_TOLD": str(tell)}
    try:
        done = subprocess.run([program, *words], input=text, capture_output=True, env=names, pass_fds=[tell], timeout=SECONDS)
        os.close(tell)
        tell = None
        count = os.read(told, 64)
        return done.returncode, done.stdout, done.stderr, int(count or 0)
    except subprocess.TimeoutExpired:
        return None, b"", b"", 0
    finally:
        os.close(told)
        if tell is not None:
            os.close(tell)


def same(words, out, own):
    """Whether the output is the input's own: of several workers any history that keeps the rules."""
    if "trace" not in words or "--workers" not in words:
        return out == own
    fault, done = judge(out.decode(), int(words[-1]))
    return fault is None and done == judge(own.decode(), int(words[-1]))[1]


def fault_of(words, outcome, own_status, own):
    """What is wrong with the end of a run; None where it ends with want of memory or with the input's own answer."""
    status, out, err, _ = outcome
    if status is None:
        return f"hangs beyond {SECONDS} seconds"
    if status < 0:
        return f"ended by signal {-status}"
    if err:
        return f"writes to standard error: {err[:200]!r}"
    if status in (NO_MEMORY, NO_WORDS):
        # Want of memory comes before anything is written, or behind a beginning of the output.
        return None if own.startswith(out) or not out else f"status {status} with other output: {out[:80]!r}"
    if status != own_status:
        return f"status {status} in place of {own_status}"
    return None if same(words, out, own) else f"another output: {out[:80]!r}"


def tries_of(total, most):
    """Which growths are refused."""
    if most == 0 or total <= most:
        return range(1, total + 1)
    return sorted({1 + k * (total - 1) // (most - 1) for k in range(most)})


def try_input(program, library, most, name, words, text):
    """Refuses each growth of one input in turn. Prints how the runs end, and gives those that end wrongly."""
    own_status, own, _, _ = run(program, words, text)
    if own_status is None or own_status < 0:
        return [f"{name}: with ample memory: status {own_status}"]
    totals = [run(program, words, text, library)[3] for _ in range(5 if "--workers" in words else 1)]
    total = max(totals)
    if total == 0:
        return [f"{name}: no growth is counted: the library isn't asked"]
    faults, ends = [], {"want of memory": 0, "no words": 0, "own answer": 0}
    tries = [(first, behind) for behind in (False, True) for first in tries_of(total, most)]
    with ThreadPoolExecutor(2) as pool:
        outcomes = pool.map(lambda one: run(program, words, text, library, *one), tries)
        for (first, behind), outcome in zip(tries, outcomes):
            fault = fault_of(words, outcome, own_status, own)
            if fault:
                faults.append(f"{name}: growth {first}{' and all behind it' if behind else ''}: {fault}")
            elif outcome[0] == NO_MEMORY:
                ends["want of memory"] += 1
            elif outcome[0] == NO_WORDS:
                ends["no words"] += 1
            else:
                ends["own answer"] += 1
    counted = ", ".join(f"{ends[end]} {end}" for end in ends)
    print(f"{name}: {total} growths, {len(tries)} runs: {counted}, {len(faults)} wrong", flush=True)
    return faults


def inputs_of(program):
    """Names, words and inputs: of a scalar plant with a bound, of plants with laws, and of the files that they give."""
    example = HERE.parents[1] / "examples"
    plant = (example / "motor" / "plant.json").read_bytes()
    states = (example / "motor" / "states.txt").read_bytes()
    ending = run(program, ["compile"], ENDING)[1]
    motor = run(program, ["compile"], plant)[1]
    reservoir = (example / "reservoir" / "states.txt").read_bytes()
    levels = (example / "three_levels" / "plants.txt").read_bytes()
    return [
        ("a tank without rows, run", ["run"], FREE + COUNTS),
        ("a tank with a bound, run", ["run"], BOUND + COUNTS),
        ("a tank with a bound, compile", ["compile"], BOUND),
        ("a tank with a bound, compile by two", ["compile", "--workers", "2"], BOUND),
        ("a tank with a bound, compile by eight", ["compile", "--workers", "8"], BOUND),
        ("a tank with a bound, trace", ["trace"], BOUND),
        ("a tank with a bound, trace by four", ["trace", "--workers", "4"], BOUND),
        ("a tank with terminal rows, run", ["run"], ENDING + COUNTS),
        ("its file, check", ["check"], ending),
        ("its file, reply", ["reply"], ending + COUNTS[1:]),
        ("its file, convert", ["convert"], ending),
        ("its file, safe", ["safe"], ending),
        ("its file cut off, check", ["check"], ending[:-9]),
        ("a tank with a bound, solve", ["solve"], BOUND + COUNTS),
        ("a reservoir, robust", ["robust"], reservoir),
        ("a fault in the plant, run", ["run"], BOUND.replace(b'"max"', b'"most"', 1)),
        ("no words", [], b""),
        ("three tanks, fleet by two", ["fleet", "--workers", "2"], levels),
        ("drill 1", ["drill", "1"], b""),
        ("the motor's file, check", ["check"], motor),
        ("the motor's file, reply", ["reply"], motor + states[states.index(b"states"):]),
        ("the motor's file, convert", ["convert"], motor),
        ("the motor, trace by four", ["trace", "--workers", "4"], plant),
        ("the motor, run", ["run"], states),
        ("the motor, compile by four", ["compile", "--workers", "4"], plant),
    ]


def main():
    program, library, most = sys.argv[1], sys.argv[2], int(sys.argv[3])
    faults = []
    for name, words, text in inputs_of(program):
        faults += try_input(program, library, most, name, words, text)
    for fault in faults:
        print(fault)
    print("no run hangs, none ends by a signal, each ends with want of memory or with the input's own answer" if not faults
          else f"{len(faults)} runs end wrongly")
    sys.exit(1 if faults else 0)


if __name__ == "__main__":
    main()
