#!/usr/bin/env python3
"""Which usual plants compile within 128 bits: reach.py PROGRAM [SECONDS].

Each model of models.py is rounded to 1 to 6 decimals, over 1 to 6 steps (at most 6 moves), and compiled by PROGRAM.
Printed are two tables: by decimals and horizon, and by the product of the number of moves and the digits of the longest
numerator or denominator of h, the Hessian of the plant's program. Where rounding makes an entry 0 that isn't, the
plant is another one and isn't counted. A run that takes longer than SECONDS (20) counts apart.
"""
import json
import os
import subprocess
import sys
from concurrent.futures import ThreadPoolExecutor
from fractions import Fraction

from models import MODELS, lost, plant

DECIMALS = range(1, 7)
HORIZONS = range(1, 7)
BANDS = [(1, 15), (16, 19), (20, 27), (28, 39), (40, 1000)]


def product(left, right):
    return [[sum((a * b for a, b in zip(row, column)), Fraction(0)) for column in zip(*right)] for row in left]


def fractions(matrix):
    return [[Fraction(entry) for entry in row] for row in matrix]


def hessian(file):
    """h of the cost z'h z + 2 z'f c + c'y c, as the program condenses it."""
    a, b, steps = fractions(file["A"]), fractions(file["B"]), file["horizon"]
    n, p = len(a), len(b[0])
    moved = [[Fraction(0)] * (p * steps) for _ in range(n)]
    h = [[Fraction(0)] * (p * steps) for _ in range(p * steps)]
    for k in range(steps + 1):
        weight = fractions(file["Q"] if k < steps else file["P"])
        grown = product([list(column) for column in zip(*moved)], product(weight, moved))
        h = [[x + y for x, y in zip(*rows)] for rows in zip(h, grown)]
        if k < steps:
            for i in range(p):
                for j in range(p):
                    h[k * p + i][k * p + j] += Fraction(file["R"][i][j])
            moved = product(a, moved)
            for i in range(n):
                moved[i][k * p:k * p + p] = b[i]
    return h


def longest(file):
    """The digits of the longest numerator or denominator of h."""
    return max(len(str(abs(part))) for row in hessian(file) for x in row for part in (x.numerator, x.denominator))


def answer(program, file, seconds):
    """The first word of the answer and its place, or `late`."""
    try:
        done = subprocess.run([program, "compile"], input=json.dumps(file).encode(), capture_output=True, timeout=seconds)
    except subprocess.TimeoutExpired:
        return "late"
    return "compiled" if done.returncode == 0 else done.stdout.decode().strip()


def main(program, seconds=20.0):
    jobs = [(name, d, k) for name, model in MODELS.items() for k in HORIZONS for d in DECIMALS
            if k * len(model.inputs[0]) <= 6 and not lost(model, d)]
    files = {job: plant(MODELS[job[0]], *job[1:]) for job in jobs}
    with ThreadPoolExecutor(os.cpu_count()) as pool:
        answers = dict(zip(jobs, pool.map(lambda job: answer(program, files[job], float(seconds)), jobs)))

    def share(chosen):
        """How many compiled of how many, and how many took too long."""
        if not chosen:
            return ""
        late = sum(answers[job] == "late" for job in chosen)
        text = f"{sum(answers[job] == 'compiled' for job in chosen)} of {len(chosen)}"
        return text + (f" ({late} late)" if late else "")

    print("| Decimals | " + " | ".join(f"{k} step" + "s" * (k > 1) for k in HORIZONS) + " |")
    print("|---|" + "---|" * len(HORIZONS))
    for d in DECIMALS:
        cells = [share([job for job in jobs if job[1:] == (d, k)]) for k in HORIZONS]
        print(f"| {d} | " + " | ".join(cells) + " |")
    print()
    print("| Moves times digits | One state | Two to four states |\n|---|---|---|")
    size = {job: job[2] * len(MODELS[job[0]].inputs[0]) * longest(files[job]) for job in jobs}
    for low, high in BANDS:
        name = f"{low} to {high}" if high < 1000 else f"from {low}"
        band = [job for job in jobs if low <= size[job] <= high]
        alone = [job for job in band if len(MODELS[job[0]].states) == 1]
        print(f"| {name} | {share(alone)} | {share([job for job in band if job not in alone])} |")
    if os.environ.get("REACH_ALL"):
        for job in jobs:
            print(*job, size[job], answers[job], sep="\t")


if __name__ == "__main__":
    main(*sys.argv[1:])
