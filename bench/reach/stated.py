#!/usr/bin/env python3
"""What rounding did to the five examples that come from continuous models: stated.py [NAME ..].

For each state it prints the row of A and B as it is sampled, in the units of the example, the row that the plant file
states, and how much a step of the two can differ within the grid and the limits of the inputs, in the units of the state
and as a share of the way from the middle of the box to its edge. The drift is a further column, where there is one.
"""
import json
import sys
from decimal import Decimal
from fractions import Fraction
from pathlib import Path

from models import Model, sampled

EXAMPLES = Path(__file__).resolve().parent.parent.parent / "examples"
HALVED = Decimal(2).ln()


class Origin:
    """The continuous model, its sampling time, the units of states and inputs, and the inputs that are held as drift."""

    def __init__(self, states, inputs, time, units, input_units, held=()):
        self.model, self.time = Model(states, inputs, "1", [], [], [], {}, []), time
        self.units, self.input_units, self.held = units, input_units, held


# The pendulum's frequency: m g l (M + m) / (I (M + m) + M m l^2) with M 0.5, m 0.2, l 0.3, I 0.006 and g 9.8.
PENDULUM = Decimal("0.2") * Decimal("9.8") * Decimal("0.3") * Decimal("0.7") / Decimal("0.0132")
FORCE = Decimal("0.06") / Decimal("0.0132")
TIME = HALVED / PENDULUM.sqrt()
PUSH = Decimal("0.1") * PENDULUM / FORCE
SPEED = PUSH * TIME / Decimal("0.7")

ORIGINS = {
    "servo": Origin([[0, 1, 0], [0, -10, 1], [0, "-0.02", -2]], [[0], [0], [2]], HALVED / 5, ["0.12", "0.2", 1], [1]),
    "pitch": Origin([["-0.313", "1", 0], ["-0.78813", "-0.426", 0], [0, 1, 0]], [["0.232"], ["1.15101"], [0]], "0.25",
                    [1, "0.5", "0.5"], [1]),
    "four_tanks": Origin([[Decimal(-1) / 62, 0, Decimal(1) / 23, 0], [0, Decimal(-1) / 90, 0, Decimal(1) / 30],
                          [0, 0, Decimal(-1) / 23, 0], [0, 0, 0, Decimal(-1) / 30]],
                         [["0.08325", 0], [0, "0.0628125"], [0, Decimal("1.34") / 28], [Decimal("0.999") / 32, 0]], 15,
                         [1, 1, 1, 1], ["0.5", "0.5"]),
    "pendulum": Origin([[0, 1, 0, 0], [0, 0, 0, 0], [0, 0, 0, 1], [0, 0, PENDULUM, 0]],
                       [[0], [1 / Decimal("0.7")], [0], [FORCE]], TIME,
                       [SPEED * TIME, SPEED, "0.1", PENDULUM.sqrt() / 10], [PUSH]),
    "heated_room": Origin([["-1.1", 1], ["0.1", "-0.125"]], [[2, "0.1"], [0, "0.025"]], "0.5", [1, 1], ["0.5", 1], ["5"]),
}


def rows(origin):
    """A, B and the drift of the sampled model, in the units of the example."""
    a, b = sampled(origin.model, origin.time)
    n, p = len(a), len(b[0]) - len(origin.held)
    units, inputs = [Decimal(u) for u in origin.units], [Decimal(u) for u in origin.input_units]
    for i in range(n):
        states = [a[i][j] * units[j] / units[i] for j in range(n)]
        moves = [b[i][j] * inputs[j] / units[i] for j in range(p)]
        drift = [sum(b[i][p + k] * Decimal(v) for k, v in enumerate(origin.held)) / units[i]]
        yield states + moves + drift


def ranges(plant):
    """Each state's, each input's and the drift's middle and the way from there to the edge."""
    ends = [(Fraction(s["low"]), Fraction(s["low"]) + Fraction(s["step"]) * s["count"]) for s in plant["grid"]]
    for i in range(len(plant["R"])):
        limits = [(Fraction(r["u"][i]), Fraction(r["max"])) for r in plant["rows"] if "u" in r and Fraction(r["u"][i])]
        ends.append((max(m / f for f, m in limits if f < 0), min(m / f for f, m in limits if f > 0)))
    return [((low + high) / 2, (high - low) / 2) for low, high in [*ends, (Fraction(1), Fraction(1))]]


def text(row, drift):
    return ", ".join(row if drift else row[:-1])


def main(*names):
    for name in names or ORIGINS:
        plant = json.loads((EXAMPLES / name / "plant.json").read_text())
        n, drift = len(plant["A"]), "drift" in plant
        print(f"`{name}`, sampled every {Decimal(ORIGINS[name].time):.4g}\n")
        print("| State | Sampled | Stated | A step differs by at most | Of the box |\n|---|---|---|---|---|")
        places = ranges(plant)
        for i, exact in enumerate(rows(ORIGINS[name])):
            stated = [str(v) for v in plant["A"][i] + plant["B"][i] + [plant.get("drift", [0] * n)[i]]]
            off = [Fraction(s) - Fraction(e) for s, e in zip(stated, exact)]
            apart = abs(sum(o * middle for o, (middle, _) in zip(off, places)))
            apart += sum(abs(o) * way for o, (_, way) in zip(off, places))
            shown = text([f"{v:.5f}" for v in exact], drift)
            print(f"| {i + 1} | {shown} | {text(stated, drift)} | {float(apart):.3f} | {float(100 * apart / places[i][1]):.1f} % |")
        print()


if __name__ == "__main__":
    main(*sys.argv[1:])
