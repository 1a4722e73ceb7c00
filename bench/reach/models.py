#!/usr/bin/env python3
"""Usual plants of textbooks, sampled and rounded, as plant files.

`models.py NAME DECIMALS HORIZON` prints one plant file. Each model is continuous, dx/dt = F x + G u, and is sampled with
its time and a held input (Van Loan 1978): A and B are parts of one exponential, which is summed in 60 digits, so that the
same file comes out everywhere. Then each entry is rounded to so many decimals.
"""
import json
import sys
from decimal import ROUND_HALF_EVEN, Decimal, getcontext

getcontext().prec = 60


class Model:
    """A continuous plant with its sampling time, its weights, the limits of its inputs and states, and its grid."""

    def __init__(self, states, inputs, time, weights, effort, input_limits, state_limits, spans):
        self.states, self.inputs, self.time = states, inputs, time
        self.weights, self.effort = weights, effort
        self.input_limits, self.state_limits, self.spans = input_limits, state_limits, spans


MODELS = {
    # A car's speed (kilonewtons and tonnes), and a tank's level: one state that runs out by itself.
    "cruise": Model([["-0.05"]], [[1]], "1", [1], ["0.1"], [1], {}, [10]),
    "tank": Model([["-0.2"]], [["1"]], "0.5", [1], [1], [1], {}, [4]),
    # A body on a spring with a damper: position, speed; 1 kg, 2 N/m, 0.5 N s/m.
    "spring": Model([[0, 1], [-2, "-0.5"]], [[0], [1]], "0.1", [1, 1], ["0.1"], [2], {1: 1}, [2, 2]),
    # A motor's speed and current (Messner and Tilbury, Control Tutorials): J 0.01, b 0.1, K 0.01, R 1, L 0.5.
    "motor speed": Model([[-10, 1], ["-0.02", -2]], [[0], [2]], "0.05", [10, 1], ["0.1"], [10], {1: 5}, [1, 5]),
    # A motor's angle, speed and current with the same numbers.
    "motor position": Model([[0, 1, 0], [0, -10, 1], [0, "-0.02", -2]], [[0], [0], [2]], "0.1", [10, 1, 1], ["0.1"],
                            [10], {2: 5}, [1, 1, 5]),
    # An aircraft's angle of attack, pitch rate and pitch (the same tutorials).
    "pitch": Model([["-0.313", "56.7", 0], ["-0.0139", "-0.426", 0], [0, "56.7", 0]], [["0.232"], ["0.0203"], [0]],
                   "0.2", [0, 0, 50], [1], ["0.4"], {2: "0.5"}, ["0.5", "0.05", "0.5"]),
    # A cart with a pendulum that stands: position, speed, angle, rate (the same tutorials).
    "pendulum": Model([[0, 1, 0, 0], [0, "-0.1818", "2.6727", 0], [0, 0, 0, 1], [0, "-0.4545", "31.1818", 0]],
                      [[0], ["1.8182"], [0], ["4.5455"]], "0.05", [10, 1, 10, 1], ["0.1"], [10], {2: "0.3"},
                      [1, 2, "0.3", 2]),
    # A pendulum's angle and rate alone, held by a torque: 9.81/0.5 and 1/(0.5 0.5).
    "hanging rod": Model([[0, 1], ["-19.62", "-0.2"]], [[0], [4]], "0.05", [10, 1], [1], [2], {0: "0.5"}, [1, 4]),
    # Two tanks in a row and a pump, and two tanks that are joined, with a pump each.
    "two tanks": Model([["-0.02", 0], ["0.02", "-0.03"]], [["0.05"], [0]], "10", [1, 4], ["0.1"], [3], {0: 5}, [5, 5]),
    "joined tanks": Model([["-0.05", "0.03"], ["0.03", "-0.06"]], [["0.1", 0], [0, "0.1"]], "5", [1, 1], ["0.1", "0.1"],
                          [2, 2], {0: 4}, [4, 4]),
    # Four tanks with two pumps (Johansson 2000, minimum phase): T 62, 90, 23, 30 s; levels in cm, pumps in volts.
    "four tanks": Model([["-0.0161", 0, "0.0435", 0], [0, "-0.0111", 0, "0.0333"], [0, 0, "-0.0435", 0],
                         [0, 0, 0, "-0.0333"]], [["0.0833", 0], [0, "0.0628"], [0, "0.0479"], ["0.0312", 0]], "10",
                        [1, 1, 0, 0], ["0.1", "0.1"], [3, 3], {0: 5}, [5, 5, 3, 3]),
    # A room's air and its walls, warmed by a heater: minutes to hours, kelvin and kilowatts.
    "room": Model([["-2.5", "2.2"], ["0.11", "-0.125"]], [[1], [0]], "0.25", [4, 0], [1], [3], {0: 3}, [5, 5]),
    # Two bodies of 1 kg joined by a spring of 1 N/m (Wie and Bernstein 1992).
    "two bodies": Model([[0, 0, 1, 0], [0, 0, 0, 1], [-1, 1, 0, 0], [1, -1, 0, 0]], [[0], [0], [1], [0]], "0.2",
                        [1, 10, 0, 0], [1], [1], {2: 1}, [2, 2, 1, 1]),
    # A crane's trolley and its hook: position, speed, angle, rate; the force in tens of newtons.
    "crane": Model([[0, 1, 0, 0], [0, "-0.2", "0.98", 0], [0, 0, 0, 1], [0, "0.2", "-10.79", "-0.1"]],
                   [[0], [1], [0], [-1]], "0.2", [4, 1, 10, 1], [1], [1], {2: "0.2"}, [4, 1, "0.2", 1]),
    # A wheel's suspension, a quarter of a car: body and wheel, positions and speeds; the force in kilonewtons.
    "suspension": Model([[0, 1, 0, 0], [-50, -4, 50, 4], [0, 0, 0, 1], [400, 32, -4400, -32]],
                        [[0], ["3.3"], [0], [-27]], "0.02", [100, 1, 10, 0], [1], [1], {0: "0.1"},
                        ["0.1", 1, "0.1", 2]),
    # An aircraft that is unstable in pitch, with two flaps (Kapasouris, Athans and Stein 1988).
    "aircraft": Model([["-0.0151", "-60.5651", 0, "-32.174"], ["-0.0001", "-1.3411", "0.9929", 0],
                       ["0.00018", "43.2541", "-0.86939", 0], [0, 0, 1, 0]],
                      [["-2.516", "-13.136"], ["-0.1689", "-0.2514"], ["-17.251", "-1.5766"], [0, 0]], "0.05",
                      [0, 10, 0, 10], ["0.01", "0.01"], ["0.4", "0.4"], {1: "0.5"}, [10, "0.5", 1, 1]),
}


def product(left, right):
    return [[sum(a * b for a, b in zip(row, column)) for column in zip(*right)] for row in left]


def exponential(matrix):
    """The sum of matrix^k / k!, of a matrix that was halved often enough, and then squared as often."""
    size, halvings = len(matrix), 12
    small = [[entry / 2**halvings for entry in row] for row in matrix]
    term = [[Decimal(int(i == j)) for j in range(size)] for i in range(size)]
    total = [row[:] for row in term]
    for k in range(1, 30):
        term = [[entry / k for entry in row] for row in product(term, small)]
        total = [[a + b for a, b in zip(*rows)] for rows in zip(total, term)]
    for _ in range(halvings):
        total = product(total, total)
    return total


def sampled(model, time=None):
    """A and B of the model at its sampling time, unrounded."""
    n, p, time = len(model.states), len(model.inputs[0]), Decimal(time or model.time)
    both = [[Decimal(v) * time for v in [*f, *g]] for f, g in zip(model.states, model.inputs)]
    whole = exponential(both + [[Decimal(0)] * (n + p) for _ in range(p)])
    return [row[:n] for row in whole[:n]], [row[n:] for row in whole[:n]]


def rounded(value, decimals):
    """The value to so many decimals, as a plant file has it."""
    value = value.quantize(Decimal(1).scaleb(-decimals), ROUND_HALF_EVEN).normalize()
    return int(value) if value == value.to_integral() else f"{value:f}"


def lost(model, decimals):
    """Whether rounding makes an entry 0 that isn't: such a plant is another one."""
    return any(v and not float(rounded(v, decimals)) for part in sampled(model) for row in part for v in row)


def diagonal(entries):
    return [[entry if i == j else 0 for j in range(len(entries))] for i, entry in enumerate(entries)]


def pair(key, place, length, limit):
    """The two rows that keep one coordinate within its limit both ways."""
    return [{key: [sign if i == place else 0 for i in range(length)], "max": limit} for sign in (1, -1)]


def plant(model, decimals, horizon):
    """The plant file of the model, its entries rounded to so many decimals."""
    a, b = ([[rounded(v, decimals) for v in row] for row in part] for part in sampled(model))
    n, p = len(a), len(b[0])
    rows = [row for i in range(p) for row in pair("u", i, p, model.input_limits[i])]
    rows += [row for i, limit in model.state_limits.items() for row in pair("x", i, n, limit)]
    grid = [{"low": rounded(-Decimal(span), 6), "step": rounded(Decimal(span) / 10, 6), "count": 20} for span in model.spans]
    return {"version": 1, "horizon": horizon, "A": a, "B": b, "Q": diagonal(model.weights), "R": diagonal(model.effort),
            "P": diagonal(model.weights), "rows": rows, "grid": grid}


if __name__ == "__main__":
    print(json.dumps(plant(MODELS[sys.argv[1]], int(sys.argv[2]), int(sys.argv[3]))))
