#!/usr/bin/env python3
"""The motor in a loop: loop.py PROGRAM CONTROLLER STEPS.

The motor is simulated as it is sampled, unrounded. At each step the state is measured to the nearest grid state, `reply`
gives the voltage, and the motor goes on with it. Printed are the angle, the speed, the current and the voltage.
"""
import subprocess
import sys
from fractions import Fraction
from pathlib import Path

sys.path.insert(0, str(Path(__file__).resolve().parent.parent.parent / "bench" / "reach"))
sys.dont_write_bytecode = True
from stated import ORIGINS, rows  # noqa: E402

LOWS, STEP = [-8, -4, -5], Fraction(1, 8)


def reply(program, controller, state):
    """The first move that the controller has at the grid state that is nearest, or None."""
    counts = " ".join(str(round((Fraction(x) - low) / STEP)) for x, low in zip(state, LOWS))
    line = subprocess.run([program, "reply"], input=controller + f"states\n{counts}\n".encode(), stdout=subprocess.PIPE)
    word = line.stdout.decode().strip()
    return Fraction(word) if word[-1:].isdigit() else None


def main(program, controller, steps):
    controller = Path(controller).read_bytes()
    state = [-8.0, 0.0, 0.0]
    print("step  angle  speed  current  voltage")
    for k in range(int(steps)):
        voltage = reply(program, controller, state)
        if voltage is None:
            sys.exit(f"no move at step {k}")
        print(f"{k:4}{state[0]:7.2f}{state[1]:7.2f}{state[2]:9.2f}{float(voltage):9.2f}")
        held = state + [float(voltage)]
        state = [sum(float(a) * x for a, x in zip(row, held)) for row in rows(ORIGINS["servo"])]


if __name__ == "__main__":
    main(*sys.argv[1:])
