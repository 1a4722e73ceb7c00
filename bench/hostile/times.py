"""Measures time and memory of the program on inputs that nobody should give it, at a quarter of the size and at the whole. The words are
the program, the size in bytes, the most seconds that a run may take, and words that a name must contain (any without them)."""

import subprocess
import sys
import tempfile
from pathlib import Path

from inputs import all_inputs, steep_inputs

HERE = Path(__file__).resolve().parent
STATED = {0, 2, 3, 4, 5, 6, 7, 8, 9, 10, 11, 15, 16, 17, 18}


def measured(program, folder, command, text, seconds):
    """What `measure.py` says of one run: status, wall and processor seconds, KiB, bytes of output, bytes of errors, first line."""
    path = Path(folder) / "input"
    path.write_bytes(text)
    done = subprocess.run([sys.executable, "-I", str(HERE / "measure.py"), str(path), str(seconds), program, command],
                          capture_output=True, check=True, text=True)
    words = done.stdout.rstrip("\n").split(" ", 6)
    return int(words[0]), float(words[1]), float(words[2]), int(words[3]), int(words[4]), int(words[5]), words[6]


def row_of(program, folder, size, seconds, name, command, at):
    """The row of one input, and what is wrong with it, if anything is."""
    quarter = measured(program, folder, command, at(size // 4), seconds)
    status, wall, work, peak, written, noise, first = measured(program, folder, command, at(size), seconds)
    growth = work / max(quarter[2], 0.005)
    line = first if status or command == "safe" or command == "check" else f"{written / 2 ** 20:.1f} MiB written"
    print(f"| {command} | {name} | {line[:44]} | {quarter[2]:.2f} | {work:.2f} | {growth:.1f} | {quarter[3] / 1024:.0f} | {peak / 1024:.0f} |",
          flush=True)
    if status not in STATED:
        return f"{command}, {name}: " + (f"ended by signal {-status} after {wall:.1f} seconds" if status < 0 else f"status {status}")
    if noise:
        return f"{command}, {name}: writes to standard error"
    return None


def main():
    program, size, seconds, wanted = sys.argv[1], int(sys.argv[2]), int(sys.argv[3]), sys.argv[4:]
    faults = []
    print("| Command | Input | Answer | Seconds at a quarter | Seconds | Times | MiB at a quarter | MiB |\n|---|---|---|---|---|---|---|---|")
    with tempfile.TemporaryDirectory() as folder:
        for (name, command, whole), (_, _, quarter) in zip(all_inputs(size), all_inputs(size // 4)):
            if wanted and not any(word in f"{command} {name}" for word in wanted):
                continue
            fault = row_of(program, folder, size, seconds, name, command, lambda n: whole() if n == size else quarter())
            if fault:
                faults.append(fault)
        print("More than linear:")
        for size in (size // 512, size // 256, size // 128):
            for name, command, bytes_of, make in steep_inputs(size):
                status, _, work, _, _, _, first = measured(program, folder, command, make(), seconds)
                print(f"{command}, {name}, {bytes_of} bytes: {first if status else f'{work:.2f} seconds'}", flush=True)
    for fault in faults:
        print(fault)
    print("each run ends in its time, with a stated status" if not faults else f"{len(faults)} runs end wrongly")
    sys.exit(1 if faults else 0)


if __name__ == "__main__":
    main()
