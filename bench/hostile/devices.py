"""Runs the program on devices that fail: closed pipes, a full device, a folder as input. The word is the program."""

import os
import signal
import subprocess
import sys
import tempfile

from inputs import BOUND, TANK, filled

READ_FAULT, WRITE_FAULT = 8, 9


def reader_gone(program, words, text, taken):
    """Whoever reads the output takes so many bytes and goes: before the program starts where they are none, since a pipe has room for a short
    output, or else while it still writes, so its output must be longer than that room."""
    reader, writer = os.pipe()
    if not taken:
        os.close(reader)
    with tempfile.TemporaryFile() as source:
        source.write(text)
        source.seek(0)
        child = subprocess.Popen([program, *words], stdin=source, stdout=writer, stderr=subprocess.PIPE)
        os.close(writer)
        if taken:
            os.read(reader, taken)
            os.close(reader)
        noise = child.stderr.read()
        return child.wait(60), noise


def with_shell(program, line):
    """A command line of a shell, in which `mpc` is the program."""
    done = subprocess.run(["bash", "-c", f'mpc() {{ "{program}" "$@"; }}; {line}'], capture_output=True, timeout=60, input=TANK)
    return done.returncode, done.stderr


def main():
    program = sys.argv[1]
    counts = filled(TANK + b"\nstates\n", b"3\n", 4 * 2 ** 20)
    signalled = (WRITE_FAULT, -signal.SIGPIPE, 128 + signal.SIGPIPE)
    tank = f"printf '%s' '{BOUND.decode()}'"
    rows = [
        ("replies, the reader gone after one byte", reader_gone(program, ["run"], counts, 1), signalled),
        ("replies, the reader gone before", reader_gone(program, ["run"], counts, 0), signalled),
        ("a refusal, the reader gone before", reader_gone(program, ["run"], b"", 0), signalled),
        ("usage, the reader gone before", reader_gone(program, [], b"", 0), signalled),
        ("replies | head -1", with_shell(program, f"(printf '%s\\nstates\\n' '{TANK.decode()}'; yes 3 | head -1000000) | mpc run | head -1 > /dev/null; exit ${{PIPESTATUS[1]}}"), signalled),
        ("replies, no output", with_shell(program, "mpc run >&-"), (0, WRITE_FAULT)),
        ("usage, no output", with_shell(program, "mpc >&-"), (WRITE_FAULT,)),
        ("compile, no output", with_shell(program, f"{tank} | mpc compile >&-"), (WRITE_FAULT,)),
        ("compile, a full device", with_shell(program, f"{tank} | mpc compile > /dev/full"), (WRITE_FAULT,)),
        ("run, no input", with_shell(program, "mpc run <&-"), (READ_FAULT,)),
        ("run, a folder as input", with_shell(program, "mpc run < /"), (READ_FAULT,)),
        ("run, an output that can't be written", with_shell(program, "mpc 1< /dev/null"), (WRITE_FAULT,)),
        ("words that aren't UTF-8", with_shell(program, "mpc $'\\xff'"), (19,)),
    ]
    wrong = 0
    for name, (status, noise), due in rows:
        fault = "" if status in due and not noise else f": WRONG, {due} is due" + (f", and it writes {noise[:200]!r}" if noise else "")
        wrong += bool(fault)
        print(f"{name}: status {status}{fault}")
    os._exit(1 if wrong else 0)


if __name__ == "__main__":
    main()
