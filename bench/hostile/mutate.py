"""Changes the repository's own plants, files and lines of counts, and runs the program on what comes out. The words are the program, how
many mutations there are, and the seed of the first (1): each has a seed of its own, so one can be had again by itself. What ends wrongly
is kept under `build/cases`."""

import json
import random
import re
import subprocess
import sys
import time
from concurrent.futures import ThreadPoolExecutor
from pathlib import Path

HERE = Path(__file__).resolve().parent
sys.path.insert(0, str(HERE.parent / "workers"))

from judge import judge  # noqa: E402

EXAMPLES = HERE.parents[1] / "examples"
CASES = HERE / "build" / "cases"
SECONDS = 2
BATCH = 1000

NUMBER = r"-?[1-9][0-9]*(?:/[1-9][0-9]*)?|0"
SET = r"\{(?:[1-9][0-9]*(?:,[1-9][0-9]*)*)?\}"
KINDS = "NotJson|NotObject|UnknownKey|MissingKey|WrongKind|BadNumber|WrongShape|OverLimit|NotSymmetric|StepNotPositive|BadVersion"
PLACE = (r"condense (?:state|cost|row) #|pivot #|(?:law|reach|region) SET|border SET #|meet # #|holds # # #|joint #|bound law # #|bound node #"
         r"|check law #|check leaf # #")
TARGET = "(?:low|high|none) #"
LINES = {
    2: "usage",
    3: rf"bad plant (?:{KINDS})(?: (?:/[A-Za-z0-9_?-]{{0,32}})+)?",
    4: "not definite #",
    5: f"too wide (?:{PLACE})",
    6: "bad file (?:BadLine|Truncated|TailAfterEnd|BadNode|OverBound) #",
    7: "refused (?:law # (?:stationary|active) #|leaf #(?: row #)?)",
    10: "too long",
    15: f"unsafe leaf # {TARGET}",
    16: f"too wide (?:next # {TARGET}|tight #)",
    17: "bad noise",
    18: "too many plants",
}
LINES = {code: re.compile(text.replace("SET", SET).replace("#", "(?:0|[1-9][0-9]*)")) for code, text in LINES.items()}
REPLY = re.compile(rf"bad line|outside [1-4]|infeasible|too wide|(?:{NUMBER})(?: (?:{NUMBER})){{0,2}}")

# Numbers at the limits of what is read, and beyond them.
NUMBERS = [b"0", b"1", b"-1", b"2", b"7", b"61", b"1000000", b"1000001", b"999999999999999999", b"1000000000000000000",
           b"-999999999999999999", b"9223372036854775807", b"9223372036854775808", b"18446744073709551615", b"18446744073709551616",
           b"170141183460469231731687303715884105727", b"170141183460469231731687303715884105728",
           b"-170141183460469231731687303715884105728", b"340282366920938463463374607431768211456", b"1/3", b"1/0", b"0/1", b"2/4",
           b"1/170141183460469231731687303715884105727", b"-0", b"00", b"01", b"+1", b"1.5", b"1e5", b"\"1/3\"", b"\"0.5\"", b"\"-1\"", b""]
BYTES = b"\0\n\r \"'{}[],:/-+.0123456789eEaxstatesnextnoisempc\x7f\x80\xc3\xff"
TOKEN = re.compile(rb"-?[0-9]+(?:/[0-9]+)?")


VALUES = [0, 1, -1, 2, 7, 3, 61, 1000001, 999999999999999999, -10**18, 1.5, "1/3", "0.5", "-1", "1/0", "999999999999999999/7", "x", "", [], {},
          None, True, [0], [[1]], [1, 0], {"max": 1}, {"x": [1], "max": 1}]
KEYS = ["version", "horizon", "A", "B", "Q", "R", "P", "rows", "terminal", "grid", "drift", "xgoal", "ugoal", "x", "u", "max", "low", "step",
        "count", "C", "", "a b/\u00e4"]


def places_of(value, at=()):
    """The ways to the parts of a value."""
    parts = value.items() if isinstance(value, dict) else enumerate(value) if isinstance(value, list) else ()
    yield from ((at, key) for key, _ in parts)
    for key, part in parts if isinstance(value, dict) else enumerate(value) if isinstance(value, list) else ():
        yield from places_of(part, (*at, key))


def restructure(draw, text):
    """One change of a plant's values, where the text begins with a plant; else the text as it is."""
    end = min((text.find(word) for word in (b"\nstates", b"\nnoise", b"\nnext") if word in text), default=len(text))
    try:
        plant = json.loads(text[:end])
        way, key = draw.choice(list(places_of(plant)))
    except (ValueError, IndexError, RecursionError):
        return text
    holder = plant
    for step in way:
        holder = holder[step]
    kind = draw.randrange(5)
    if kind == 0:
        del holder[key]
    elif kind == 1 and isinstance(holder, list):
        holder.insert(key, holder[key])
    elif kind == 1:
        holder[draw.choice(KEYS)] = holder[key]
    elif kind == 2 and isinstance(holder, dict):
        holder[draw.choice(KEYS)] = draw.choice(VALUES)
    else:
        holder[key] = draw.choice(VALUES)
    return json.dumps(plant).encode() + text[end:]


def change(draw, text, others):
    """One change of a text."""
    if not text:
        return bytes([draw.choice(BYTES)])
    if text.lstrip().startswith(b"{") and draw.random() < 0.6:
        return restructure(draw, text)
    kind, place = draw.choice((0, 1, 2, 3, 4, 5, 6, 7, 8, 9, 10, 10, 10, 11, 11, 11)), draw.randrange(len(text))
    end = min(len(text), place + draw.choice((1, 1, 1, 2, 5, 20)))
    lines = text.split(b"\n")
    line = draw.randrange(len(lines))
    numbers = list(TOKEN.finditer(text))
    if kind == 0:
        return text[:place] + bytes([draw.choice(BYTES)]) + text[place + 1:]
    if kind == 1:
        return text[:place] + bytes([draw.choice(BYTES)]) + text[place:]
    if kind == 2:
        return text[:place] + text[end:]
    if kind == 3:
        return text[:end] + text[place:]
    if kind == 4:
        return text[:place]
    if kind == 5:
        del lines[line]
        return b"\n".join(lines)
    if kind == 6:
        lines.insert(draw.randrange(len(lines) + 1), lines[line])
        return b"\n".join(lines)
    if kind == 7:
        other = draw.randrange(len(lines))
        lines[line], lines[other] = lines[other], lines[line]
        return b"\n".join(lines)
    if kind == 8:
        other = draw.choice(others)
        return text[:place] + other[draw.randrange(len(other)):]
    if kind == 9:
        other = draw.choice(others).split(b"\n")
        lines[line] = draw.choice(other)
        return b"\n".join(lines)
    if not numbers:
        return text[:place]
    number = draw.choice(numbers)
    fresh = draw.choice(NUMBERS) if kind == 10 else draw.choice(numbers)[0]
    return text[:number.start()] + fresh + text[number.end():]


def heavy(text):
    """Whether a plant has so many rows over so many steps that its table may take longer than a run may."""
    try:
        plant = json.loads(text.split(b"\nstates")[0])
        rows = plant["horizon"] * len(plant.get("rows", [])) + len(plant.get("terminal", []))
        return rows > 12 or len(plant["A"]) > 2
    except (ValueError, KeyError, TypeError, AttributeError, RecursionError):
        return False


def mutation(seed, corpus):
    """The words and the input of a seed."""
    draw = random.Random(seed)
    words, text = draw.choice(corpus)
    others = [other for _, other in corpus if other]
    for _ in range(draw.choice((1, 1, 1, 2, 3, 5))):
        text = change(draw, text, others)
    if words[0] in ("run", "compile", "trace") and heavy(text):
        words = ["solve"]
    if words[0] == "fleet" and any(heavy(part) for part in text.split(b"\nnext\n")):
        words = ["check"]
    return words, text


def counts_of(text):
    """How many lines of counts an input has."""
    rest = text
    while rest:
        line, cut, rest = rest.partition(b"\n")
        if line == b"states" or (cut and line == b"states\r"):
            return rest.count(b"\n") + (rest != b"" and not rest.endswith(b"\n"))
    return 0


def fault_of_lines(lines):
    """The first line that is no reply line."""
    return next((f"no reply: {line[:80]}" for line in lines if not REPLY.fullmatch(line)), None)


def fault_of_done(words, text, out):
    """What is wrong with an output of status 0, as far as its form says."""
    if words[0] in ("run", "reply", "solve", "robust"):
        if out and not out.endswith("\n"):
            return "a last line without its end"
        lines = out.splitlines()
        return fault_of_lines(lines) or (None if len(lines) == counts_of(text) else "another number of replies than of lines")
    if words[0] in ("compile", "convert"):
        return None if out.startswith("mpc 3\nsize ") and out.endswith("\nend\n") else "no file of a controller"
    if words[0] == "trace":
        return judge(out, int(words[-1]) if len(words) > 1 else 1)[0]
    if words[0] == "fleet":
        return None if out.startswith("plant 1 ") and out.endswith("\n") else "no sections"
    return None if out == {"check": "accepted\n", "safe": "safe\n"}.get(words[0]) else "another output"


def fault_of(words, text, status, out, err, seconds):
    """What is wrong with the end of a run."""
    if seconds > SECONDS:
        return f"{seconds:.1f} seconds"
    if status < 0:
        return f"ended by signal {-status}"
    if err:
        return f"writes to standard error: {err[:200]!r}"
    try:
        told = out.decode("ascii")
    except UnicodeDecodeError:
        return "output that isn't ASCII"
    if status == 0:
        return fault_of_done(words, text, told)
    if status not in LINES:
        return f"status {status}"
    return None if told.endswith("\n") and LINES[status].fullmatch(told[:-1]) else f"status {status} with the line {told[:80]!r}"


def outcome(program, seed, corpus):
    """The status of one mutation's run, and what is wrong with it. A slow run is run again, since the machine may be busy."""
    words, text = mutation(seed, corpus)
    for _ in range(3):
        begin = time.monotonic()
        try:
            done = subprocess.run([program, *words], input=text, capture_output=True, timeout=5 * SECONDS)
            status, out, err = done.returncode, done.stdout, done.stderr
        except subprocess.TimeoutExpired:
            status, out, err = 0, b"", b""
        seconds = time.monotonic() - begin
        if seconds <= SECONDS:
            break
    fault = fault_of(words, text, status, out, err, seconds)
    if fault:
        CASES.mkdir(parents=True, exist_ok=True)
        (CASES / f"{seed}.input").write_bytes(text)
        (CASES / f"{seed}.words").write_text(" ".join(words) + "\n" + fault + "\n")
    return words[0], status, seconds, fault and f"seed {seed}: {' '.join(words)}: {fault}"


def corpus_of(program):
    """Words and inputs: the examples, their files, and their files with lines of counts."""
    corpus = []
    for file in sorted(EXAMPLES.glob("*/*")):
        if file.is_file():
            text = file.read_bytes()
            if file.suffix == ".json":
                corpus += [(words, text) for words in (["compile"], ["trace"], ["trace", "--workers", "2"], ["solve"])]
            elif b"\nnext\n" in text:
                corpus += [(["fleet"], text), (["fleet", "--workers", "2"], text)]
            elif b"\nnoise\n" in text:
                corpus.append((["robust"], text))
            elif file.suffix == ".txt":
                corpus += [(["run"], text), (["solve"], text)]
    for name in ("scalar", "cart", "motor", "double_integrator"):
        plant, _, states = (EXAMPLES / name / "states.txt").read_bytes().partition(b"states\n")
        file = subprocess.run([program, "compile"], input=plant, capture_output=True, check=True).stdout
        corpus += [(["check"], file), (["convert"], file), (["safe"], file), (["reply"], file + b"states\n" + states)]
    # Small files are changed more often than large ones at a place that matters.
    return corpus + [one for one in corpus if len(one[1]) < 2000]


def main():
    program, count = sys.argv[1], int(sys.argv[2])
    first = int(sys.argv[3]) if len(sys.argv) > 3 else 1
    corpus = corpus_of(program)
    faults, statuses, slowest = [], {}, 0
    with ThreadPoolExecutor(2) as pool:
        for start in range(first, first + count, BATCH):
            end = min(start + BATCH, first + count)
            for word, status, seconds, fault in pool.map(lambda seed: outcome(program, seed, corpus), range(start, end)):
                statuses[status] = statuses.get(status, 0) + 1
                slowest = max(slowest, seconds)
                if fault:
                    faults.append(fault)
                    print(fault, flush=True)
            print(f"seeds {start} to {end - 1}: {len(faults)} wrong so far, the slowest {slowest:.2f} seconds", flush=True)
    ends = ", ".join(f"{statuses[status]} with {status}" for status in sorted(statuses))
    print(f"{count} mutations, seeds {first} to {first + count - 1}: {ends}; the slowest took {slowest:.2f} seconds; {len(faults)} ended wrongly")
    sys.exit(1 if faults else 0)


if __name__ == "__main__":
    main()
