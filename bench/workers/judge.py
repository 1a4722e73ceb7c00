"""Judges a history of workers by its rules alone. Nothing of the program is in here."""

import re

LINE = re.compile(r"(claim|done) ([1-9][0-9]*) \{((?:[1-9][0-9]*(?:,[1-9][0-9]*)*)?)\}( (?:dependent|unreachable|hollow|region))?")
GROWS = (" hollow", " region")


def judge(text, workers):
    """The first rule that the history breaks, or None, and the tag of each set that is done."""
    claimed, held, done, last = set(), {}, {}, None
    for line in text.splitlines():
        match = LINE.fullmatch(line)
        if not match or (match[1] == "done") != bool(match[4]):
            return f"neither a claim nor a done: {line}", done
        worker, rows = int(match[2]), tuple(int(row) for row in match[3].split(",") if row)
        if match[1] == "done":
            if held.pop(worker, None) != rows:
                return f"done by a worker who doesn't hold it: {line}", done
            done[rows] = match[4]
            continue
        if worker > workers:
            return f"a worker too many: {line}", done
        if worker in held:
            return f"a second set in one hand: {line}", done
        if rows in claimed:
            return f"claimed twice: {line}", done
        if last is not None and (len(rows), rows) <= (len(last), last):
            return f"out of order: {line}", done
        if any(len(other) < len(rows) for other in held.values()):
            return f"a level begun before the last one is done: {line}", done
        if any(done[rows[:i] + rows[i + 1:]] not in GROWS if rows[:i] + rows[i + 1:] in done else True for i in range(len(rows))):
            return f"a subset can't grow: {line}", done
        claimed.add(rows)
        held[worker], last = rows, rows
    return ("a set is left open" if held else None), done
