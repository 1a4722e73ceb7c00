"""The quadratic program of a plant, by exact fractions, as text for the plain Rust body."""
from fractions import Fraction


def matrix(rows):
    return [[Fraction(str(x)) for x in row] for row in rows]


def product(m, n):
    columns = list(zip(*n))
    return [[sum(x * y for x, y in zip(row, column)) for column in columns] for row in m]


def transposed(m):
    return [list(column) for column in zip(*m)]


def add(m, n):
    for row, other in zip(m, n):
        for j, x in enumerate(other):
            row[j] += x


def steps(plant):
    """The states of step 0, 1 and so on, as forms of 1 and the counts, and as forms of the moves."""
    a, b = matrix(plant["A"]), matrix(plant["B"])
    n, inputs, unknowns = len(a), len(b[0]), len(b[0]) * plant["horizon"]
    x = [[Fraction(0)] * (n + 1) for _ in range(n)]
    z = [[Fraction(0)] * unknowns for _ in range(n)]
    for i, axis in enumerate(plant["grid"]):
        x[i][0], x[i][i + 1] = Fraction(str(axis["low"])), Fraction(str(axis["step"]))
    yield x, z
    for k in range(plant["horizon"]):
        x, z = product(a, x), product(a, z)
        for row, entries in zip(z, b):
            row[k * inputs:(k + 1) * inputs] = entries
        yield x, z


def costs(plant, states):
    """The least z'h z / 2 + z'f c: h and f."""
    inputs, horizon = len(plant["B"][0]), plant["horizon"]
    h = [[Fraction(0)] * (inputs * horizon) for _ in range(inputs * horizon)]
    f = [[Fraction(0)] * (len(plant["A"]) + 1) for _ in range(inputs * horizon)]
    for k, (x, z) in enumerate(states):
        weight = matrix(plant["Q"] if k < horizon else plant["P"])
        add(h, product(transposed(z), product(weight, z)))
        add(f, product(transposed(z), product(weight, x)))
        if k < horizon:
            for i, row in enumerate(matrix(plant["R"])):
                for j, entry in enumerate(row):
                    h[k * inputs + i][k * inputs + j] += entry
    return h, f


def rows(plant, states):
    """The rows g z <= w c: those of each step, then the terminal ones."""
    n, inputs, horizon = len(plant["A"]), len(plant["B"][0]), plant["horizon"]
    staged = [(k, row) for k in range(horizon) for row in plant.get("rows", [])]
    g, w = [], []
    for k, row in staged + [(horizon, row) for row in plant.get("terminal", [])]:
        x, z = states[k]
        left = [[Fraction(str(e)) for e in row.get("x", [0] * n)]]
        of_moves, of_counts = product(left, z)[0], product(left, x)[0]
        for j, entry in enumerate(row.get("u", [])):
            of_moves[k * inputs + j] += Fraction(str(entry))
        g.append(of_moves)
        w.append([Fraction(str(row["max"])) - of_counts[0]] + [-entry for entry in of_counts[1:]])
    return g, w


def text(plant):
    """The sizes, and the rows of h, f, g and w."""
    assert plant["version"] == 1, plant["version"]
    states = list(steps(plant))
    h, f = costs(plant, states)
    g, w = rows(plant, states)
    sizes = f"{len(plant['B'][0])} {len(h)} {len(g)} {len(f[0])}\n"
    return sizes + "".join(" ".join(map(str, row)) + "\n" for part in (h, f, g, w) for row in part)
