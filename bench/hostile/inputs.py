"""Inputs of a given size, some of which no program should be given. Each is a name, the word of the command and a function
that gives its bytes. Those whose name begins with `well formed` are what the others are measured beside."""

PLANT = ('{"version":1,"horizon":1,"A":[[1]],"B":[[1]],"Q":[[1]],"R":[[1]],"P":[[1]],ROWS'
         '"grid":[{"low":-4,"step":1,"count":8}]}')
TANK = PLANT.replace("ROWS", "").encode()
BOUND = PLANT.replace("ROWS", '"rows":[{"u":[1],"max":1},{"u":[-1],"max":1}],').encode()

# No input keeps these two rows, so each leaf is one without a law.
HEAD = b"size 1 1 1\nA 1\nB 1\nQ 1\nR 1\nP 1\n"
NOWHERE = b"mpc 1\n" + HEAD + b"rows 2\nrow 0 1 -1\nrow 0 -1 -1\nterminal 0\ngrid -4 1 8\n"
NOWHERE_THIRD = b"mpc 3\n" + HEAD + b"drift 0\ngoal 0 0\nrows 2\nrow 0 1 -1\nrow 0 -1 -1\nterminal 0\ngrid -4 1 8\n"
FREE = b"mpc 1\n" + HEAD + b"rows 0\nterminal 0\ngrid -4 1 8\n"
FREE_THIRD = b"mpc 3\n" + HEAD + b"drift 0\ngoal 0 0\nrows 0\nterminal 0\ngrid -4 1 8\n"
LAW = b"law\nmove 2 -1/2\n"


def filled(head, unit, size, tail=b""):
    """The head, as many units as fit, and the tail."""
    return head + unit * ((size - len(head) - len(tail)) // len(unit)) + tail


def numbered(head, line, size, tail=b"", first=1):
    """The head, lines with a rising number, as many as fit, and the tail."""
    lines, room, number = [], size - len(head) - len(tail), first
    while True:
        text = line(number)
        if len(text) > room:
            return head + b"".join(lines) + tail
        lines.append(text)
        room -= len(text)
        number += 1


def padded(text, size):
    """The text of a plant with blanks before it."""
    return b" " * (size - len(text)) + text


def plants(size):
    """Plant files, none of them but the first one read to the end of its checks."""
    deep = b"[" * 100 + b"]" * 100
    return [
        ("well formed: a plant behind blanks", lambda: padded(BOUND, size)),
        ("lists in lists, without an end", lambda: b"[" * size),
        ("objects in objects, without an end", lambda: filled(b"", b'{"a":', size)),
        ("lists a hundred deep, side by side", lambda: filled(b'{"version":[', deep + b",", size, b"0]}")),
        ("empty lists", lambda: filled(b'{"version":[', b"[],", size, b"0]}")),
        ("a list of digits", lambda: filled(b'{"A":[[', b"0,", size, b"0]]}")),
        ("empty texts", lambda: filled(b'{"rows":[', b'"",', size, b"0]}")),
        ("rows without end", lambda: filled(TANK[:-1] + b',"rows":[', b'{"max":1},', size, b'{"max":1}]}')),
        ("objects of one empty key", lambda: filled(TANK[:-1] + b',"rows":[', b'{"":0},', size, b'{"":0}]}')),
        ("one equal key, and the plant", lambda: filled(b"{", b'"version":1,', size, BOUND[1:])),
        ("different keys", lambda: numbered(b"{", lambda k: b'"%d":1,' % k, size, TANK[1:])),
        ("keys of one prefix", lambda: numbered(b"{", lambda k: b'"%0100d":1,' % k, size, TANK[1:])),
        ("one whole number", lambda: filled(b'{"version":', b"1", size, b"}")),
        ("one number behind zeros and a point", lambda: filled(b'{"version":0.', b"0", size, b"1}")),
        ("one number with an exponent", lambda: filled(b'{"version":1e', b"9", size, b"}")),
        ("one negative exponent", lambda: filled(b'{"version":1e-', b"9", size, b"}")),
        ("one text", lambda: filled(b'{"version":"', b"1", size, b'"}')),
        ("one text of escapes", lambda: filled(b'{"version":"', b"\\u0031", size, b'"}')),
        ("one key", lambda: filled(b'{"', b"k", size, b'":1}')),
        ("bytes that aren't UTF-8", lambda: filled(b'{"', b"\xff", size, b'":1}')),
        ("nothing but zero bytes", lambda: b"\0" * size),
    ]


def chain(head, split, size, tail=b"end\n", leaf=b"none\ncert\n", each=False):
    """A file whose tree is one chain of splits; behind each split, or behind all of them, a leaf a split."""
    count = (size - len(head) - len(tail) - len(leaf)) // (len(split) + len(leaf))
    nodes = (split + leaf) * count + leaf if each else split * count + leaf * (count + 1)
    return head + nodes + tail


def refuting(size):
    """A chain whose certificates hold: each leaf's last two rows refute. Its yes sides are leaves."""
    parts, room = [NOWHERE + b"laws 0\ntree\n"], size - len(NOWHERE) - 60
    depth = 0
    while True:
        depth += 1
        part = b"split 1 6\nnone\ncert %d 1 %d 1\n" % (depth + 3, depth + 4)
        if len(part) > room:
            break
        parts.append(part)
        room -= len(part)
    parts.append(b"none\ncert %d 1 %d 1\nend\n" % (depth + 2, depth + 3))
    return b"".join(parts)


def full_cert(yes, last):
    """A leaf whose certificate names so many rows `t <= 6`, each once, and the last two, of which this is the first."""
    rows = b"".join(b" %d 1" % (k + 3) for k in range(yes))
    lower = b" 1 %d" % yes if yes else b""
    return b"none\ncert" + lower + rows + b" %d %d %d %d\n" % (last, 3 * yes + 1, last + 1, 3 * yes + 1)


def long_certs(size):
    """A chain whose two deepest leaves have certificates that name all they can, and hold. The others name two rows."""
    depth = size // 62
    short = [b"none\ncert %d 1 %d 1\n" % (k + 3, k + 4) for k in range(depth - 1, 0, -1)]
    return (NOWHERE + b"laws 0\ntree\n" + b"split 1 6\n" * depth + full_cert(depth, depth + 3) + full_cert(depth - 1, depth + 3)
            + b"".join(short) + b"end\n")


def full_certs(size):
    """A chain all whose leaves have certificates that name all they can, and hold."""
    depth = int((size / 3.6) ** 0.5)
    while True:
        text = (NOWHERE + b"laws 0\ntree\n" + b"split 1 6\n" * depth + full_cert(depth, depth + 3)
                + b"".join(full_cert(k - 1, k + 3) for k in range(depth, 0, -1)) + b"end\n")
        if len(text) <= size:
            return text
        depth -= 1 + depth // 100


def balanced(size):
    """A file in version 1 whose tree divides one grid again and again."""
    depth = 0
    while (2 ** (depth + 1)) * 46 < size:
        depth += 1

    def node(low, high, left, level):
        if level == 0:
            return b"none\ncert %d 1 %d 1\n" % (left + 3, left + 4)
        middle = (low + high) // 2
        return (b"split 1 %d\n" % middle + node(low, middle, left + 1, level - 1)
                + node(middle + 1, high, left + 1, level - 1))

    head = NOWHERE.replace(b"grid -4 1 8", b"grid -4 1 1000000")
    return head + b"laws 0\ntree\n" + node(0, 1000000, 0, depth) + b"end\n"


def files(size):
    """Controller files."""
    laws = FREE + b"laws 4598479\n"
    named = b"forms 999999999999999999\n"
    planes = b"forms 0\nlaws 0\nplanes 999999999999999999\n"
    lines = [
        ("well formed: a balanced tree", lambda: balanced(size)),
        ("a chain of splits, and as many leaves", lambda: chain(NOWHERE + b"laws 0\ntree\n", b"split 1 6\n", size)),
        ("a chain whose yes sides are leaves", lambda: chain(NOWHERE + b"laws 0\ntree\n", b"split 1 6\n", size, each=True)),
        ("a chain with certificates that hold", lambda: refuting(size)),
        ("a chain of splits without an end", lambda: filled(NOWHERE + b"laws 0\ntree\n", b"split 1 6\n", size)),
        ("a chain of one named plane", lambda: chain(NOWHERE_THIRD + b"forms 0\nlaws 0\nplanes 1\nplane 1 6\ntree\n", b"split 1\n", size)),
        ("two cert lines as long as fit", lambda: long_certs(size)),
        ("long cert lines alone", lambda: full_certs(size)),
        ("laws without an end", lambda: filled(laws, LAW, size)),
        ("different forms", lambda: numbered(FREE_THIRD + named, lambda k: b"form %d 0\n" % k, size)),
        ("different forms of one prefix", lambda: numbered(FREE_THIRD + named, lambda k: b"form 100000000000000000000000000000%07d 0\n" % k, size)),
        ("equal forms", lambda: filled(FREE_THIRD + named, b"form 1 0\n", size)),
        ("different planes", lambda: numbered(FREE_THIRD + planes, lambda k: b"plane 1 %d\n" % k, size)),
        ("one law, and leaves without an end", lambda: filled(FREE + b"laws 1\n" + LAW + b"tree\n", b"leaf 1\n", size)),
        ("one law, a chain, and its leaves", lambda: chain(FREE + b"laws 1\n" + LAW + b"tree\n", b"split 1 6\n", size, leaf=b"leaf 1\n")),
        ("a leaf with a number of all digits", lambda: filled(FREE + b"laws 1\n" + LAW + b"tree\nleaf ", b"1", size, b"\nend\n")),
        ("a fraction of all digits", lambda: filled(b"mpc 1\nsize 1 1 1\nA ", b"1", size, b"\n")),
        ("an entry of zeros", lambda: filled(b"mpc 1\nsize 1 1 1\nA ", b"0", size, b"\n")),
        ("numbers without an end in one line", lambda: filled(b"mpc 1\nsize 1 1 1\nA", b" 1", size, b"\n")),
        ("one line without an end", lambda: b"m" * size),
        ("empty lines", lambda: b"\n" * size),
        ("blanks", lambda: b" " * size),
    ]
    for word in (b"mpc 1", b"size 1 1 1", b"A 1", b"drift 0", b"goal 0 0", b"rows 0", b"row 0 0 1", b"terminal 0", b"last 1 1", b"grid -4 1 8",
                 b"forms 1", b"form 1 0", b"laws 0", b"law", b"move 1 0", b"mult 1 0", b"planes 1", b"plane 1 6", b"tree", b"split 1 6",
                 b"split 1", b"leaf 1", b"none", b"cert", b"end"):
        lines.append((f"lines `{word.decode()}` alone", lambda word=word: filled(b"", word + b"\n", size)))
    return lines


def counts(size, head):
    """Lines of counts behind a head."""
    head = head + b"\nstates\n" if not head.endswith(b"\n") else head + b"states\n"
    return [
        ("well formed: lines of counts", lambda: filled(head, b"3\n", size)),
        ("empty lines of counts", lambda: filled(head, b"\n", size)),
        ("bad lines", lambda: filled(head, b"x\n", size)),
        ("counts outside", lambda: filled(head, b"9\n", size)),
        ("counts of 18 digits", lambda: filled(head, b"000000000000000003\n", size)),
        ("one count of all digits", lambda: filled(head, b"3", size)),
        ("one line of counts", lambda: filled(head, b"3 ", size)),
        ("lines `states`", lambda: filled(head, b"states\n", size)),
    ]


def sections(size):
    """Inputs of `fleet`."""
    return [
        ("lines `next` alone", lambda: filled(b"", b"next\n", size)),
        ("eight sections of nested lists", lambda: b"\nnext\n".join([b"[" * (size // 8 - 6)] * 8)),
        ("eight plants behind blanks", lambda: b"\nnext\n".join([padded(BOUND, size // 8 - 6)] * 8)),
    ]


def all_inputs(size):
    """Every input: its name, the words, and a function that gives its bytes."""
    file = FREE + b"laws 1\n" + LAW + b"tree\nleaf 1\nend\n"
    noise = TANK + b"\nnoise\n"
    made = [(name, "run", text) for name, text in plants(size)]
    made += [(name, "check", text) for name, text in files(size)]
    made += [(name, "convert", text) for name, text in files(size)[:6]]
    made += [(name, "reply", text) for name, text in files(size)[:3]]
    made += [(name, "safe", text) for name, text in files(size)[3:4]]
    made += [(name, "run", text) for name, text in counts(size, TANK)]
    made += [(name, "reply", text) for name, text in counts(size, file)]
    made += [(name, "solve", text) for name, text in counts(size, TANK)[1:]]
    made += [("one noise of all digits", "robust", lambda: filled(noise, b"1", size)),
             ("noises in one line", "robust", lambda: filled(noise, b"1 ", size)),
             ("lines `noise`", "robust", lambda: filled(noise, b"noise\n", size))]
    made += [(name, "fleet", text) for name, text in sections(size)]
    return made


def steep_inputs(size):
    """What takes more than linear time, since it asks for more than one look at each part of a tree: lines of counts that all go down one
    chain, and a controller with a law at each leaf of a chain, from each of which the closed loop is followed."""
    chained = chain(NOWHERE + b"laws 0\ntree\n", b"split 1 6\n", size // 2) + b"states\n"
    return [
        ("a chain, and as many bytes of lines of counts", "reply", size, lambda: filled(chained, b"3\n", size)),
        ("a law at each leaf of a chain", "safe", size // 16,
         lambda: chain(FREE + b"laws 1\n" + LAW + b"tree\n", b"split 1 6\n", size // 16, leaf=b"leaf 1\n")),
    ]
