"""The grammar of scripts, read a second time: what a script says, or the line and the kind with which it is refused."""

MOST_BYTES, MOST_COMMANDS, MOST_NUMERAL = 16_777_216, 200_000, 4_294_967_295
OPERANDS = {"new": "RL", "null": "R", "copy": "RR", "get": "RRF", "put": "RFR", "value": "R", "same": "RR"}
# The commands of each version, by their operands, and the most mutators that a script of it has.
VERSIONS = {"1": OPERANDS, "2": {**OPERANDS, "leaf": "RL"}, "3": {**OPERANDS, "leaf": "RL", "leave": ""}}
MOST_MUTATORS = {"1": 8, "2": 8, "3": 63}


class Refused(Exception):
    def __init__(self, line, kind):
        super().__init__(line, kind)
        self.line, self.kind = line, kind


def numeral(word):
    """The number that a word spells, or None."""
    digits = word.isascii() and word.isdigit() and (word == "0" or word[0] != "0")
    return int(word) if digits and len(word) <= 10 and int(word) <= MOST_NUMERAL else None


def read(data):
    """The version, the numbers of the heap, and the commands of each mutator, or Refused."""
    if len(data) > MOST_BYTES:
        raise Refused(0, "TooLong")
    lines = data.split(b"\n")
    if lines[-1] == b"":
        lines.pop()
    needs, version, heap, mutators = "header", None, None, []
    for number, line in enumerate(lines, 1):
        line = line[:-1] if line.endswith(b"\r") else line
        try:
            words = [it for it in line.decode("utf-8").replace("\t", " ").split(" ") if it]
        except UnicodeDecodeError:
            raise Refused(number, "NotUtf8") from None
        if not words or words[0].startswith("#"):
            continue
        if needs == "header":
            if len(words) != 2 or words[0] != "recycler" or words[1] not in VERSIONS:
                raise Refused(number, "NoHeader")
            version = words[1]
            needs = "heap"
        elif needs == "heap":
            heap = [numeral(it) for it in words[1:]]
            limits = (65_535, 16, 64)
            if words[0] != "heap" or len(heap) != 3 or any(n is None or not 1 <= n <= most for n, most in zip(heap, limits)):
                raise Refused(number, "BadHeap")
            needs = "mutator"
        elif words == ["mutator"]:
            if len(mutators) == MOST_MUTATORS[version]:
                raise Refused(number, "TooManyMutators")
            mutators.append([])
            needs = "command"
        elif needs == "mutator":
            raise Refused(number, "NoMutator")
        else:
            mutators[-1].append(command(number, words, VERSIONS[version], heap, mutators[-1]))
    for need, kind in (("header", "NoHeader"), ("heap", "BadHeap"), ("mutator", "NoMutator")):
        if needs == need:
            raise Refused(len(lines) + 1, kind)
    return version, heap, mutators


def command(number, words, known, heap, already):
    kinds, has_left = known.get(words[0]), already[-1:] == [("leave", [])]
    if has_left or kinds is None or len(words) != len(kinds) + 1:
        raise Refused(number, "BadCommand")
    if len(already) == MOST_COMMANDS:
        raise Refused(number, "TooManyCommands")
    operands = []
    for kind, word in zip(kinds, words[1:]):
        value = numeral(word)
        if value is None:
            raise Refused(number, "BadNumber")
        if kind == "R" and value >= heap[2]:
            raise Refused(number, "Register")
        if kind == "F" and value >= heap[1]:
            raise Refused(number, "Field")
        operands.append(value)
    return words[0], operands


def spelled(version, heap, mutators):
    """The bytes of a script."""
    lines = [f"recycler {version}", "heap " + " ".join(map(str, heap))]
    for commands in mutators:
        lines.append("mutator")
        lines += [" ".join([name, *map(str, operands)]) for name, operands in commands]
    return ("\n".join(lines) + "\n").encode()


def drawn(draw, mutators=8, lengths=(0, 1, 5, 20, 80, 300)):
    """The bytes of a script with any commands, for so many mutators at most, each with one of these numbers of commands.

    In version 3 a mutator may leave behind them.
    """
    heap = [draw.choice((1, 2, 3, 5, 8, 13, 40, 200, 65535)), draw.randint(1, 3), draw.randint(1, 6)]
    version = draw.choice(list(VERSIONS))
    known = {name: kinds for name, kinds in VERSIONS[version].items() if name != "leave"}
    weights, most = [draw.random() for _ in known], min(mutators, MOST_MUTATORS[version])
    ranges = {"R": heap[2] - 1, "F": heap[1] - 1, "L": draw.choice((9, 999, MOST_NUMERAL))}

    def one():
        name = draw.choices(list(known), weights)[0]
        return name, [draw.randint(0, ranges[it]) for it in known[name]]

    def commands():
        return [one() for _ in range(draw.choice(lengths))] + leaving(draw, version)

    return spelled(version, heap, [commands() for _ in range(draw.randint(1, most))])


def leaving(draw, version):
    """The command by which a mutator leaves, or none."""
    return [("leave", [])] if version == "3" and draw.random() < 0.5 else []


def contended(draw):
    """The bytes of a script whose two to four mutators meet at the fields of the opening object.

    Register 0 keeps that object, and no two births have one label. Commands that nobody else sees stand between those that meet, so
    that workers that start one after the other still meet.
    """
    version = draw.choice(list(VERSIONS))
    births = [it for it in ("new", "new", "leaf") if it in VERSIONS[version]]
    heap = [draw.choice((2, 3, 4, 6, 8, 12, 40)), draw.randint(1, 2), draw.randint(3, 4)]
    aside = draw.choice((0, 20, 100, 400))
    weights = [draw.randint(1, 4) for _ in range(7)]

    def one(t, i):
        written, read, field = draw.randint(1, heap[2] - 1), draw.randint(0, heap[2] - 1), draw.randint(0, heap[1] - 1)
        source, birth = draw.choice((0, 0, read)), draw.choice(births)
        return draw.choices(
            [
                [(birth, [written, 1000 * t + i])],
                [(birth, [written, 1000 * t + i]), ("put", [source, field, written]), ("null", [written])],
                [("get", [written, source, field]), ("value", [written])],
                [("get", [written, source, field]), ("put", [source, field, read])],
                [("put", [source, field, written]), ("get", [written, source, field])],
                [("null", [written])],
                [("get", [written, source, field]), ("same", [written, read])],
            ],
            weights,
        )[0]

    def commands(t):
        row = []
        for i in range(draw.randint(3, 6)):
            row += one(t, i)
            row += [("same", [0, 0])] * aside
        return row + leaving(draw, version)

    return spelled(version, heap, [commands(t) for t in range(1, draw.randint(2, 4) + 1)])
