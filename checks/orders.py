"""Texts of the program, and the search for a legal order of what they tell.

Legal is what `crates/rec_model/specs/LegalOrder.antt` calls so. The commands stand in one row, each mutator's in its own order, and
a heap that never frees gives each answer. Between them an object may be freed, but only one that no register reaches. Sweeps begin
and end, told by a number of marks that grows by one each time; a free stands within a sweep, and each sweep has one. An allocation
is answered `done` only where fewer objects are unfreed than there are slots, and `full` only where there are as many. At
`busy BEFORE AFTER` a sweep ran, began or ended; the marks were BEFORE at some moment since the mutator's last command and are AFTER
at some moment before its next one; and since its last command as many objects as slots were unfreed, though not all at one moment.

A text tells neither frees nor marks. The search puts each of them off until a command can't do without it: a birth that needs a
slot, a busy answer, the command behind one. What can be freed can be freed later too, and late frees forbid nothing that early ones
allow. So just one question is left where a birth needs a slot within a sweep that has freed already: whether another sweep began.
"""

from scripts import numeral

NEVER = 1 << 60
WORDS = {
    "new": ("done", "full", "busy"),
    "leaf": ("done", "full", "busy"),
    "null": ("done",),
    "copy": ("done",),
    "get": ("none", "null", "object"),
    "put": ("none", "nofield", "done"),
    "value": ("none", "value"),
    "same": ("yes", "no"),
    "leave": ("done", "notyet"),
}
NUMBERS = {"value": 1, "busy": 2}
BIRTHS = ("new", "leaf")
# What is told where nothing was read or written, whatever the fields hold.
REFUSALS = ("none", "nofield", "notyet")


class Illegal(Exception):
    """Why no order of a text is legal."""


class Undecided(Exception):
    """The search was given up."""


class Text:
    """What a text tells: each mutator's answers, the order in which they stand, and the lines behind them."""

    def __init__(self, script, text):
        _, _, mutators = script
        *lines, rest = text.split("\n")
        if rest:
            raise Illegal(f"{rest}: a line without its end")
        total = sum(len(it) for it in mutators)
        self.answers, self.order, self.rows = [[] for _ in mutators], [], lines[total:]
        for line in lines[:total]:
            t = self.mutator(line)
            index = len(self.answers[t])
            if index == len(mutators[t]) or not line.startswith(f"{t + 1}.{index + 1} "):
                raise Illegal(f"{line}: not the next command of its mutator")
            self.answers[t].append(self.answer(line, mutators[t][index][0]))
            self.order.append(t)

    def mutator(self, line):
        """The index of the mutator that a line answers."""
        for t in range(len(self.answers)):
            if line.startswith(f"{t + 1}."):
                return t
        raise Illegal(f"{line}: no answer")

    @staticmethod
    def answer(line, name):
        """What a line tells of a command: a word, and its numbers."""
        word, *numbers = line.split(" ")[1:]
        if word not in WORDS[name] or len(numbers) != NUMBERS.get(word, 0) or any(numeral(it) is None for it in numbers):
            raise Illegal(f"{line}: no answer of {name}")
        answer = (word, *map(int, numbers))
        if word == "busy" and answer[1] % 2 == 0 and answer[1] >= answer[2]:
            raise Illegal(f"{line}: no sweep ran")
        return answer


class Moment:
    """What stands between two commands: the heap that never frees, how many objects are unfreed, and the sweeps so far."""

    __slots__ = ("places", "registers", "children", "shared", "births", "unfreed", "marks", "has_freed", "owed", "since")

    def __init__(self, mutators, fields, registers):
        self.places = [0] * mutators
        self.registers = [[0] + [None] * (registers - 1) for _ in range(mutators)]
        self.children = {0: (None,) * fields}
        # The objects that more than one mutator may reach.
        self.shared = {0} if mutators > 1 else set()
        self.births, self.unfreed = 1, 1
        self.marks, self.has_freed = 0, False
        # Of each mutator the marks that a busy answer still has to see, and the unfreed objects at its last command, less the births.
        self.owed, self.since = [0] * mutators, [0] * mutators

    def copy(self):
        twin = object.__new__(Moment)
        for name in Moment.__slots__:
            value = getattr(self, name)
            setattr(twin, name, value.copy() if isinstance(value, (list, dict, set)) else value)
        twin.registers = [it.copy() for it in self.registers]
        return twin

    def live(self):
        """The live objects, numbered as registers and then fields meet them."""
        found = list(dict.fromkeys(it for row in self.registers for it in row if it is not None))
        seen = set(found)
        for it in found:
            for child in self.children[it]:
                if child is not None and child not in seen:
                    seen.add(child)
                    found.append(child)
        return found

    def share(self, it):
        """More than one mutator may reach this object, and all that it leads to."""
        waiting = [it]
        while waiting:
            one = waiting.pop()
            if one is not None and one not in self.shared:
                self.shared.add(one)
                waiting.extend(self.children[one])


class Judge:
    """Asks for a legal order of a text. Where `frees` is false nothing may be freed, as in a run without turns of the collector."""

    def __init__(self, script, text, frees=True):
        _, (self.slots, self.fields, self.registers), self.commands = script
        self.text, self.frees = text, frees
        self.answers = text.answers
        self.mutators = range(len(self.commands))
        self.bases = [1 + sum(len(it) for it in self.commands[:t]) for t in self.mutators]
        lines = [(t, i) for t in self.mutators for i in range(len(self.commands[t]))]
        self.born = [t for t, i in lines if self.is_birth(t, i)]
        self.made = 1 + len(self.born)
        self.refused = sum(self.answers[t][i][0] in ("full", "busy") for t, i in lines)
        self.has_busy = any(self.answers[t][i][0] == "busy" for t, i in lines)
        self.limits = [self.limits_of(t) for t in self.mutators]
        self.wanted = [[self.wanted_of(t, i) for i in range(len(self.commands[t]))] for t in self.mutators]
        self.last_put = [self.last_of(t, ("put",)) for t in self.mutators]
        self.last_use = [self.last_of(t, ("put", "get")) for t in self.mutators]
        self.furthest, self.why, self.visited = [0] * len(self.commands), "", 0

    def is_birth(self, t, i):
        return self.commands[t][i][0] in BIRTHS and self.answers[t][i][0] == "done"

    def limits_of(self, t):
        """For each place of a mutator the most marks there may be: no busy answer ahead may be missed."""
        limits, least = [NEVER], NEVER
        for i in reversed(range(len(self.commands[t]))):
            answer = self.answers[t][i]
            limits.append(min(least, answer[2]) if answer[0] == "busy" else least)
            least = min(least, answer[1], answer[2]) if answer[0] == "busy" else least
        return limits[::-1]

    def wanted_of(self, t, i):
        """The label that the object of this get has, where a value tells it before the register is written again."""
        name, operands = self.commands[t][i]
        if name != "get" or self.answers[t][i][0] != "object":
            return None
        for j in range(i + 1, len(self.commands[t])):
            (later, others), answer = self.commands[t][j], self.answers[t][j]
            if later == "value" and others[0] == operands[0]:
                return answer[1] if answer[0] == "value" else NEVER
            is_written = later in ("null", "copy") or (later == "get" and answer[0] != "none") or self.is_birth(t, j)
            if is_written and others[0] == operands[0]:
                return None
        return None

    def last_of(self, t, names):
        """For each field number the place of the last command of these names that isn't refused."""
        last = [-1] * self.fields
        for i, (name, operands) in enumerate(self.commands[t]):
            if name in names and self.answers[t][i][0] not in REFUSALS:
                last[operands[2] if name == "get" else operands[1]] = i
        return last

    def maker(self, it):
        """The command that made an object, which has its number."""
        if it == 0:
            return "new", [0, 0]
        t = max(t for t in self.mutators if self.bases[t] <= it)
        return self.commands[t][it - self.bases[t]]

    def label(self, it):
        """The label of an object."""
        return self.maker(it)[1][1]

    def is_leaf(self, it):
        """Whether the fields of an object are null for good."""
        return self.maker(it)[0] == "leaf"

    # One command.

    def go(self, moment, t):
        """Carries out the next command of a mutator, and says whether the heap answers what was told. Nothing is freed here."""
        i = moment.places[t]
        name, operands = self.commands[t][i]
        told, row = self.answers[t][i], moment.registers[t]
        if told[0] in ("full", "busy", "notyet"):
            answer = told
        elif name in BIRTHS:
            it = self.bases[t] + i
            moment.children[it] = (None,) * self.fields
            row[operands[0]] = it
            moment.births += 1
            moment.unfreed += 1
            answer = ("done",)
        else:
            answer = self.asked(moment, row, name, operands)
        if answer != told or (self.wanted[t][i] is not None and self.label(row[operands[0]]) != self.wanted[t][i]):
            return False
        moment.places[t] = i + 1
        moment.owed[t] = told[2] if told[0] == "busy" else 0
        moment.since[t] = moment.unfreed - moment.births
        return True

    def asked(self, moment, row, name, operands):
        """What a command that is no allocation is answered."""
        if name == "null":
            row[operands[0]] = None
        elif name == "copy":
            row[operands[0]] = row[operands[1]]
        elif name == "leave":
            row[:] = [None] * len(row)
        elif name == "same":
            return ("yes",) if row[operands[0]] == row[operands[1]] else ("no",)
        elif name == "value":
            it = row[operands[0]]
            return ("none",) if it is None else ("value", self.label(it))
        elif name == "get":
            to, source, field = operands
            if row[source] is None:
                return ("none",)
            row[to] = moment.children[row[source]][field]
            return ("null",) if row[to] is None else ("object",)
        else:
            source, field, value = operands
            it = row[source]
            if it is None:
                return ("none",)
            if self.is_leaf(it):
                return ("nofield",)
            old = moment.children[it]
            moment.children[it] = old[:field] + (row[value],) + old[field + 1 :]
            if it in moment.shared:
                moment.share(row[value])
        return ("done",)

    # Frees and marks.

    def free(self, moment):
        """Frees an object that no register reaches, if there is one."""
        if not self.frees or moment.unfreed <= len(moment.live()):
            return False
        moment.unfreed -= 1
        moment.has_freed = True
        return True

    def mark(self, moment):
        """A sweep begins or ends. One that has freed nothing frees first."""
        if moment.marks % 2 == 1 and not moment.has_freed and not self.free(moment):
            return False
        moment.marks += 1
        moment.has_freed = False
        return self.frees and all(moment.marks <= self.limits[t][moment.places[t]] for t in self.mutators)

    def mark_until(self, moment, marks):
        while moment.marks < marks:
            if not self.mark(moment):
                return False
        return True

    def is_marked(self, moment):
        """Whether marks matter yet: a busy answer is ahead, or one waits for marks."""
        return self.has_busy and any(self.owes(moment, t) or self.limits[t][moment.places[t]] < NEVER for t in self.mutators)

    @staticmethod
    def owes(moment, t):
        """Whether the last command of a mutator was answered busy, with more marks than there were yet."""
        return moment.owed[t] > moment.marks

    def births_with_a_free(self, moment):
        """The moments in which one object more was freed: in this sweep, or in the next one."""
        if not self.is_marked(moment):
            return [moment] if self.free(moment) else []
        later = moment.copy() if moment.marks % 2 == 1 and moment.has_freed else None
        ways = []
        if (moment.marks % 2 == 1 or self.mark(moment)) and self.free(moment):
            ways.append(moment)
        if later is not None and self.mark(later) and self.mark(later) and self.free(later):
            ways.append(later)
        return ways

    # The search.

    def may_go(self, moment, t):
        """Whether a mutator's next command may stand here, as far as slots and marks have a say without a free."""
        told = self.answers[t][moment.places[t]]
        if self.owes(moment, t):
            return False
        if told[0] == "full":
            return moment.unfreed == self.slots
        if told[0] == "busy":
            return moment.marks >= told[1] and moment.since[t] + moment.births >= self.slots
        return not self.is_birth(t, moment.places[t]) or moment.unfreed < self.slots

    def steps(self, moment, t):
        """The moments behind the next command of a mutator, with the frees and marks that it can't do without. The moment goes."""
        told = self.answers[t][moment.places[t]]
        if not self.mark_until(moment, moment.owed[t]):
            return []
        if told[0] == "busy" and not self.mark_until(moment, told[1]):
            return []
        if self.is_birth(t, moment.places[t]) and moment.unfreed == self.slots:
            ways = self.births_with_a_free(moment)
        else:
            ways = [moment]
        return [it for it in ways if self.may_go(it, t) and self.go(it, t)]

    def is_clear(self, moment, t):
        """Whether the next command of a mutator, if it may stand here, may as well stand nowhere else.

        That is so of what no other mutator sees or hinders, and of refusals. A birth is no hindrance where all births find room.
        """
        i = moment.places[t]
        (name, operands), told = self.commands[t][i], self.answers[t][i]
        if name not in (*BIRTHS, "get", "put") or told[0] in (*REFUSALS, "full", "busy"):
            return True
        if name in BIRTHS:
            return moment.unfreed + self.made - moment.births <= self.slots
        source, field, last = (operands[1], operands[2], self.last_put) if name == "get" else (operands[0], operands[1], self.last_use)
        if moment.registers[t][source] not in moment.shared:
            return True
        return all(s == t or moment.places[s] > last[s][field] for s in self.mutators)

    def is_over(self, moment, t):
        return moment.places[t] == len(self.commands[t])

    def run_clear(self, moment):
        """Carries out the commands that may as well stand nowhere else. False where the heap contradicts one."""
        moved = True
        while moved:
            moved = False
            for t in self.mutators:
                while not self.is_over(moment, t) and self.may_go(moment, t) and self.is_clear(moment, t):
                    if not self.go(moment, t):
                        self.note(moment)
                        return False
                    moved = True
        self.note(moment)
        return True

    def note(self, moment):
        if sum(moment.places) > sum(self.furthest):
            self.furthest = moment.places.copy()

    def is_before_busy(self, moment, t):
        return not self.is_over(moment, t) and self.answers[t][moment.places[t]][0] == "busy"

    def sweeps(self, moment):
        """What decides, beside the heap, how a moment can go on."""
        if not self.is_marked(moment):
            return (moment.unfreed,)
        owed = tuple(moment.owed[t] if self.owes(moment, t) else 0 for t in self.mutators)
        since = tuple(moment.since[t] if self.is_before_busy(moment, t) else 0 for t in self.mutators)
        return moment.unfreed, moment.marks, moment.has_freed, owed, since

    def key(self, moment):
        """What decides how a moment can go on."""
        heap = tuple((it, moment.children[it]) for it in moment.live())
        return tuple(moment.places), tuple(map(tuple, moment.registers)), heap, self.sweeps(moment)

    def find(self, most=200_000):
        """Returns if the text has a legal order. Else it is Illegal, or Undecided after so many moments with a choice."""
        start = Moment(len(self.commands), self.fields, self.registers)
        met, waiting = set(), [start]
        while waiting:
            moment = waiting.pop()
            if not self.run_clear(moment):
                continue
            left = [t for t in self.mutators if not self.is_over(moment, t)]
            if not left:
                if self.is_end(moment):
                    return
                continue
            key = self.key(moment)
            if key in met:
                continue
            met.add(key)
            self.visited += 1
            if self.visited > most:
                raise Undecided(f"given up after {most} moments")
            # Who has most of its commands ahead comes first, so it is pushed last.
            left.sort(key=lambda t: (len(self.commands[t]) - moment.places[t]) / len(self.commands[t]))
            for t in left:
                waiting.extend(self.steps(moment.copy(), t))
        places = " ".join(f"{t + 1}.{place}" for t, place in enumerate(self.furthest))
        raise Illegal(self.why or f"no order goes further than {places}")

    def walk(self, order):
        """Returns if the commands have a legal order in which the mutators stand so. Else it is Illegal."""
        met, waiting = set(), [Moment(len(self.commands), self.fields, self.registers)]
        while waiting:
            moment = waiting.pop()
            self.note(moment)
            done = sum(moment.places)
            if done == len(order):
                if self.is_end(moment):
                    return
                continue
            key = (done, self.sweeps(moment))
            if key not in met:
                met.add(key)
                waiting.extend(self.steps(moment, order[done]))
        t = order[min(sum(self.furthest), len(order) - 1)]
        raise Illegal(self.why or f"{t + 1}.{self.furthest[t] + 1} is not answered so")

    # The end.

    def is_end(self, moment):
        """Whether an order may end so: each busy answer has its marks, and the lines behind the answers follow."""
        if not self.mark_until(moment, max(moment.owed)):
            return False
        rows = self.rows(moment)
        if self.text.rows == rows:
            return True
        found = next((it for it in self.text.rows if it not in rows), f"{len(self.text.rows)} lines")
        self.why = f"{found}: not what the heap has at the end of an order"
        return False

    def rows(self, moment):
        """The listing, with how many fields and registers hold each object, and the totals."""
        live = moment.live()
        number, holders = {it: place for place, it in enumerate(live, 1)}, dict.fromkeys(live, 0)
        for it in [it for row in moment.registers for it in row] + [it for one in live for it in moment.children[one]]:
            if it is not None:
                holders[it] += 1
        rows = [f"live {len(live)}"]
        for it in live:
            if self.is_leaf(it):
                rows.append(f"#{number[it]} leaf {self.label(it)} count {holders[it]}")
                continue
            targets = " ".join("-" if child is None else f"#{number[child]}" for child in moment.children[it])
            rows.append(f"#{number[it]} label {self.label(it)} count {holders[it]} fields {targets}")
        return rows + [f"made {self.made} refused {self.refused} freed {self.made - len(live)}"]
