"""A second heap with its collector, written from docs/PROFILE.md alone: one thread asks commands and makes whole collections.

It shares no code with the crates. A collection is reckoned at once, from the logs, so no command comes between its turns.
"""
from dataclasses import dataclass, field

BLACK, PURPLE, GRAY, WHITE, ORANGE, GREEN = "black", "purple", "gray", "white", "orange", "green"


@dataclass
class Slot:
    """What a slot holds, and what the collector keeps of it."""

    fields: list
    taken: bool = False
    leaf: bool = False
    count: int = 1
    cyclic: int = 0
    colour: str = BLACK
    buffered: bool = False
    released: bool = False


@dataclass
class Log:
    """The entries of an epoch, as (slot born, None, leaf) and (None, (new, old), False), and the registers at its end."""

    entries: list = field(default_factory=list)
    snapshot: list = field(default_factory=list)


class Heap:
    """A heap with so many slots, fields, registers and mutators, steady or not, whose trials wait for so many roots, and are postponed so often in a row at most."""

    def __init__(self, slots, fields, registers, mutators, steady, least, most):
        self.steady, self.least, self.most, self.postponed = steady, least, most, 0
        self.slots = [Slot([None] * fields) for _ in range(slots)]
        self.registers = [[0] + [None] * (registers - 1) for _ in range(mutators)]
        self.slots[0].taken, self.slots[0].count = True, mutators
        self.logs = [[Log()] for _ in range(mutators)]  # of each mutator, those of its epochs that no batch has counted yet
        self.older = [Log([], list(own)) for own in self.registers]
        self.roots, self.sets, self.zeros, self.free = [], [], [], []
        self.epoch, self.swept, self.turns, self.tested = 1, 0, 0, {"freed": 0, "delta": 0, "sigma": 0}

    # What a mutator asks.

    def born(self, t, register, leaf):
        free = next((at for at, slot in enumerate(self.slots) if not slot.taken), None)
        if free is None:
            return "full"
        slot = self.slots[free]
        slot.taken, slot.leaf = True, leaf
        self.logs[t][-1].entries.append((free, None, leaf))
        self.registers[t][register] = free
        return "done"

    def null(self, t, register):
        self.registers[t][register] = None
        return "done"

    def copy(self, t, to, source):
        self.registers[t][to] = self.registers[t][source]
        return "done"

    def get(self, t, to, source, at):
        own = self.registers[t]
        if own[source] is None:
            return "none"
        own[to] = self.slots[own[source]].fields[at]
        return "null" if own[to] is None else "object"

    def put(self, t, source, at, value):
        own = self.registers[t]
        if own[source] is None:
            return "none"
        slot = self.slots[own[source]]
        if slot.leaf:
            return "nofield"
        self.logs[t][-1].entries.append((None, (own[value], slot.fields[at]), False))
        slot.fields[at] = own[value]
        return "done"

    def cross(self, t):
        """The mutator crosses into the next epoch."""
        self.logs[t][-1].snapshot = list(self.registers[t])
        self.logs[t].append(Log())

    # What the collector does. `turns` counts the operations on shared words.

    def collect(self):
        """A whole collection, each mutator having crossed. It tells how many slots were swept, and how many turns came after the request."""
        newer = [logs.pop(0) for logs in self.logs]
        self.turns = 2 * len(newer)
        self.batch(newer, self.older)
        self.older = newer
        self.release(False)
        self.test()
        if len(self.roots) < self.least and self.postponed < self.most:
            self.postponed += 1
            self.postpone()
        else:
            self.postponed = 0
            self.trial()
        self.prepare()
        self.epoch += 1
        return self.sweep(), self.turns

    def batch(self, newer, older):
        added, taken = [], []
        for new, old in zip(newer, older):
            added += [put[0] for _, put, _ in new.entries if put]
            taken += [put[1] if put else slot for slot, put, _ in old.entries]
            kept = [self.steady and a == b for a, b in zip(new.snapshot, old.snapshot)]
            added += [slot for slot, stays in zip(new.snapshot, kept) if not stays]
            taken += [slot for slot, stays in zip(old.snapshot, kept) if not stays]
            for slot, _, leaf in new.entries:
                if leaf:
                    self.slots[slot].colour = GREEN
        added, taken = [it for it in added if it is not None], [it for it in taken if it is not None]
        for it in added:
            self.slots[it].count += 1
        for it in taken:
            self.slots[it].count -= 1
        for it in set(added) - set(taken):
            if self.slots[it].colour != GREEN:
                self.slots[it].colour = BLACK
        for it in dict.fromkeys(taken):
            self.lessened(it)

    def lessened(self, at):
        """What a decrement makes of a slot, by the count that it came to."""
        slot = self.slots[at]
        if slot.released:
            return
        if slot.count == 0:
            slot.colour = GREEN if slot.colour == GREEN else BLACK
            self.zeros.append(at)
        elif slot.colour != GREEN:
            slot.colour = PURPLE
            if not slot.buffered:
                slot.buffered = True
                self.roots.append(at)

    def empty(self, at, lowers):
        """Each field is exchanged for null, and what came out is lowered, where it is orange and that was asked for, or decremented."""
        slot = self.slots[at]
        for place, target in enumerate(slot.fields):
            slot.fields[place] = None
            self.turns += 1
            if target is None:
                continue
            self.slots[target].count -= 1
            if lowers and self.slots[target].colour == ORANGE:
                self.slots[target].cyclic = max(0, self.slots[target].cyclic - 1)
            else:
                self.lessened(target)

    def release(self, lowers):
        while self.zeros:
            at = self.zeros.pop(0)
            slot = self.slots[at]
            slot.released = True
            if slot.colour != GREEN:
                self.empty(at, lowers)
            if not slot.buffered:
                self.free.append(at)

    def test(self):
        while self.sets:
            members = self.sets.pop()
            if any(self.slots[it].colour != ORANGE for it in members):
                self.refuse(members, "delta")
            elif sum(self.slots[it].cyclic for it in members) != 0:
                self.refuse(members, "sigma")
            else:
                self.tested["freed"] += 1
                for it in members:
                    self.slots[it].buffered, self.slots[it].released, self.slots[it].colour = False, True, BLACK
                for it in members:
                    self.empty(it, True)
                self.free += members
            self.release(True)

    def refuse(self, members, test):
        self.tested[test] += 1
        for number, it in enumerate(members):
            slot = self.slots[it]
            slot.buffered = False
            if slot.released:
                self.free.append(it)
            elif slot.count == 0:
                slot.colour = GREEN if slot.colour == GREEN else BLACK
                self.zeros.append(it)
            elif slot.colour == PURPLE or (number == 0 and slot.colour == ORANGE):
                slot.colour, slot.buffered = PURPLE, True
                self.roots.append(it)
            elif slot.colour != GREEN:
                slot.colour = BLACK

    def loaded(self, at):
        """The slots that the fields lead to. Null and leaves count for nothing."""
        self.turns += len(self.slots[at].fields)
        return [it for it in self.slots[at].fields if it is not None and self.slots[it].colour != GREEN]

    def postpone(self):
        roots, self.roots = self.roots, []
        for root in roots:
            if self.slots[root].released:
                self.slots[root].buffered = False
                self.free.append(root)
            else:
                self.roots.append(root)

    def trial(self):
        roots, self.roots, marked = self.roots, [], []
        for root in roots:
            self.slots[root].buffered = False
            if self.slots[root].released:
                self.free.append(root)
            elif self.slots[root].colour == PURPLE:
                marked += self.mark(root)
        for first in marked:
            if self.slots[first].colour == GRAY and self.slots[first].cyclic > 0:
                self.spread(first, GRAY, BLACK)
        for it in marked:
            if self.slots[it].colour == GRAY:
                self.slots[it].colour = WHITE
        for first in marked:
            if self.slots[first].colour == WHITE:
                members = self.spread(first, WHITE, ORANGE)
                for it in members:
                    self.slots[it].buffered = True
                self.sets.append(members)

    def mark(self, root):
        """The slots that are marked from a root, in the order in which they are met."""
        self.slots[root].colour, self.slots[root].cyclic = GRAY, self.slots[root].count
        met = [root]
        for at in met:
            for it in self.loaded(at):
                slot = self.slots[it]
                if slot.colour != GRAY:
                    slot.colour, slot.cyclic = GRAY, slot.count
                    met.append(it)
                slot.cyclic = max(0, slot.cyclic - 1)
        return met

    def spread(self, first, old, new):
        """The slots of the old colour on paths from the first one become of the new one, in the order in which they are met."""
        self.slots[first].colour = new
        met = [first]
        for at in met:
            for it in self.loaded(at):
                if self.slots[it].colour == old:
                    self.slots[it].colour = new
                    met.append(it)
        return met

    def prepare(self):
        for members in self.sets:
            for it in members:
                self.slots[it].cyclic = self.slots[it].count
            for at in members:
                for it in self.loaded(at):
                    if it in members:
                        self.slots[it].cyclic = max(0, self.slots[it].cyclic - 1)

    def sweep(self):
        swept, self.free = self.free, []
        for it in swept:
            slot = self.slots[it]
            slot.taken, slot.leaf, slot.count, slot.colour, slot.released = False, False, 1, BLACK, False
        self.swept += len(swept)
        self.turns += len(swept) + 2 if swept else 0
        return len(swept)
