"""Journals of a collector, by the definition of docs/AUDIT.md alone: which line is the first at fault, and by which rule."""

MOST_BYTES, LAST_EPOCH = 16_777_216, 16_777_215
MOST_OF_HEAP = (65_535, 16, 64, 63, LAST_EPOCH)
TARGET = 65_536


def numerals(words):
    """The numbers that words spell, or None."""
    spelled = all(word.isdigit() and (word == b"0" or word[:1] != b"0") and len(word) <= 20 for word in words)
    numbers = [int(word) for word in words] if spelled else []
    return numbers if spelled and all(number < 2**64 for number in numbers) else None


class Form:
    """What may stand behind the lines so far."""

    def __init__(self):
        self.stage, self.part, self.block, self.heap = "title", 0, 0, None

    def leads(self, word):
        return word % TARGET <= self.heap[0]

    def is_part(self, numbers):
        return self.stage == "part" and bool(numbers) and numbers[0] == self.part

    def takes(self, kind, numbers):
        """Whether a line may stand here; if so, it does."""
        if self.stage == "title":
            return False
        if self.stage == "heap":
            if kind != b"heap" or len(numbers) != 5 or not all(1 <= n <= most for n, most in zip(numbers, MOST_OF_HEAP)):
                return False
            self.heap, self.block, self.stage = numbers, numbers[4], "between"
            return True
        slots, fields, registers, mutators, _ = self.heap
        if kind == b"epoch":
            fits = self.stage == "between" and numbers == [self.block] and self.block <= LAST_EPOCH
            if fits:
                self.stage, self.part, self.block = "part", 1, self.block + 1
            return fits
        if kind == b"put":
            return self.is_part(numbers) and len(numbers) == 4 and numbers[1] < slots * fields and self.leads(numbers[2]) and self.leads(numbers[3])
        if kind == b"born":
            return self.is_part(numbers) and len(numbers) == 2 and numbers[1] < slots
        if kind == b"snap":
            fits = self.is_part(numbers) and len(numbers) == 1 + registers and all(n <= slots for n in numbers[1:])
            if fits:
                self.part += 1
                self.stage = "part" if self.part <= mutators else "steps"
            return fits
        if self.stage != "steps":
            return False
        if kind == b"out":
            return len(numbers) == 2 and numbers[0] < slots * fields and numbers[1] != 0 and self.leads(numbers[1])
        if kind == b"free":
            return len(numbers) >= 1 and all(n < slots for n in numbers)
        if kind == b"sweep":
            return len(numbers) == 1 and numbers[0] < slots
        if kind == b"end" and numbers == [self.block - 1]:
            self.stage = "between"
            return True
        return False


def is_reached(heap, lines, members):
    """Whether one of some slots is on a path of references from a root, at the end of these lines."""
    slots, fields = heap[:2]
    begin = max(i for i, (kind, _) in enumerate(lines) if kind == b"epoch")
    closed = {numbers[3] for kind, numbers in lines[:begin] if kind == b"put"}
    gone = {numbers[1] for kind, numbers in lines if kind == b"out"}
    led = {}
    for kind, numbers in lines:
        if kind == b"put" and numbers[2] % TARGET and numbers[2] not in closed and numbers[2] not in gone:
            led.setdefault(numbers[1] // fields, []).append(numbers[2] % TARGET - 1)
    taken = {0}
    for kind, numbers in lines:
        if kind == b"born":
            taken.add(numbers[1])
        elif kind == b"sweep":
            taken.discard(numbers[0])
    seen = set(range(slots)) - taken
    seen |= {numbers[1] for kind, numbers in lines[begin:] if kind == b"born"}
    seen |= {value - 1 for kind, numbers in lines[begin:] if kind == b"snap" for value in numbers[1:] if value}
    work = list(seen)
    while work:
        for target in led.get(work.pop(), ()):
            if target not in seen:
                seen.add(target)
                work.append(target)
    return any(member in seen for member in members)


def said(journal):
    """What is to be said of the bytes of a journal."""
    if len(journal) > MOST_BYTES:
        return "no line 0 long"
    form, lines, put, sets = Form(), [], set(), 0
    whole, rest = journal.split(b"\n")[:-1], journal.split(b"\n")[-1]
    for at, line in enumerate(whole, 1):
        if form.stage == "title":
            if line != b"recycler audit 1":
                return f"no line {at} form"
            form.stage = "heap"
            continue
        kind, *words = line.split(b" ")
        numbers = numerals(words)
        if numbers is None or not form.takes(kind, numbers):
            return f"no line {at} form"
        if kind == b"put" and numbers[2] % TARGET:
            if numbers[2] in put:
                return f"no line {at} stamp"
            put.add(numbers[2])
        if kind == b"free":
            if is_reached(form.heap, lines, numbers):
                return f"no line {at} reach"
            sets += 1
        lines.append((kind, numbers))
    if rest or form.stage != "between":
        return f"no line {len(whole) + 1} form"
    return f"yes sets {sets}"
