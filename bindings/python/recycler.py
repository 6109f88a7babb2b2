"""The running heap of librecycler, a proved concurrent reference-counting collector, for Python's ctypes.

Sizes, numbers and texts are read from recycler.h, which says what each call does and what it asks of its caller. A code other than OK is
raised as the exception of its name, such as `Rests`; they are all `Error`s. What a command is answered is an `Answer`, refusals too.
`make install` of include/ writes where the header and the library lie; in a checkout they are found beside this file.

A heap is closed where its `with` ends, and stopped before, if it runs. A mutator and the collector are held by one thread within their
`with`, and another thread that wants the same waits for its end: a handle is given to one call at a time.

>>> with Heap(slots=8, fields=1, registers=4, mutators=1, log_entries=16) as heap:
...     heap.notices(8)
...     heap.start()
...     with heap.mutator(1) as mutator:
...         print(mutator.new(1, 7).name, mutator.put(1, 0, 1).name, mutator.value(1))
...         print(mutator.get(2, 1, 0).name, mutator.same(1, 2), mutator.value(3))
...         for register in 1, 2:
...             _ = mutator.null(register)
...     with heap.collector() as collector:
...         for _ in range(12):
...             while collector.collect(100).what is What.MOVED:
...                 pass
...             with heap.mutator(1) as mutator:
...                 _ = mutator.poll()
...     heap.stop()
...     print(list(heap.heard()), heap.settle().live, heap.totals().born)
DONE DONE 7
OBJECT True None
[7] 1 2
>>> with Heap(slots=0) as heap:
...     pass
Traceback (most recent call last):
...
recycler.Slots: recycler_open: the number of slots is out of its range
"""
import collections
import contextlib
import ctypes
import enum
import os
import re
import threading

_TOP = os.path.join(os.path.dirname(os.path.abspath(__file__)), "..", "..", "include")
HEADER = os.path.join(_TOP, "recycler.h")
LIBRARY = os.path.join(_TOP, "out", "librecycler.so")


class _Header:
    """What this module needs of recycler.h."""

    def __init__(self, file):
        with open(file, encoding="utf-8") as source:
            text = re.sub(r"/\*.*?\*/", "", source.read(), flags=re.S)
        self.numbers = {name: int(number) for name, number in re.findall(r"(?m)^#define (RECYCLER_\w+) (\d+)$", text)}
        self.texts = dict(re.findall(r'case (RECYCLER_\w+): return "(.*?)";', text))
        self.enums = {name: dict(self.members(body)) for name, body in re.findall(r"typedef enum (\w+) \{(.*?)\} \w+;", text, re.S)}
        self.types = {"uint32_t": ctypes.c_uint32, "uint64_t": ctypes.c_uint64, "bool": ctypes.c_bool, "pointer": ctypes.c_void_p}
        for name, body in re.findall(r"typedef struct (\w+) \{(.*?)\n\} \w+;", text, re.S):
            body = re.sub(r"struct \{ void \*at; \}", "pointer", body)
            self.types[name] = type(name, (ctypes.Structure,), {"_fields_": list(self.fields(body))})
        self.calls = {
            name: [self.parameter(it) for it in words.split(",") if it.strip() != "void"]
            for name, words in re.findall(r"uint32_t (recycler_\w+)\(([^)]*)\);", text)
        }

    @staticmethod
    def members(body):
        return ((name, int(number)) for name, number in re.findall(r"RECYCLER_(\w+) = (\d+)", body))

    def fields(self, body):
        for type_name, names in re.findall(r"(\w+) ([\w, \[\]]+);", body):
            for name in names.split(","):
                name, length = re.fullmatch(r"(\w+)(?:\[(\w+)\])?", name.strip()).groups()
                one = self.types[type_name]
                yield name, one * (self.numbers.get(length) or int(length)) if length else one

    def parameter(self, words):
        type_name, name = re.fullmatch(r"\s*(?:const )?(\w+) (\*?\w+)\s*", words).groups()
        one = self.types[type_name]
        return ctypes.POINTER(one) if name.startswith("*") else one


_header = _Header(HEADER)
_library = ctypes.CDLL(LIBRARY)
for _name, _types in _header.calls.items():
    getattr(_library, _name).argtypes = _types
    getattr(_library, _name).restype = ctypes.c_uint32


def _without(front, members):
    return {name[len(front) :] if name.startswith(front) else name: number for name, number in members.items()}


Code = enum.IntEnum("Code", _without("E_", _header.enums["recycler_code"]))
Answer = enum.IntEnum("Answer", _without("A_", _header.enums["recycler_answer"]))
What = enum.IntEnum("What", _without("W_", _header.enums["recycler_what"]))
MOST_MUTATORS = _header.numbers["RECYCLER_MOST_MUTATORS"]
VERSION = _library.recycler_version()
Turned = collections.namedtuple("Turned", "what mutator epoch freed")


class Error(Exception):
    """A call did nothing; `code` tells why."""

    code = None


_errors = {
    code: type("".join(map(str.capitalize, code.name.split("_"))), (Error,), {"code": code, "__doc__": _header.texts[f"RECYCLER_E_{code.name}"]})
    for code in Code
    if code is not Code.OK
}
globals().update({it.__name__: it for it in _errors.values()})
if VERSION // 10000 != _header.numbers["RECYCLER_VERSION_MAJOR"]:
    raise ImportError(f"{LIBRARY} has version {VERSION}, and {HEADER} is another one's")


def _call(name, *given):
    code = Code(getattr(_library, name)(*given))
    if code is not Code.OK:
        raise _errors[code](f"{name}: {_errors[code].__doc__}")


def _told(name, kind, *given):
    told = _header.types[kind]()
    _call(name, *given, ctypes.byref(told))
    return told


class _Held:
    """A handle that one thread holds at a time."""

    def __init__(self, handle, lock):
        self._handle, self._lock = ctypes.byref(handle), lock

    def __enter__(self):
        self._lock.acquire()
        return self

    def __exit__(self, *_):
        self._lock.release()


class Mutator(_Held):
    """A mutator of a running heap, with its commands."""

    def _ask(self, name, *numbers):
        told = _told(name, "recycler_asked", self._handle, *numbers)
        return Answer(told.answer), told.label

    def poll(self):
        """The epoch that was crossed into, or 0."""
        return _told("recycler_poll", "uint32_t", self._handle).value

    def leave(self):
        return self._ask("recycler_leave")[0]

    def new(self, register, label):
        return self._ask("recycler_new", register, label)[0]

    def leaf(self, register, label):
        return self._ask("recycler_leaf", register, label)[0]

    def null(self, register):
        return self._ask("recycler_null", register)[0]

    def copy(self, to, register):
        return self._ask("recycler_copy", to, register)[0]

    def get(self, to, register, field):
        return self._ask("recycler_get", to, register, field)[0]

    def put(self, register, field, value):
        return self._ask("recycler_put", register, field, value)[0]

    def value(self, register):
        """The label of the object that the register names, or None where it is null."""
        answer, label = self._ask("recycler_value", register)
        return label if answer is Answer.VALUE else None

    def same(self, one, other):
        return self._ask("recycler_same", one, other)[0] is Answer.YES


class Collector(_Held):
    """The collector of a running heap."""

    def _turned(self, told):
        return Turned(What(told.what), told.mutator, told.epoch, told.freed)

    def turn(self):
        return self._turned(_told("recycler_turn", "recycler_turned", self._handle))

    def collect(self, turns):
        return self._turned(_told("recycler_collect", "recycler_turned", self._handle, turns))


class Heap:
    """A heap, opened at rest."""

    def __init__(self, slots=65535, fields=2, registers=16, mutators=1, log_entries=None, first_epoch=1, least_roots=0, most_postponed=0):
        entries = max(16, slots // (4 * max(1, mutators))) if log_entries is None else log_entries
        self._heap = _header.types["recycler"]()
        self._locks = [threading.Lock() for _ in range(MOST_MUTATORS + 2)]
        config = _header.types["recycler_config"](slots, fields, registers, mutators, entries, first_epoch, least_roots, most_postponed)
        _call("recycler_open", self._heap, config)

    def __enter__(self):
        return self

    def __exit__(self, *_):
        with contextlib.suppress(Error):
            self.stop()
        self.close()

    def close(self):
        _call("recycler_close", self._heap)

    def notices(self, room):
        _call("recycler_notices", self._heap, room)

    def start(self):
        _call("recycler_start", self._heap)

    def stop(self):
        _call("recycler_stop", self._heap)

    def renew(self, slots):
        _call("recycler_renew", self._heap, slots)

    def settle(self):
        return _told("recycler_settle", "recycler_settled", self._heap)

    def slot(self, number):
        return _told("recycler_slot", "recycler_slot_told", self._heap, number)

    def taken(self):
        return _told("recycler_taken", "uint32_t", self._heap).value

    def totals(self):
        return _told("recycler_totals", "recycler_totals_told", self._heap)

    def heard(self):
        """The labels that wait to be heard, of objects that were freed."""
        with self._locks[-1]:
            while (told := _told("recycler_hear", "recycler_heard", self._heap.listener)).any:
                yield told.label

    def mutator(self, number):
        """The mutator with this number, from 1."""
        if not 1 <= number <= MOST_MUTATORS:
            raise _errors[Code.RANGE]("there is no such mutator")
        return Mutator(self._heap.mutators[number - 1], self._locks[number])

    def collector(self):
        return Collector(self._heap.collector, self._locks[0])
