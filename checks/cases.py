"""Rows of checks/rows: which words and bytes a program gets, and what has to come. checks/README.md has their form."""
import copy
import itertools
import re
import shlex
import sys
from dataclasses import dataclass, field

LINE = re.compile(r"(==|<\$|>\$|<@|>@|>\.\.\.|[$<+>!=]|front|memory)(\d*)(?: (.*))?")
OF_ALL = ("$", "<", "<$", "<@")
ESCAPE = re.compile(rb"\\(x[0-9a-f]{2}|[tr\\])")
CHARACTERS = {b"t": b"\t", b"r": b"\r", b"\\": b"\\"}
REST_OF_LINE, ANY_MORE = rb"[^\n]*\n", rb"(?s:.*)"


@dataclass
class Row:
    """What a program gets, and what has to come of it. Words among bytes stand for what is written for these words."""

    title: str
    commands: list = field(default_factory=list)
    given: list = field(default_factory=list)
    source: str = None
    lengths: list = field(default_factory=lambda: [None])
    memory: str = None
    wanted: list = field(default_factory=list)
    sink: str = None
    told: bytes = b""
    status: int = 0


def unescaped(text, times=1):
    """The bytes of a line so many times: with its line feed, unless a backslash stands behind them."""
    has_end = len(re.search(r"\\*$", text)[0]) % 2 == 0
    data = (text if has_end else text[:-1]).encode()
    data = ESCAPE.sub(lambda it: CHARACTERS.get(it[1]) or bytes.fromhex(it[1][1:].decode()), data)
    return (data + b"\n" * has_end) * times


def pattern(text, times):
    """A line of output, so many times, as a pattern."""
    if text.endswith("\\..."):
        return (re.escape(unescaped(text[:-3])) + REST_OF_LINE) * times
    return re.escape(unescaped(text, times))


def commands(text, times):
    """The command lines that a line stands for, each with how often it is run: a word a|b stands for each of its parts."""
    return [(list(words), times) for words in itertools.product(*(word.split("|") for word in shlex.split(text)))]


def add(row, sign, times, text):
    """Takes a line into a row."""
    if sign == "$":
        row.commands += commands(text, times)
    elif sign in ("<", "+"):
        row.given.append(unescaped(text, times))
    elif sign == "<$":
        row.given.append(shlex.split(text))
    elif sign == ">":
        row.wanted.append(pattern(text, times))
    elif sign == ">$":
        row.wanted.append(shlex.split(text))
    elif sign == ">...":
        row.wanted.append(ANY_MORE)
    elif sign == "!":
        row.told += unescaped(text, times)
    elif sign == "front":
        first, last = map(int, text.split(" to "))
        row.lengths = range(first, last + 1)
    elif sign == "=":
        row.status = int(text)
    else:
        setattr(row, {"<@": "source", ">@": "sink", "memory": "memory"}[sign], text)


def rows(name):
    """The rows of a file, one for each exit status. What a program gets below a title is of all of them."""
    with open(name, encoding="utf-8") as file:
        lines = [line for line in file.read().split("\n") if line and not line.startswith("#")]
    for line in lines:
        parts = LINE.fullmatch(line)
        if not parts:
            sys.exit(f"{name}: no line of a row: {line}")
        sign, times, text = parts[1], int(parts[2] or 1), parts[3] or ""
        if sign == "==":
            head = Row(text)
        else:
            add(head if sign in OF_ALL else row, sign, times, text)
        if sign == "=":
            yield row
        if sign in ("==", "=", *OF_ALL):
            row = copy.deepcopy(head)
