"""Runs of the program, and what the judge says of their texts."""
import itertools
import subprocess
import tempfile

from orders import Illegal, Judge, Text


def ran(program, data, *words):
    """Exit status, standard output and standard error of a run."""
    done = subprocess.run([program, *words], input=data, capture_output=True, timeout=600)
    return done.returncode, done.stdout.decode(), done.stderr.decode().strip()


def answered(program, data, *words):
    """The text of a run that has to be Done."""
    status, text, said = ran(program, data, *words)
    if status or said:
        raise Illegal(f"status {status}, {said}")
    return text


def judged(script, text, frees=True):
    """What a text of `play` tells, which is legal in the order in which its answers stand. Else it is Illegal."""
    told = Text(script, text)
    Judge(script, told, frees).walk(told.order)
    return told


def judged_threads(script, text, most=200_000):
    """What a text of `threads` tells, for which the judge finds a legal order. Else it is Illegal, or Undecided."""
    told = Text(script, text)
    if told.order != sorted(told.order):
        raise Illegal("the answers don't stand mutator by mutator")
    Judge(script, told).find(most)
    return told


def is_met(script, told):
    """Whether no order is legal in which each mutator has all its commands in one go: so the mutators met."""
    lengths = list(map(len, script[2]))
    for mutators in itertools.permutations(range(len(lengths))):
        try:
            Judge(script, told).walk([t for t in mutators for _ in range(lengths[t])])
            return False
        except Illegal:
            pass
    return True


def kept(data, ending):
    """The name of a new file with these bytes."""
    with tempfile.NamedTemporaryFile(suffix=ending, delete=False) as file:
        file.write(data)
    return file.name
