"""The moves that `recycler_watch trace --json` tells, each with the state after it."""
import json


def states(text):
    """Each line of a trace, with the slots, mutators and lists after it: each state is made from the one before."""
    slots, mutators, lists = {}, {}, None
    for line in map(json.loads, text.splitlines()[1:]):
        slots.update((slot["slot"], slot) for slot in line["slots"])
        mutators.update((one["mutator"], one) for one in line["mutators"])
        lists = line["lists"] or lists
        yield line, dict(slots), dict(mutators), lists
