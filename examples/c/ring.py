#!/usr/bin/env python3
"""Four mutators on a thread each build and drop rings of three objects; a fifth thread turns the collector. Then the heap is stopped and
settles. Other threads run while one is in a call. The module `recycler` stands in bindings/python, or where `make install` put it."""
import os
import sys
import threading
import time

sys.path.append(os.path.join(os.path.dirname(os.path.abspath(__file__)), "..", "..", "bindings", "python"))
from recycler import Answer, Heap, What

WORKING = {1, 2, 3, 4}  # the mutators that still build


def done(mutator, command, *numbers):
    """Asks until it is done. Where no slot is free or the log is full the mutator polls, and the collector turns."""
    while (answer := command(*numbers)) in (Answer.FULL, Answer.BUSY, Answer.LOG_FULL):
        mutator.poll()
    assert answer is Answer.DONE, answer


def ring(mutator, label):
    done(mutator, mutator.new, 1, label)
    mutator.copy(2, 1)
    for _ in range(2):
        done(mutator, mutator.new, 3, 0)
        done(mutator, mutator.put, 2, 0, 3)
        mutator.copy(2, 3)
    done(mutator, mutator.put, 2, 0, 1)
    for register in 1, 2, 3:
        mutator.null(register)


def mutate(heap, number):
    with heap.mutator(number) as mutator:
        for label in range(200):
            ring(mutator, label)
            mutator.poll()
        WORKING.discard(number)
        while WORKING:
            mutator.poll()


def collect(heap):
    with heap.collector() as collector:
        while WORKING:
            turned = collector.turn()
            if turned.what is What.COLLECTED and turned.freed == 0:
                time.sleep(0.0001)


# A thread that fails ends the program, since the others would wait for it.
threading.excepthook = lambda failed: (print(failed.exc_value, file=sys.stderr, flush=True), os._exit(1))
with Heap(slots=64, fields=1, registers=4, mutators=len(WORKING), log_entries=64) as heap:
    heap.start()
    threads = [threading.Thread(target=mutate, args=(heap, number)) for number in WORKING]
    threads.append(threading.Thread(target=collect, args=(heap,)))
    for thread in threads:
        thread.start()
    for thread in threads:
        thread.join()
    heap.stop()
    settled, totals = heap.settle(), heap.totals()
print(f"made {totals.born}, freed {totals.freed}, live {settled.live}")
