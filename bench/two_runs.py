"""Looks for runs of accepted programs that show an observer what its policies do not allow.

    python3 two_runs.py PARAGONC PARAGON [N [FIRST]]

PARAGONC and PARAGON are the paths of the built programs, N is the number of random programs
(random_programs.py), 100 where none is given, and FIRST the number of the first, 0 where none is
given. Each program is compiled, and run on pairs of inputs that an observer, an actor with some of
the locks, cannot tell apart. As long as both runs of the class files have shown it the same events,
and it holds the locks that are open at the next one of each, by `paragonc --trace`, those next
events have to be equal. The runs of the class files are compared with the traces too.

A program with a difference is kept in a folder `found_NUMBER`, with both inputs, and told. The last
line tells how many programs, pairs and equal events there were, how many pairs have runs that are
not the same in all events, and how many programs have a difference. That one is found can be seen
with a `paragonc` that was built with a check left out.
"""
import os
import random
import re
import shutil
import sys
import tempfile

from random_programs import accepted, drawn, put_inputs, said, sees

BOUND = 3000
STEPS = 16 * BOUND + 16
TURNS = 3
TRACED = re.compile(r"(.*) \[(.*)\]")


def traced(lines):
    """Events with the locks that are open at each, and the ending."""
    found = [TRACED.fullmatch(line) for line in lines[:-1]]
    return [(it[1], frozenset(it[2].split())) for it in found], lines[-1]


class Runs:
    """The runs of one program on some inputs."""

    def __init__(self, paragonc, paragon, program, folder):
        self.paragonc, self.paragon, self.program, self.folder = paragonc, paragon, program, folder

    def run(self, inputs):
        """Events of the class files, each with the locks that the trace has at it."""
        put_inputs(inputs, os.path.join(self.folder, "in.txt"))
        words = [self.paragonc, "--trace", "random.par", "in.txt", str(BOUND)]
        events, ending = traced(said(words, self.folder))
        main = self.program.classes[0].name
        *shown, last = said([self.paragon, main, "in.txt", str(STEPS)], self.folder)
        whole = ending != "budget"
        same = [event for event, _ in events] == shown[: len(events)]
        if not same or whole and (len(shown), last) != (len(events), ending):
            raise SystemExit(f"the class files run otherwise: {self.program.text()}{inputs}")
        return events


def shown(program, events, actor, locks):
    return [it for it in events if sees(program.policy_of(it[0]), actor, locks)]


def compared(one, other, locks):
    """How many events are equal that have to be, and whether all of them are."""
    for place, (here, there) in enumerate(zip(one, other)):
        if here[0] != there[0]:
            return place, not (here[1] <= locks and there[1] <= locks)
    return min(len(one), len(other)), True


def observers(rng, program):
    """Each actor with no lock, with some and with all."""
    for actor in program.actors:
        some = rng.sample(program.locks, rng.randint(0, len(program.locks)))
        for locks in ([], some, program.locks):
            yield actor, frozenset(locks)


def kept(number, folder, pair):
    place = f"found_{number}"
    shutil.copytree(folder, place, dirs_exist_ok=True)
    for name, inputs in zip(("one.txt", "other.txt"), pair):
        put_inputs(inputs, os.path.join(place, name))


def tried(paragonc, paragon, number, counts):
    rng = random.Random(number)
    with tempfile.TemporaryDirectory() as folder:
        program = accepted(paragonc, rng, folder)
        said([paragonc, "random.par"], folder)
        runs = Runs(paragonc, paragon, program, folder)
        first, others = drawn(rng, program.channels()), {}
        before = runs.run(first)
        for actor, locks in observers(rng, program):
            channels = program.channels().items()
            hidden = tuple(it for it, policy in channels if not sees(policy, actor, locks))
            if not hidden:
                continue
            if hidden not in others:
                drawings = [{**first, **drawn(rng, hidden)} for _ in range(TURNS)]
                others[hidden] = [(second, runs.run(second)) for second in drawings]
            for second, after in others[hidden]:
                pair = [shown(program, it, actor, locks) for it in (before, after)]
                equal, right = compared(*pair, locks)
                counts["pairs"] += 1
                counts["events"] += equal
                counts["apart"] += before != after
                if not right:
                    counts["found"] += 1
                    told = f"{number}: {actor} with [{' '.join(sorted(locks))}] is shown"
                    print(f"{told} {pair[0][equal][0]} and {pair[1][equal][0]}", flush=True)
                    kept(number, folder, (first, second))
                    return


if __name__ == "__main__":
    programs = [os.path.abspath(path) for path in sys.argv[1:3]]
    count, start, *_ = [int(word) for word in sys.argv[3:5]] + [100, 0][len(sys.argv[3:5]) :]
    counts = {"pairs": 0, "events": 0, "apart": 0, "found": 0}
    for number in range(start, start + count):
        tried(*programs, number, counts)
    print(
        f"{count} programs, {counts['pairs']} pairs, {counts['events']} equal events, "
        f"{counts['apart']} pairs with other runs, {counts['found']} programs with a difference"
    )
