"""Times how sources are compiled, beside javac on the same text as Java.

    python3 compile.py PARAGONC [KIND ..]

PARAGONC is the path of the built program. The kinds, each a source without policies, which is Java
too, of 65,536, of 131,072 and of 262,144 bytes at most:

    classes   128 classes
    methods   methods of 2,000 nodes
    locals    methods of 2,000 nodes and 200 locals

Printed are the kind, the bytes, the answer, the processor seconds, the wall seconds and the most
memory; how many times the machine instructions of the source before, and how many times its bytes,
where valgrind is there (classes and methods are whole, so these are seldom twice as many); the same
of javac, its seconds less those that it takes for an empty class; and what part the one is of the
other.
"""
import os
import shutil
import sys
import tempfile

from measured import growth, instructions, quickest
from verdicts import MOST_BYTES, classes, locals_, methods

KINDS = {"classes": classes, "methods": methods, "locals": locals_}
EMPTY = "class Empty { static void main() { } }\n"


def written(folder, name, text):
    with open(os.path.join(folder, name), "w") as out:
        out.write(text)


def javac(source):
    """The processor seconds of javac, its wall seconds and its most memory, in MB."""
    with tempfile.TemporaryDirectory() as folder:
        written(folder, "Twin.java", source)
        return quickest(["javac", "-nowarn", "Twin.java"], folder)[1:]


def beside(source, start, seconds, most):
    """What javac takes, as the end of a line."""
    theirs, wall, their_most = javac(source)
    theirs, wall = theirs - start[0], wall - start[1]
    parts = f"1/{theirs / seconds:.1f} of the seconds, 1/{their_most / most:.1f} of the memory"
    return f"; javac {theirs:.2f} s, {wall:.2f} s of wall, {their_most} MB: {parts}"


def grown(before, source, counted):
    """How the instructions and the bytes grew since the source before, as the end of a line."""
    if not before or not counted:
        return ""
    return f"{growth(before[1], counted)} for {len(source) / before[0]:.2f} times the bytes"


def timed(paragonc, kind, source, start, before):
    """Prints a line, and gives the bytes and the instructions where these are counted."""
    with tempfile.TemporaryDirectory() as folder:
        written(folder, "long.par", source)
        words = [paragonc, "long.par"]
        told, seconds, wall, most = quickest(words, folder)
        counted = instructions(words, folder)
    line = f"{kind}: {len(source)} bytes, {told}, {seconds:.3f} s, {wall:.3f} s of wall, {most} MB"
    line += grown(before, source, counted)
    if start:
        line += beside(source, start, seconds, most)
    print(line, flush=True)
    return counted and (len(source), counted)


def tried(paragonc, kinds):
    start = javac(EMPTY) if shutil.which("javac") else None
    for kind in kinds:
        before = None
        for part in (1, 2, 4):
            source = KINDS[kind](MOST_BYTES * part // 4)
            before = timed(paragonc, kind, source, start, before)


if __name__ == "__main__":
    tried(os.path.abspath(sys.argv[1]), sys.argv[2:] or [*KINDS])
