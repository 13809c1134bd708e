"""Runs programs on a Java virtual machine and on `paragon`, and compares what they put out.

    python3 same_runs.py PARAGONC PARAGON JAVA_HOME [N [FIRST]]

PARAGONC and PARAGON are the paths of the built programs, and JAVA_HOME the folder of an OpenJDK of
version 24 or later. All of examples/ are compiled and run, and then N random programs
(../random_programs.py), 1000 where none is given, from the one of the number FIRST on, 0 where none
is given; each on random inputs. Host.java loads the class files that `paragonc` wrote into Java,
with `-Xverify:all`. Compared are the outputs and the endings. A program whose run `paragon` stops
after STEPS instructions is left out. Printed are the number of runs, how many of them ended with an
exception, how many were left out, how many class files have version 51, and each difference.
"""
import os
import pathlib
import random
import subprocess
import sys
import tempfile

HERE = pathlib.Path(__file__).resolve().parent
sys.path.insert(0, str(HERE.parent))

from random_programs import accepted, drawn, put_inputs, said  # noqa: E402

EXAMPLES = HERE.parent.parent / "examples"
STEPS = 100_000
BATCH = 100
FLAGS = ["-Xverify:all", "--enable-native-access=ALL-UNNAMED"]


class Machine:
    """A Java virtual machine with the host."""

    def __init__(self, home, folder):
        self.java, self.folder = os.path.join(home, "bin", "java"), folder
        words = [os.path.join(home, "bin", "javac"), "-d", folder, HERE / "Host.java"]
        subprocess.run(words, check=True)

    def run(self, pairs, folder):
        """What each of several programs of a folder puts out, its ending last."""
        words = [self.java, *FLAGS, "-cp", self.folder, "paragon.Host"]
        lines = said(words + [word for pair in pairs for word in pair], folder)
        runs = [[]]
        for line in lines:
            runs[-1].append(line)
            if not line.startswith("out "):
                runs.append([])
        return runs[:-1]


def outputs(lines):
    return [line for line in lines if not line.startswith(("set ", "put ", "new "))]


def compare(machine, paragon, pairs, folder, counts):
    """Runs programs, each of a class and an input file, and tells those that differ."""
    ours = [outputs(said([paragon, *pair, str(STEPS)], folder)) for pair in pairs]
    whole = [(pair, run) for pair, run in zip(pairs, ours) if run[-1] != "budget"]
    counts["left out"] += len(pairs) - len(whole)
    theirs = machine.run([pair for pair, _ in whole], folder)
    if len(theirs) != len(whole):
        raise SystemExit(f"Java ran {len(theirs)} of {len(whole)} programs: {theirs[-1:]}")
    for (pair, run), other in zip(whole, theirs):
        counts["runs"] += 1
        counts["outputs"] += len(run) - 1
        counts["uncaught"] += run[-1].startswith("uncaught")
        if run != other:
            counts["differences"] += 1
            print(f"{pair[0]} on {pair[1]}: {run} and on Java {other}", flush=True)
    files = [path.read_bytes() for path in pathlib.Path(folder).glob("*.class")]
    counts["version 51"] += sum(file[7] == 51 for file in files)
    counts["version 49"] += sum(file[7] == 49 for file in files)


def examples(machine, paragonc, paragon, counts):
    for path in sorted(EXAMPLES.glob("*.par")):
        with tempfile.TemporaryDirectory() as folder:
            said([paragonc, str(path)], folder)
            classes = path.read_text().split("\nclass ")[1:]
            main = next(text.split()[0] for text in classes if " main()" in text)
            compare(machine, paragon, [(main, str(path.with_suffix(".txt")))], folder, counts)


def random_programs(machine, paragonc, paragon, numbers, counts):
    """Programs of one folder, whose classes have names of their own."""
    with tempfile.TemporaryDirectory() as folder:
        pairs = []
        for number in numbers:
            rng = random.Random(number)
            program = accepted(paragonc, rng, folder, tag=f"{number}")
            said([paragonc, "random.par"], folder)
            put_inputs(drawn(rng, program.channels()), os.path.join(folder, f"{number}.txt"))
            pairs.append((program.classes[0].name, f"{number}.txt"))
        compare(machine, paragon, pairs, folder, counts)


def main(paragonc, paragon, home, count=1000, first=0):
    counts = dict.fromkeys(
        ["runs", "outputs", "uncaught", "left out", "version 51", "version 49", "differences"], 0
    )
    paragonc, paragon = os.path.abspath(paragonc), os.path.abspath(paragon)
    with tempfile.TemporaryDirectory() as classes:
        machine = Machine(home, classes)
        examples(machine, paragonc, paragon, counts)
        for start in range(int(first), int(first) + int(count), BATCH):
            numbers = range(start, min(start + BATCH, int(first) + int(count)))
            random_programs(machine, paragonc, paragon, numbers, counts)
    print(", ".join(f"{name}: {number}" for name, number in counts.items()))


main(*sys.argv[1:])
