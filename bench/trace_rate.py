#!/usr/bin/env python3
"""Tells how many steps of a source run `paragonc --trace` takes a second, on a loop of locals.

paragonc has to be built (README.md, "Commands"). The run is cut by its bound, so that the steps are
known; the processor time of a run of one step is taken off. Printed is the best of five, of half as
many steps and of all; and, where java is there, the same of its interpreter on as many rounds of
the same loop, a round counted as the steps that it has here.
"""

import pathlib
import tempfile

from measured import launcher, least, run

PARAGONC = pathlib.Path(__file__).resolve().parent.parent / "crates/paragonc/out/paragonc"
BOUND = 10_000_000
STEPS_OF_ROUND = 15
BODY = """int a = 0;
    int b = 1;
    while (a < {rounds}) { a = a + 1; b = b * 3 + a; }
    show(b);
"""
SOURCE = """class Loop {
  output void show(int number);
  static void main() {
    %s  }
}
"""
JAVA = """public class Loop {
  static void show(int number) { }
  public static void main() {
    %s  }
}
"""


def seconds(folder, bound):
    return least([PARAGONC, "--trace", "loop.par", "none.txt", str(bound)], folder, 5)[1]


def java_seconds(java, folder, steps):
    rounds = str(steps // STEPS_OF_ROUND)
    (folder / "Loop.java").write_text(JAVA % BODY.replace("{rounds}", rounds))
    run(["javac", "Loop.java"], folder)
    return least([*java, "Loop"], folder, 5)[1]


def told(name, steps, taken):
    print(f"{name}: {steps} steps, {taken:.2f} s, {steps / taken / 1e6:.1f} million a second")


def main():
    with tempfile.TemporaryDirectory() as name:
        folder = pathlib.Path(name)
        (folder / "loop.par").write_text(SOURCE % BODY.replace("{rounds}", "1000000000"))
        (folder / "none.txt").write_text("")
        start = seconds(folder, 1)
        for steps in (BOUND // 2, BOUND):
            told("paragonc --trace", steps, seconds(folder, steps) - start)
        java = launcher(folder)
        if java:
            start = java_seconds(java, folder, 0)
            steps = 10 * BOUND
            told("java -Xint", steps, java_seconds(java, folder, steps) - start)


main()
