#!/usr/bin/env python3
"""Times how long `paragonc --check` takes to read sources of 131,072 and of 262,144 bytes.

Each source is a sentence that breaks a rule on names, so that it is read whole and then refused.
Printed are the processor seconds of both, and, where valgrind is there, how many times the machine
instructions the whole takes. paragonc has to be built (README.md, "Commands").
"""

import pathlib
import sys
import tempfile

from measured import instructions, least

ROOT = pathlib.Path(__file__).resolve().parent.parent
PARAGONC = ROOT / "crates/paragonc/out/paragonc"
LONGEST = 262_144
TURNS = 5


def repeated(head, item, tail, length):
    """As many items as fit between head and tail, and a comment up to the length."""
    many = (length - len(head) - len(tail) - 4) // len(item)
    source = head + item * many + tail
    return source + "/*" + " " * (length - len(source) - 4) + "*/"


def in_main(body, length):
    return repeated("class A { static void main() { ", body, "} }", length)


def nested(length):
    deepest = "{" * 62 + "x = -1;" + "}" * 62
    return in_main(deepest + " ", length)


def long_sums(length):
    return in_main("x = 1" + "+1" * 60 + "; ", length)


def chains(length):
    deepest = "if (a) { } else " * 61 + "{ } "
    return in_main(deepest, length)


def statements(length):
    return in_main("x=1;", length)


def members(length):
    return repeated("class A { ", "A b;", "}", length)


def comment(length):
    head = "class A { }"
    return head + "/*" + "*" * (length - len(head) - 4) + "*/"


SHAPES = {
    "blocks nested 63 deep": nested,
    "sums of 61 terms": long_sums,
    "chains of 61 else": chains,
    "statements": statements,
    "members": members,
    "one comment": comment,
}


def measured(folder, source):
    (folder / "a.par").write_text(source)
    words = [PARAGONC, "--check", "a.par"]
    answer, seconds, _ = least(words, folder, TURNS)
    return seconds, instructions(words, folder), answer


def main():
    if not PARAGONC.exists():
        sys.exit(f"there is no {PARAGONC}")
    with tempfile.TemporaryDirectory() as name:
        folder = pathlib.Path(name)
        print(f"{'shape':24} {'half':>6} {'whole':>6} {'growth':>7}  answer")
        for shape, source in SHAPES.items():
            half, lesser, _ = measured(folder, source(LONGEST // 2))
            whole, greater, answer = measured(folder, source(LONGEST))
            times = f"{greater / lesser:.2f}" if lesser else "-"
            print(f"{shape:24} {half:6.2f} {whole:6.2f} {times:>7}  {answer}", flush=True)


if __name__ == "__main__":
    main()
