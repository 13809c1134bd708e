"""Times how a sample is made and compiled, beside javac on its twin.

    python3 sample.py PARAGONC [N]

PARAGONC is the path of the built program, N the number of the sample, 7 where none is given.
Printed is what the program says; the processor seconds, the wall seconds and the most memory that
it takes, and those that it takes without words; the same of javac on a Java text of the same
classes, methods and numbers, and on an empty class; and what part the one is of the other, start-up
taken off the seconds.
"""
import os
import shutil
import sys
import tempfile

from measured import quickest

CLASSES, METHODS = 100, 10
EMPTY = "class Empty { static void main() { } }\n"


def drawn(number):
    """The numbers of the sample."""
    while True:
        number = (number * 6364136223846793005 + 1442695040888963407) % 2**64
        yield (number >> 33) % 1000


def twin(number):
    """The sample without its policies and locks, as Java."""
    numbers = drawn(number)
    lines = ["class Shop {", "static native int key();", "static native void show(int v);"]
    lines += ["static void main() { show(G0.m0(key())); }", "}"]
    for place in range(CLASSES):
        lines.append(f"class G{place} {{")
        for method in range(METHODS):
            added, bound, less = next(numbers), next(numbers), next(numbers) + 1
            lines.append(
                f"static int m{method}(int a) {{ int b = a + {added}; "
                f"while (b > {bound}) {{ b = b - {less}; }} return b; }}"
            )
        lines.append("}")
    return "\n".join(lines) + "\n"


def said(name, seconds, wall, most):
    print(f"{name}: {seconds:.3f} s of processors, {wall:.3f} s, {most} MB", flush=True)


def paragonc(words):
    with tempfile.TemporaryDirectory() as folder:
        return quickest(words, folder)


def javac(source):
    with tempfile.TemporaryDirectory() as folder:
        with open(os.path.join(folder, "Shop.java"), "w") as out:
            out.write(source)
        return quickest(["javac", "-nowarn", "Shop.java"], folder)


def tried(program, number):
    _, *start = paragonc([program])
    told, *ours = paragonc([program, "--sample", str(number)])
    print(told)
    said("paragonc without words", *start)
    said("paragonc", *ours)
    if shutil.which("javac"):
        _, *theirs_start = javac(EMPTY)
        _, *theirs = javac(twin(number))
        said("javac, an empty class", *theirs_start)
        said("javac, the twin", *theirs)
        work, wall = ((theirs[n] - theirs_start[n]) / (ours[n] - start[n]) for n in (0, 1))
        print(f"1/{work:.1f} of the seconds, 1/{wall:.1f} of the wall seconds", end=", ")
        print(f"1/{theirs[2] / ours[2]:.1f} of the memory")


if __name__ == "__main__":
    tried(os.path.abspath(sys.argv[1]), int(sys.argv[2]) if len(sys.argv) > 2 else 7)
