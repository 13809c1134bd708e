"""Writes sources whose verdict is long to find, and times `paragonc --check` on each.

    python3 verdicts.py PARAGONC [KIND ..]

PARAGONC is the path of the built program. Without more words all kinds are tried:

    same      480 writes of one value, which joins 142 inputs, to one field, at 224 open locks;
              a policy has 32 clauses of 16 locks, and each clause but the last fails at its last
              lock
    fields    a value that joins 120 inputs to 120 fields of the same policies
    locks     a value that joins 140 inputs to one field, with other locks open most times
    classes   128 classes, as large as a source allows
    methods   methods of 2,000 nodes, as many as a source allows
    joins     a policy of 2,000 joins of one policy that has 32 clauses of 16 locks
    throws    780 calls of a method that throws 120 classes, with 199 locals
    loops     200 locals in 60 nested loops, of which each is copied to the next
    locals    methods of 2,000 nodes and 200 locals, as many as a source allows
    doubled   loops, writes of one value, methods, joins and classes that are thrown, each twice as
              many as the last

Printed are the kind, the bytes, the answer, the processor seconds and the most memory; of sources
without policies, which are Java too, also those of javac where it is there; and of the doubled ones
how many times the machine instructions of the line before, where valgrind is there.
"""
import os
import shutil
import sys
import tempfile

from measured import growth, instructions, least

MOST_BYTES, MOST_NODES = 262144, 2000
JAVA = ("classes", "methods", "locals")
LOCKS = [letter + digit for letter in "abcdefgh" for digit in "0123456789abcdefghijklmnopqrstuv"]
OPENED, SHUT = LOCKS[:224], LOCKS[224:]


def policy(number, shut):
    """A policy of 32 clauses with 16 locks. The last clause alone has only open locks."""
    clauses = []
    for clause in range(31):
        first = (number + 3 * clause) % 180
        clauses.append(OPENED[first : first + 15] + [shut[clause % len(shut)]])
    clauses.append(OPENED[190 + number % 16 : 205 + number % 16] + [OPENED[206 + number // 16 % 18]])
    return "{" + ";".join("a:" + ",".join(sorted(clause)) for clause in clauses) + "}"


def joined(inputs, fields, writes):
    """Inputs of as many policies joined into one value at open locks, and the writes."""
    source = ["actor a;"] + [f"lock {lock};" for lock in LOCKS]
    source += [f"policy P{n}={policy(n, SHUT[:31])};" for n in range(inputs)]
    source += [f"policy Q={policy(inputs, SHUT[31:])};", "class C{"]
    source += [f"?P{n} input int k{n}();" for n in range(inputs)]
    source += [f"?{kind} static int f{n};" for n, kind in enumerate(fields)]
    source.append("static void main()" + "".join(f"-{lock} " for lock in OPENED) + "{")
    source += [f"open {lock};" for lock in OPENED] + ["int x=0;"]
    for first in range(0, inputs, 30):
        calls = "+".join(f"k{n}()" for n in range(first, min(first + 30, inputs)))
        source.append(f"x=x+{calls};")
    return "".join(source + writes) + "}}"


def same():
    return joined(142, ["Q"], ["f0=x;"] * 480)


def fields():
    return joined(120, [f"P{n}" for n in range(120)], [f"f{n}=x;" for n in range(120)])


def locks():
    moved = [f"close {OPENED[n % 30]};f0=x;" for n in range(15)]
    moved += [f"open {OPENED[n % 15]};close {OPENED[n % 15 + 15]};f0=x;" for n in range(200)]
    return joined(140, ["Q"], moved)


def filled(piece, nodes, most):
    """A body of so many nodes, from pieces of so many."""
    return piece * (most // nodes)


def method(name, most, declared=""):
    """A method of at most so many nodes, its block among them."""
    return f"static void {name}(){{{declared}" + filled("a=a+a;", 5, most) + "}"


def of_methods(most, declared, used):
    """As many methods as a source has room for, four to a class."""
    source, number, taken = [], 0, 0
    while True:
        members = [method(f"m{n}", MOST_NODES - used, declared) for n in range(4)]
        if number == 0:
            members.append("static void main(){}")
        made = f"class C{number}{{" + "".join(members) + "}"
        taken += len(made)
        if taken > most:
            return "".join(source)
        source.append(made)
        number += 1


def classes(most=MOST_BYTES):
    room = most // 128 - 60
    return "".join(
        f"class C{n}{{" + method("main" if n == 0 else "m", 5 * (room // 6), "int a=0;") + "}"
        for n in range(128)
    )


def methods(most=MOST_BYTES):
    return of_methods(most, "int a=0;", 10)


def joins(number=2000):
    source = ["actor a;"] + [f"lock {lock};" for lock in LOCKS]
    source += [f"policy P={policy(0, SHUT)};", "policy Q=P" + "*P" * number + ";"]
    return "".join(source) + "class C{static void main(){}}"


def throws(classes=120):
    named = [f"E{n}" for n in range(classes)]
    thrown = "".join(f" throws {name} bottom" for name in named)
    source = [f"class {name} extends Exception{{}}" for name in named]
    source.append(f"class C{{static void t(){thrown}{{}}static void main(){thrown}{{")
    source += [f"int x{n}=0;" for n in range(199)]
    return "".join(source) + "t();" * 780 + "}}"


DECLARED = "int a=0;" + "".join(f"int x{n}=0;" for n in range(199))


def locals_(most=MOST_BYTES):
    return of_methods(most, DECLARED, 410)


def copied(locals_used, deep, wanted):
    """Loops in loops, and in the innermost each local copied to the next, the last first."""
    names = [f"x{n}" for n in range(locals_used)]
    declared = "".join(f"int {name}=0;" for name in names)
    copies = [f"{names[n + 1]}={names[n]};" for n in reversed(range(locals_used - 1))]
    room = (wanted - 2 * locals_used - 5 * deep - 10) // 3
    copies = (copies * (room // len(copies) + 1))[:room]
    body = "while(x0<1){" * deep + "".join(copies) + "x0=k();" + "}" * deep
    return "class C{?{a:}input int k();static void main(){" + declared + body + "}}"


def loops():
    return "actor a;" + copied(200, 60, MOST_NODES)


def doubled():
    """Rows of three sources, each with its name."""
    yield [(f"loops of {n} nodes", "actor a;" + copied(40, 10, n)) for n in (500, 1000, 2000)]
    yield [(f"{n} writes", joined(142, ["Q"], ["f0=x;"] * n)) for n in (120, 240, 480)]
    yield [("methods", methods(MOST_BYTES // 4 * part)) for part in (1, 2, 4)]
    yield [(f"{n} joins", joins(n)) for n in (100, 200, 400)]
    yield [(f"{n} classes thrown", throws(n)) for n in (10, 20, 40)]


KINDS = {
    "same": same,
    "fields": fields,
    "locks": locks,
    "classes": classes,
    "methods": methods,
    "joins": joins,
    "throws": throws,
    "loops": loops,
    "locals": locals_,
}


def timed(paragonc, kind, source, before=None, counts=False):
    """Prints a line, and gives the instructions where they are counted."""
    with tempfile.TemporaryDirectory() as folder:
        for name in ("long.par", "long.java"):
            with open(os.path.join(folder, name), "w") as out:
                out.write(source)
        words = [paragonc, "--check", "long.par"]
        told, seconds, most = least(words, folder)
        counted = instructions(words, folder) if counts else None
        line = f"{kind}: {len(source)} bytes, {told}, {seconds:.2f} s, {most} MB"
        line += growth(before, counted)
        if kind in JAVA and shutil.which("javac"):
            _, seconds, most = least(["javac", "long.java"], folder)
            line += f"; javac {seconds:.2f} s, {most} MB"
    print(line, flush=True)
    return counted


def tried(paragonc, kinds):
    for kind in kinds:
        if kind != "doubled":
            timed(paragonc, kind, KINDS[kind]())
            continue
        for sources in doubled():
            before = None
            for name, source in sources:
                before = timed(paragonc, name, source, before, counts=True)


if __name__ == "__main__":
    tried(os.path.abspath(sys.argv[1]), sys.argv[2:] or [*KINDS, "doubled"])
