"""Writes sources with as many inferred fields as a table holds, and times how `paragonc` infers them.

    python3 inferred.py PARAGONC

PARAGONC is the path of the built program. In the first source each field is set to the next one,
and the last to an input, from the first field on; in the second the last is set to the first too.
Each has so many further writes between these fields that it is just below 262,144 bytes. Printed
are the last line of each, the processor seconds and the most memory.
"""
import os
import sys
import tempfile

from measured import least

MOST = 262144
FIELDS = 254        # beside `bottom` and the policy of the input
WRITES = 399        # of 5 nodes each, in a method, which has at most 2,000
METHODS = 4         # of a class, which has at most 8,000


def source(cycle, most=MOST):
    names = [f"F.f{n:03}" for n in range(FIELDS)]
    writes = [f"{one} = {next};" for one, next in zip(names, names[1:])]
    writes.append(f"{names[-1]} = F.key();")
    if cycle:
        writes.append(f"{names[-1]} = {names[0]};")
    head = "actor alice, bob;\nlock Paid;\nclass F {\n?{alice:; bob: Paid} input int key();\n"
    head += "".join(f"?_ static int {name[2:]};\n" for name in names)
    head += "static void main() { " + " ".join(writes) + " }\n}\n"
    parts, size, turn = [head], len(head), 0
    while True:
        text = f"class C{turn:03} {{\n"
        for method in range(METHODS):
            body = []
            for write in range(WRITES):
                place = (turn * METHODS + method) * WRITES + write
                low = place * 7 % FIELDS
                high = min(FIELDS - 1, low + 1 + place % 5)
                body.append(f"{names[low]} = {names[high]};")
            text += f"static void m{method}() {{ " + " ".join(body) + " }\n"
        text += "}\n"
        if size + len(text) > most:
            break
        parts.append(text)
        size += len(text)
        turn += 1
    return "".join(parts) + " " * (most - size)


if __name__ == "__main__":
    paragonc = os.path.abspath(sys.argv[1])
    for cycle in (False, True):
        with tempfile.TemporaryDirectory() as folder:
            with open(os.path.join(folder, "fields.par"), "w") as out:
                out.write(source(cycle))
            told, seconds, most = least([paragonc, "--infer", "fields.par"], folder)
        name, last = "a cycle" if cycle else "a chain", told.splitlines()[-1]
        print(f"{name}: {last}, {seconds:.2f} s, {most} MB", flush=True)
