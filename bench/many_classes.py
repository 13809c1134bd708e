"""Writes class files that name each other's members, and times how `paragon` reads and links them.

    python3 many_classes.py PARAGON [FILES [ENTRIES [MEMBERS]]]

PARAGON is the path of the built program. Without more words there are 128 files of 20,000 pool
entries and 256 members each, with names of 63 bytes. No class has a method `main`, so that the
program ends once all files are linked. Half as many files are timed first. Printed are the line of
each, the processor seconds, the most memory and, where valgrind is there, how many times the
machine instructions of the line before.
"""
import os
import struct
import sys
import tempfile

from measured import growth, instructions, least


def class_file(own, files, wanted, members):
    entries = []

    def add(entry):
        entries.append(entry)
        return len(entries)

    def utf8(text):
        return add(b"\x01" + struct.pack(">H", len(text)) + text.encode())

    def named(letter, number):
        return utf8(letter * 58 + f"{number:05}")

    code, field_kind, method_kind = utf8("Code"), utf8("I"), utf8("()V")
    classes = [add(b"\x07" + struct.pack(">H", utf8(f"C{n:03}"))) for n in range(files)]
    above = add(b"\x07" + struct.pack(">H", utf8("java/lang/Object")))
    fields = [named("f", n) for n in range(members // 2)]
    methods = [named("m", n) for n in range(members // 2)]
    field_names = [add(b"\x0c" + struct.pack(">HH", name, field_kind)) for name in fields]
    method_names = [add(b"\x0c" + struct.pack(">HH", name, method_kind)) for name in methods]
    turn = 0
    while len(entries) < wanted:
        owner = classes[(7 * turn + own) % files]
        tag, names = (b"\x09", field_names) if turn % 2 else (b"\x0a", method_names)
        add(tag + struct.pack(">HH", owner, names[turn // 2 % len(names)]))
        turn += 1
    body = struct.pack(">HHI", 1, 1, 1) + b"\xb1" + b"\0\0\0\0"
    file = b"\xca\xfe\xba\xbe" + struct.pack(">HHH", 0, 49, len(entries) + 1) + b"".join(entries)
    file += struct.pack(">HHHH", 0x0031, classes[own], above, 0) + struct.pack(">H", len(fields))
    file += b"".join(struct.pack(">HHHH", 0x0001, name, field_kind, 0) for name in fields)
    file += struct.pack(">H", len(methods))
    for name in methods:
        file += struct.pack(">HHHHHI", 0x0009, name, method_kind, 1, code, len(body)) + body
    return file + b"\0\0"


if __name__ == "__main__":
    paragon = os.path.abspath(sys.argv[1])
    files, wanted, members = (list(map(int, sys.argv[2:])) + [128, 20000, 256][len(sys.argv) - 2:])[:3]
    before = None
    for many in (files // 2, files):
        with tempfile.TemporaryDirectory() as folder:
            for own in range(many):
                with open(os.path.join(folder, f"C{own:03}.class"), "wb") as out:
                    out.write(class_file(own, many, wanted, members))
            open(os.path.join(folder, "in.txt"), "w").close()
            words = [paragon, "C000", "in.txt", "1"]
            told, seconds, most = least(words, folder)
            counted = instructions(words, folder)
        print(f"{many} files: {told}, {seconds:.2f} s, {most} MB{growth(before, counted)}", flush=True)
        before = counted
