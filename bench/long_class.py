"""Writes class files of some 1 MB, and times how `paragon` reads, links and refuses or runs them.

    python3 long_class.py PARAGON [ENTRIES [FIELDS]]

PARAGON is the path of the built program. Without more words a file has 50,000 pool entries and
60,000 fields of 30,000 names, each of them with the descriptors I and Z. The first file has half as
many of both, the second is whole; both have a method `main` that returns, and name no class but
their own. The third also names a field that is not there; the fourth lacks its last byte. Printed
are each answer, the processor seconds and the most memory; how many times the machine instructions
of the line before, where valgrind is there; and of the files that run what the interpreter of java
takes, where it is there.
"""
import os
import struct
import sys
import tempfile

from measured import growth, instructions, launcher, least


def utf8(text):
    return b"\x01" + struct.pack(">H", len(text)) + text.encode()


def class_file(wanted, fields, absent):
    entries = [utf8("Long"), b"\x07\0\x01", utf8("java/lang/Object"), b"\x07\0\x03", utf8("Code")]
    entries += [utf8("main"), utf8("()V"), utf8("I"), utf8("Z"), utf8("none")]
    if absent:
        entries += [b"\x0c" + struct.pack(">HH", 10, 8), b"\x09" + struct.pack(">HH", 2, 11)]
    first = len(entries) + 1
    entries += [utf8(f"f{number:05}") for number in range(wanted - len(entries))]
    members = [(first + n // 2, 8 + n % 2) for n in range(fields)]
    pool = struct.pack(">H", len(entries) + 1) + b"".join(entries)
    body = struct.pack(">HHI", 1, 0, 1) + b"\xb1" + b"\0\0\0\0"
    method = struct.pack(">HHHHHHI", 1, 0x0009, 6, 7, 1, 5, len(body)) + body
    file = b"\xca\xfe\xba\xbe" + struct.pack(">HH", 0, 49) + pool
    file += struct.pack(">HHHHH", 0x0031, 2, 4, 0, len(members))
    file += b"".join(struct.pack(">HHHH", 0x0009, name, kind, 0) for name, kind in members)
    return file + method + b"\0\0"


if __name__ == "__main__":
    paragon = os.path.abspath(sys.argv[1])
    wanted, fields = (list(map(int, sys.argv[2:])) + [50000, 60000][len(sys.argv) - 2:])[:2]
    files = [class_file(wanted // 2, fields // 2, False), class_file(wanted, fields, False)]
    files += [class_file(wanted, fields, True), files[1][:-1]]
    with tempfile.TemporaryDirectory() as folder:
        open(os.path.join(folder, "in.txt"), "w").close()
        java, before = launcher(folder), None
        for bytes_ in files:
            with open(os.path.join(folder, "Long.class"), "wb") as out:
                out.write(bytes_)
            words = [paragon, "Long", "in.txt", "1000"]
            told, seconds, most = least(words, folder)
            counted = instructions(words, folder)
            line = f"{len(bytes_)} bytes: {told}, {seconds:.2f} s, {most} MB{growth(before, counted)}"
            before = counted
            if java and told == "end":
                _, seconds, most = least([*java, "Long"], folder)
                line += f"; java -Xint {seconds:.2f} s, {most} MB"
            print(line, flush=True)
