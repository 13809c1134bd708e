"""Writes class files whose constants share one long text, and times how `paragon` links them.

    python3 long_texts.py PARAGON [CONSTANTS [BYTES]]

PARAGON is the path of the built program. Without more words 65,000 method constants share a
descriptor of 65,000 bytes. The first file has half as many constants, the second has all; both
name a method of their own class. In the third the constants name that of another class file. Each
has a method `main` that returns. Printed are each answer, the processor seconds, the most memory,
and how many times the machine instructions of the line before, where valgrind is there.
"""
import os
import struct
import sys
import tempfile

from measured import growth, instructions, least

RETURN = b"\xb1"


def utf8(text):
    return b"\x01" + struct.pack(">H", len(text)) + text.encode()


def method(name, descriptor, places):
    body = struct.pack(">HHI", 0, places, 1) + RETURN + b"\0\0\0\0"
    return struct.pack(">HHHHHI", 0x0009, name, descriptor, 1, 5, len(body)) + body


def class_file(own, named, length, constants):
    """The class of that name, whose constants name the method `far` of a class."""
    entries = [utf8(own), b"\x07\0\x01", utf8("java/lang/Object"), b"\x07\0\x03", utf8("Code")]
    entries += [utf8("main"), utf8("()V"), utf8("(" + "I" * (length - 3) + ")V"), utf8("far")]
    entries += [b"\x0c\0\x09\0\x08", utf8(named), b"\x07\0\x0b"]
    entries += [b"\x0a\0\x0c\0\x0a"] * constants
    methods = [method(6, 7, 0), method(9, 8, length - 3)]
    file = b"\xca\xfe\xba\xbe" + struct.pack(">HHH", 0, 49, len(entries) + 1) + b"".join(entries)
    file += struct.pack(">HHHHHH", 0x0031, 2, 4, 0, 0, len(methods))
    return file + b"".join(methods) + b"\0\0"


if __name__ == "__main__":
    paragon = os.path.abspath(sys.argv[1])
    constants, length = (list(map(int, sys.argv[2:])) + [65000, 65000][len(sys.argv) - 2:])[:2]
    rows = [
        ("own class, half", {"Long": class_file("Long", "Long", length, constants // 2)}),
        ("own class", {"Long": class_file("Long", "Long", length, constants)}),
        ("other class", {
            "Long": class_file("Long", "Far", length, constants),
            "Far": class_file("Far", "Far", length, 0),
        }),
    ]
    before = None
    for row, files in rows:
        with tempfile.TemporaryDirectory() as folder:
            open(os.path.join(folder, "in.txt"), "w").close()
            for name, bytes_ in files.items():
                with open(os.path.join(folder, name + ".class"), "wb") as out:
                    out.write(bytes_)
            words = [paragon, "Long", "in.txt", "1000"]
            told, seconds, most = least(words, folder)
            counted = instructions(words, folder)
        size, grown = sum(map(len, files.values())), growth(before, counted)
        print(f"{row}, {size} bytes: {told}, {seconds:.2f} s, {most} MB{grown}", flush=True)
        before = counted
