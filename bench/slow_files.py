#!/usr/bin/env python3
"""Times class files of at most 1 MB whose verification is known to take minutes or longer.

    python3 slow_files.py PARAGON PART [WORD ..]

PARAGON is the path of the built program, and PART which part of its full size each file has, as
0.1. The words choose rows by a part of their name. The table is that of hostile.py, whose rows all
are whole.
"""
import struct
import sys

import hostile
import long_class
from worst_files import VERIFY, file_of, main, object_loops, of_code


def of_handlers(code, room, places, handlers):
    """A class whose `main` has that code and these handlers."""
    return {"Long": file_of([], [main(code, room, places, handlers)])}, VERIFY


def handlers_around_loops(part):
    """Loops around locals that hand on objects, inside 30 handlers with frames of their own."""
    code, other = object_loops(int(5200 * part), reversed)
    end = len(code)
    handlers = (struct.pack(">HHHH", 1260, end, end + 2 * n, 0) for n in range(30))
    code += b"\x57\xb1" * 30
    entries = [*other, long_class.utf8("looped")]
    body = struct.pack(">HHI", 1, 252, len(code)) + code
    body += struct.pack(">H", 30) + b"".join(handlers) + b"\0\0"
    looped = struct.pack(">HHHHHI", 0x0009, 8 + len(other), 7, 1, 5, len(body)) + body
    return {"Long": file_of(entries, [main(b"\xb1", 0, 0), looped])}, VERIFY


def handlers_to_the_end(part):
    """A handler from each offset to the end."""
    many = int(65530 * part) // 2 * 2
    code = b"\x03\x57" * (many // 2)
    ends = struct.pack(">HHH", len(code), len(code) + 1, 0)
    handlers = b"".join(struct.pack(">H", at) + ends for at in range(many))
    return of_handlers(code + b"\xb1\x57\xb1", 1, 0, handlers)


def handlers_around_stores(part):
    """Handlers around stores of an int and null by turns."""
    many = int(65535 * part)
    code = b"\x03\x3b" + b"\x01\x4b\x03\x3b" * ((many - 8) // 4)
    end = len(code) + 1
    return of_handlers(code + b"\xb1\x57\xb1", 1, 1, struct.pack(">HHHH", 2, end, end, 0) * many)


def calls_that_are_reached(part):
    """Branches to calls of 992 arguments, all of a class with a long name."""
    many = 992
    text = long_class.utf8("(" + ("L" + "N" * 64 + ";") * many + ")V")
    name_and_type = b"\x0c" + struct.pack(">HH", 9, 8)
    entries = [text, long_class.utf8("taken"), name_and_type, b"\x0a" + struct.pack(">HH", 2, 10)]
    calls = (65535 - many - 1) // 8
    code = b"\x01" * many + b"\x03\x99\0\x07\xb8\0\x0b\xb1" * calls + b"\xb1"
    body = struct.pack(">HHI", 0, many, 1) + b"\xb1\0\0\0\0"
    taken = struct.pack(">HHHHHI", 0x0009, 9, 8, 1, 5, len(body)) + body
    return of_code(code, many + 1, 0, max(1, int(14 * part)), entries, more=[taken]), VERIFY


FILES = {
    "loops around locals that hand on objects, inside 30 handlers": handlers_around_loops,
    "65,530 handlers, from each offset to the end": handlers_to_the_end,
    "65,535 handlers around stores of an int and null by turns": handlers_around_stores,
    "14 methods of 8,000 branches to calls of 992 arguments": calls_that_are_reached,
}


def timed(paragon, part, words):
    hostile.FILES.update(FILES)
    print("| Work | Bytes | Last line | Seconds | MB | Doubled |")
    print("|---|---|---|---|---|---|")
    for row in FILES:
        if not words or any(word in row for word in words):
            half = hostile.file_row(paragon, row, part / 2)
            print(hostile.line(row, half, hostile.file_row(paragon, row, part)), flush=True)


if __name__ == "__main__":
    timed(sys.argv[1], float(sys.argv[2]), sys.argv[3:])
