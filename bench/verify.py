"""Times how `paragon --verify` looks at class files.

    python3 verify.py PARAGON [FILES [BYTES]]

PARAGON is the path of the built program. First there are 128 class files of 117,000 bytes each, in
all 15 MB, of methods with branches and loops: they are loaded, by a run of one instruction, and
verified. Then there is one method of 16,383, 32,767 and 65,535 bytes whose jumps all go back, and
one of as many bytes with a deep list of operands. Each of these has 65,535 locals. Printed are what
is told, the processor seconds and the most memory in MB.
"""
import os
import struct
import sys
import tempfile

from class_files import PUBLIC_STATIC, Pool, u2, write
from measured import least

MOST_CODE = 65535


def raw_method(pool, name, code, room, locals_):
    """A static method without arguments and result, which has these bytes as its code."""
    body = u2(room) + u2(locals_) + struct.pack(">I", len(code)) + code + u2(0) + u2(0)
    attribute = u2(pool.text("Code")) + struct.pack(">I", len(body)) + body
    return u2(PUBLIC_STATIC) + u2(pool.text(name)) + u2(pool.text("()V")) + u2(1) + attribute


def looping(most):
    """A loop over branches, each of which sets one of two locals."""
    begun = bytes([0x03, 0x3B, 0x03, 0x3C])
    step = bytes([0x1B, 0x99, 0, 8, 0x1A, 0x3C, 0xA7, 0, 5, 0x03, 0x3C])
    steps = (most - len(begun) - 5) // len(step)
    back = bytes([0xA7]) + struct.pack(">h", -len(step) * min(steps, 2900))
    return begun + step * steps + bytes([0x1A, 0x99, 0, 6]) + back + b"\xb1"


def going_back(most):
    """Jumps that all go back, from the last one on, to a return: control begins at the last one."""
    last = 1 + (most - 4) // 3
    hop = 10922 if last > 10922 else None
    goals = {0: hop or last, 1: None}
    if hop:
        goals[hop] = last
    places = [place for place in range(2, last + 1) if place != hop]
    goals.update(zip(places, [1, *places]))
    starts = [0, 3] + [4 + 3 * (place - 2) for place in range(2, last + 1)]
    code = b""
    for place, start in enumerate(starts):
        goal = goals[place]
        jump = None if goal is None else bytes([0xA7]) + struct.pack(">h", starts[goal] - start)
        code += jump or b"\xb1"
    return code


def deep(most):
    """As many operands as fit into a third of the code, and jumps to what is behind them."""
    pushes = most // 3
    jumps = (most - pushes - 1) // 3
    return b"\x01" * pushes + bytes([0xA7, 0, 3]) * jumps + b"\xb1"


def many_files(files, size):
    """Class files that name each other, the last one none."""
    for number in range(files):
        pool = Pool()
        if number + 1 < files:
            pool.named(f"C{number + 1:03}")
        code = looping(10000)
        methods = [raw_method(pool, f"m{n}", code, 4, 2) for n in range(size // len(code))]
        write(pool, f"C{number:03}", [], [raw_method(pool, "main", b"\xb1", 0, 0), *methods])


def one_file(code, room, locals_):
    pool = Pool()
    write(pool, "One", [], [raw_method(pool, "main", code, room, locals_)])


def told(name, words, folder):
    answer, seconds, memory = least(words, folder, 1)
    print(f"{name}: {answer.splitlines()[-1] if answer else ''}, {seconds:.2f} s, {memory} MB",
          flush=True)
    return seconds


def main():
    paragon = os.path.abspath(sys.argv[1])
    files = int(sys.argv[2]) if len(sys.argv) > 2 else 128
    size = int(sys.argv[3]) if len(sys.argv) > 3 else 117000
    with tempfile.TemporaryDirectory() as folder:
        os.chdir(folder)
        open("in.txt", "w").close()
        many_files(files, size)
        loaded = told(f"{files} files loaded", [paragon, "C000", "in.txt", "1"], folder)
        verified = told(f"{files} files verified", [paragon, "--verify", "C000"], folder)
        print(f"{verified / max(loaded, 0.01):.1f} times the time of loading")
        for most in (MOST_CODE // 4, MOST_CODE // 2, MOST_CODE):
            one_file(going_back(most), 0, MOST_CODE)
            told(f"{most} bytes of jumps back", [paragon, "--verify", "One"], folder)
        for most in (MOST_CODE // 4, MOST_CODE // 2, MOST_CODE):
            one_file(deep(most), MOST_CODE, MOST_CODE)
            told(f"{most} bytes, a deep list", [paragon, "--verify", "One"], folder)


if __name__ == "__main__":
    main()
