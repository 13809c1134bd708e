"""Changes each byte of a class file and compares what paragon answers with a reader of its own.

    python3 damage.py PARAGONC PARAGON

PARAGONC and PARAGON are the paths of the built programs. A program of two classes is compiled, and
each byte of `Item.class` is set to 0, to 255 and changed in each of its bits. The reader below reads
the changed file by the rules of docs/CLASS_FILES.md, links both files and works out what their run
shows, apart from the code of the programs. Printed are each difference and the number of answers of
each kind.
"""
import collections
import os
import struct
import subprocess
import sys
import tempfile

SOURCE = """actor alice, bob;
class Shop {
?{alice:; bob:} output void show(int v);
static void main() !bottom {
notnull Item a = new Item(); notnull Item b = new Item(); notnull Item c = a;
a.f = 1; b.f = 2; c.f = 3; show(a.f);
}
}
class Item { int f; }
"""
BORN = "new Item#0\n"
EVENTS = BORN + "new Item#1\nput Item#0.f 1\nput Item#1.f 2\nput Item#0.f 3\nout Shop.show 3\nend\n"
LENGTHS = {1: 2, 3: 4, 7: 2, 8: 2, 9: 4, 10: 4, 12: 4}
KINDS = {7: (1,), 8: (1,), 9: (7, 12), 10: (7, 12), 12: (1, 1)}
BUILT_IN = ["java/lang/Object", "java/lang/Exception", "java/lang/ArithmeticException"]
BUILT_IN += ["java/lang/NullPointerException", "paragon/Locks"]
LETTERS = "ABCDEFGHIJKLMNOPQRSTUVWXYZabcdefghijklmnopqrstuvwxyz_"
# How many bytes of operands the listed opcodes have.
OPERANDS = {op: 0 for op in [*range(1, 9), *range(0x1a, 0x1e), *range(0x2a, 0x2e), 0x57, 0x59]}
OPERANDS |= {op: 0 for op in [*range(0x3b, 0x3f), *range(0x4b, 0x4f), 0x60, 0x64, 0x68, 0x6c, 0x70]}
OPERANDS |= {op: 0 for op in [0x74, 0x78, 0x7a, 0x7c, 0x7e, 0x80, 0x82, 0xac, 0xb0, 0xb1, 0xbf]}
OPERANDS |= {op: 1 for op in [0x10, 0x12, 0x15, 0x19, 0x36, 0x3a]}
OPERANDS |= {op: 2 for op in [0x11, 0x13, 0x84, *range(0x99, 0xa8), *range(0xb2, 0xb9), 0xbb]}
OPERANDS |= {op: 2 for op in [0xc6, 0xc7]}


class Refused(Exception):
    """A class file is refused, by a number with a value."""


class Reader:
    def __init__(self, data):
        self.data, self.at, self.pool = data, 0, {}

    def take(self, length):
        if self.at + length > len(self.data):
            raise Refused(32, len(self.data))
        self.at += length
        return self.data[self.at - length : self.at]

    def number(self, length=2):
        return int.from_bytes(self.take(length), "big")

    def index(self, tag):
        """An index of an entry with that tag."""
        at, number = self.at, self.number()
        if self.pool.get(number, (0,))[0] != tag:
            raise Refused(34, at)
        return number

    def text(self, number):
        return self.pool[number][1].decode()

    def shape(self, holds, at):
        if not holds:
            raise Refused(36, at)

    def constants(self):
        count = self.number()
        if count == 0:
            raise Refused(33, 0)
        for place in range(1, count):
            tag = self.number(1)
            if tag not in LENGTHS:
                raise Refused(33, place)
            if tag == 1:
                length = self.number()
                body = self.take(length)
                if any(not 1 <= byte <= 127 for byte in body):
                    raise Refused(33, place)
            else:
                body = self.take(LENGTHS[tag])
            self.pool[place] = (tag, body)
        for place, (tag, body) in self.pool.items():
            for turn, kind in enumerate(KINDS.get(tag, ())):
                named = struct.unpack(">H", body[2 * turn : 2 * turn + 2])[0]
                if self.pool.get(named, (0,))[0] != kind:
                    raise Refused(33, place)

    def attributes(self):
        """The attributes, each by its name, the offset of its bytes and these."""
        found = []
        for _ in range(self.number()):
            name = self.text(self.index(1))
            length = self.number(4)
            found.append((name, self.at, self.take(length)))
        return found

    def code(self, at, data):
        """The inside of a Code."""
        inside = Reader(data)
        inside.pool = self.pool
        try:
            room, places = inside.number(), inside.number()
            length_at, length = inside.at, inside.number(4)
            inside.shape(0 < length <= 65535, at + length_at)
            code = inside.take(length)
            handlers = inside.number()
            assert handlers == 0 or at + len(data) < at + inside.at + 8
            inside.take(8 * handlers)
            for _ in range(inside.number()):
                where = inside.at
                try:
                    inside.index(1)
                except Refused as told:
                    raise told if told.args[0] == 32 else Refused(34, at + where)
                inside.take(inside.number(4))
        except Refused as told:
            raise Refused(36, at) if told.args[0] == 32 else told
        self.shape(inside.at == len(data), at)
        return room, places, code

    def members(self, are_methods):
        found = []
        for _ in range(self.number()):
            at, access = self.at, self.number()
            name, descriptor = self.text(self.index(1)), self.text(self.index(1))
            attributes = self.attributes()
            codes = [self.code(where, data) for what, where, data in attributes if what == "Code"]
            if are_methods:
                self.shape(len(codes) == (0 if access & 0x100 else 1), at)
            found.append((access, name, descriptor, codes))
        return found

    def named(self, number):
        return self.text(struct.unpack(">H", self.pool[number][1])[0])

    def file(self):
        if self.take(4) != b"\xca\xfe\xba\xbe":
            raise Refused(30, 0)
        self.number()
        self.major = self.number()
        if not 45 <= self.major <= 51:
            raise Refused(31, self.major)
        self.constants()
        self.number()
        own = self.named(self.index(7))
        above_at = self.at
        above = self.named(self.index(7))
        self.shape(above in BUILT_IN[:2], above_at)
        self.shape(self.number() == 0, self.at - 2)
        fields, methods = self.members(False), self.members(True)
        self.attributes()
        if self.at != len(self.data):
            raise Refused(35, self.at)
        return own, fields, methods


def is_name(text):
    return 0 < len(text) <= 64 and text[0] in LETTERS and all(
        letter in LETTERS or letter.isdigit() for letter in text
    )


def walk(code):
    at = 0
    while at < len(code):
        if code[at] not in OPERANDS:
            raise Refused(20, at)
        if at + OPERANDS[code[at]] >= len(code):
            raise Refused(21, at)
        at += 1 + OPERANDS[code[at]]


def is_kind(text):
    return text in ("I", "Z") or text[:1] == "L" and text[-1:] == ";" and is_name(text[1:-1])


def is_signature(text):
    """Without arguments, as those of the class are."""
    return text[:2] == "()" and (text[2:] == "V" or is_kind(text[2:]))


def link(reader, own, fields, methods):
    """Refuses what of the class does not link."""
    for members in (fields, methods):
        for place, member in enumerate(members):
            if member[1:3] in [other[1:3] for other in members[:place]]:
                raise Refused(43, place)
    for place, (_, name, descriptor, _) in enumerate(fields):
        if not (is_name(name) and is_kind(descriptor)):
            raise Refused(44, place)
    for place, (access, name, descriptor, _) in enumerate(methods, len(fields)):
        if not is_signature(descriptor) or access & 0x100 and descriptor != "()I":
            raise Refused(44, place)
    known = {class_: [("<init>", "()V")] for class_ in BUILT_IN[:4]} | {BUILT_IN[4]: []}
    known[own] = [method[1:3] for method in methods]
    for tag, number, members in ((9, 41, [field[1:3] for field in fields]), (10, 42, None)):
        for place, (kind, body) in reader.pool.items():
            if kind == tag:
                class_, both = struct.unpack(">HH", body)
                pair = struct.unpack(">HH", reader.pool[both][1])
                wanted = tuple(map(reader.text, pair))
                of = reader.named(class_)
                if wanted not in (known[of] if members is None else members if of == own else []):
                    raise Refused(number, place)
    for method in methods:
        for _, _, code in method[3]:
            walk(code)


def initialized(room, places, code):
    """What the initializer comes to: how it ends, where and why; `super()` is constant 11."""
    if places == 0:
        return "Shop.main 4 4"
    if code[0] == 0x2b:
        return "Item.<init> 0 4"
    if room == 0:
        return "Item.<init> 0 3"
    reasons = {0xb5: 1, 0xb3: 6, 0xa7: 5}
    if code[1] in reasons:
        return f"Item.<init> 1 {reasons[code[1]]}"
    if code[2:4] != b"\0\x0b":
        return "Item.<init> 1 6"
    return "Item.<init> 4 1" if code[4] == 0xb0 else None


def expected(data, named_at, field_at, method_at):
    """What is put, and with which status. The places are those of the constants of Shop."""
    reader = Reader(data)
    try:
        own, fields, methods = reader.file()
        for place, (tag, _) in reader.pool.items():
            if tag == 7 and own == "Item" and reader.named(place) not in ("Item", *BUILT_IN):
                raise Refused(40, place)
    except Refused as told:
        return "bad class Item {} {}\n".format(*told.args), 12
    if own != "Item":
        return f"bad class Shop 40 {named_at}\n", 12
    if ("f", "I") not in [field[1:3] for field in fields]:
        return f"bad class Shop 41 {field_at}\n", 12
    if ("<init>", "()V") not in [method[1:3] for method in methods]:
        return f"bad class Shop 42 {method_at}\n", 12
    try:
        link(reader, own, fields, methods)
        # a jump, and no frame where it goes
        if reader.major == 51 and methods[0][3][0][2][1] == 0xa7:
            raise Refused(46, 0)
    except Refused as told:
        return "bad class Item {} {}\n".format(*told.args), 12
    access = methods[0][0]
    if access & 8:
        return BORN + "bad code Shop.main 4 7\n", 14
    bad = initialized(*methods[0][3][0])
    if bad:
        return BORN + f"bad code {bad}\n", 14
    if fields[0][0] & 8:
        first = EVENTS.index("put")
        return EVENTS[:first] + "bad code Shop.main 20 7\n", 14
    return EVENTS, 0


def places_of(data):
    """The places of the constants of Shop that name Item, its field and its initializer."""
    reader = Reader(data)
    reader.file()
    found = {}
    for place, (tag, body) in reader.pool.items():
        if tag == 7 and reader.named(place) == "Item":
            found["named"] = place
        if tag in (9, 10) and reader.named(struct.unpack(">HH", body)[0]) == "Item":
            found[tag] = place
    return found["named"], found[9], found[10]


def changes(data):
    for place, old in enumerate(data):
        for new in dict.fromkeys([0, 255, *(old ^ 1 << bit for bit in range(8))]):
            yield place, new, data[:place] + bytes([new]) + data[place + 1 :]


def main():
    paragonc, paragon = map(os.path.abspath, sys.argv[1:3])
    answers, wrong = collections.Counter(), 0
    with tempfile.TemporaryDirectory() as folder:
        for name, text in (("shop.par", SOURCE), ("in.txt", "")):
            with open(os.path.join(folder, name), "w") as out:
                out.write(text)
        subprocess.run([paragonc, "shop.par"], cwd=folder, check=True, capture_output=True)
        read = {name: open(os.path.join(folder, name + ".class"), "rb").read()
                for name in ("Shop", "Item")}
        places = places_of(read["Shop"])
        for place, new, data in changes(read["Item"]):
            with open(os.path.join(folder, "Item.class"), "wb") as out:
                out.write(data)
            ran = subprocess.run([paragon, "Shop", "in.txt", "1000"], cwd=folder,
                                 capture_output=True, text=True)
            wanted = expected(data, *places)
            answers[wanted[0].splitlines()[-1].rsplit(" ", 1)[0]] += 1
            if (ran.stdout, ran.returncode) != wanted:
                wrong += 1
                print(f"byte {place} is {new}: {ran.stdout!r} {ran.returncode}, not {wanted!r}")
    for answer, count in sorted(answers.items()):
        print(f"{count:5} {answer}")
    print(f"{sum(answers.values())} changes, {wrong} differences")
    sys.exit(wrong > 0)


if __name__ == "__main__":
    main()
