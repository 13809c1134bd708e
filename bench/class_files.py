"""Writes class files, for the scripts beside it: a pool of constants, code, members, whole files.

Java Virtual Machine Specification, Java SE 7, chapters 4 and 6.
"""
import struct

OPCODES = {
    "aconst_null": 0x01, "iconst_m1": 0x02, "iconst_0": 0x03, "iconst_2": 0x05, "iconst_3": 0x06,
    "bipush": 0x10, "ldc": 0x12, "iload_0": 0x1A, "iload_1": 0x1B, "aload_0": 0x2A, "aload_1": 0x2B,
    "aload_2": 0x2C, "istore_0": 0x3B, "istore_1": 0x3C, "astore_1": 0x4C, "astore_2": 0x4D,
    "pop": 0x57, "dup": 0x59, "iadd": 0x60, "imul": 0x68, "idiv": 0x6C, "irem": 0x70, "iushr": 0x7C,
    "ixor": 0x82, "iinc": 0x84, "ifeq": 0x99, "ifgt": 0x9D, "goto": 0xA7, "ireturn": 0xAC,
    "areturn": 0xB0, "return": 0xB1, "getstatic": 0xB2, "putstatic": 0xB3, "getfield": 0xB4,
    "putfield": 0xB5, "invokevirtual": 0xB6, "invokespecial": 0xB7, "invokestatic": 0xB8,
    "new": 0xBB, "athrow": 0xBF, "ifnull": 0xC6,
}
BRANCHES = ("ifeq", "ifgt", "goto", "ifnull")
INDEXED = ("getstatic", "putstatic", "getfield", "putfield", "new")
INDEXED += ("invokevirtual", "invokespecial", "invokestatic")
PUBLIC, PUBLIC_STATIC, CHANNEL = 0x0001, 0x0009, 0x0109


def u2(number):
    return struct.pack(">H", number & 0xFFFF)


class Pool:
    def __init__(self):
        self.entries = []

    def add(self, entry):
        if entry not in self.entries:
            self.entries.append(entry)
        return self.entries.index(entry) + 1

    def text(self, text):
        return self.add(b"\x01" + u2(len(text)) + text.encode())

    def number(self, number):
        return self.add(b"\x03" + struct.pack(">i", number))

    def named(self, name):
        return self.add(b"\x07" + u2(self.text(name)))

    def member(self, tag, owner, name, descriptor):
        both = self.add(b"\x0c" + u2(self.text(name)) + u2(self.text(descriptor)))
        return self.add(tag + u2(self.named(owner)) + u2(both))

    def field(self, owner, name, descriptor="I"):
        return self.member(b"\x09", owner, name, descriptor)

    def method(self, owner, name, descriptor):
        return self.member(b"\x0a", owner, name, descriptor)


def size(word):
    if word in BRANCHES or word in INDEXED or word == "iinc":
        return 3
    return 2 if word in ("ldc", "bipush") else 1


def assembled(instructions):
    """The bytes of instructions, each a word or a word and its operands, and where each starts.

    A branch goes to the index of an instruction.
    """
    lines = [line if isinstance(line, tuple) else (line,) for line in instructions]
    sizes = [size(word) for word, *_ in lines]
    starts = [sum(sizes[:place]) for place in range(len(lines) + 1)]
    written = b""
    for start, (word, *operands) in zip(starts, lines):
        written += bytes([OPCODES[word]])
        if word in BRANCHES:
            written += u2(starts[operands[0]] - start)
        elif word in INDEXED:
            written += u2(operands[0])
        else:
            written += bytes(operand & 0xFF for operand in operands)
    return written, starts


def method(pool, access, name, descriptor, locals_, instructions, handlers=()):
    """A method with code. A handler has the indices of three instructions, and that of a class."""
    written, starts = assembled(instructions)
    caught = b"".join(b"".join(u2(starts[at]) for at in ats) + u2(kind) for *ats, kind in handlers)
    body = u2(4) + u2(locals_) + struct.pack(">I", len(written)) + written
    body += u2(len(handlers)) + caught + u2(0)
    attribute = u2(pool.text("Code")) + struct.pack(">I", len(body)) + body
    return u2(access) + u2(pool.text(name)) + u2(pool.text(descriptor)) + u2(1) + attribute


def channel(pool, name, descriptor):
    return u2(CHANNEL) + u2(pool.text(name)) + u2(pool.text(descriptor)) + u2(0)


def initializer(pool, above="java/lang/Object"):
    call = ("invokespecial", pool.method(above, "<init>", "()V"))
    return method(pool, PUBLIC, "<init>", "()V", 1, ["aload_0", call, "return"])


def field(pool, access, name, descriptor="I"):
    return u2(access) + u2(pool.text(name)) + u2(pool.text(descriptor)) + u2(0)


def write(pool, name, fields, methods, above="java/lang/Object"):
    this, superclass = pool.named(name), pool.named(above)
    file = b"\xca\xfe\xba\xbe" + u2(0) + u2(49)
    file += u2(len(pool.entries) + 1) + b"".join(pool.entries)
    file += u2(0x0031) + u2(this) + u2(superclass) + u2(0)
    for members in (fields, methods):
        file += u2(len(members)) + b"".join(members)
    with open(f"{name}.class", "wb") as out:
        out.write(file + u2(0))
