"""Class files that are made to take as much time or memory as their bytes allow; hostile.py times
them.

Each function takes a part of 1 and gives class files by name, as large as that part of what is
allowed, and the words behind `paragon`. `FILES` has them under their names.
"""
import struct

import long_class
import long_texts
import many_classes

LONGEST = 1048576
RUN = ["Long", "in.txt", "100000"]
VERIFY = ["--verify", "Long"]


def file_of(entries, methods, fields=()):
    """A class `Long` of these constants, whose first seven are its own, and of these members."""
    pool = [long_class.utf8("Long"), b"\x07\0\x01", long_class.utf8("java/lang/Object")]
    pool += [b"\x07\0\x03", long_class.utf8("Code"), long_class.utf8("main")]
    pool += [long_class.utf8("()V"), *entries]
    file = b"\xca\xfe\xba\xbe" + struct.pack(">HHH", 0, 49, len(pool) + 1) + b"".join(pool)
    file += struct.pack(">HHHHH", 0x0031, 2, 4, 0, len(fields)) + b"".join(fields)
    return file + struct.pack(">H", len(methods)) + b"".join(methods) + b"\0\0"


def main(code, room, places, handlers=b""):
    body = struct.pack(">HHI", room, places, len(code)) + code
    body += struct.pack(">H", len(handlers) // 8) + handlers + b"\0\0"
    return struct.pack(">HHHHHI", 0x0009, 6, 7, 1, 5, len(body)) + body


def entries_and_fields(part):
    wanted, fields = int(50000 * part), int(60000 * part)
    return {"Long": long_class.class_file(wanted, fields, False)}, RUN


def one_long_text(part):
    return {"Long": long_texts.class_file("Long", "Long", 65000, int(65000 * part))}, RUN


def files_that_name_each_other(part):
    files = int(128 * part)
    made = {f"C{n:03}": many_classes.class_file(n, files, 20000, 256) for n in range(files)}
    return made, ["C000", "in.txt", "1"]


def of_code(code, room, places, many, entries=(), descriptor=7, fields=(), more=()):
    """A class with so many methods of that code, behind further constants and methods."""
    names = [long_class.utf8(f"m{n:05}") for n in range(many)]
    body = struct.pack(">HHI", room, places, len(code)) + code + b"\0\0\0\0"
    first = 8 + len(entries)
    methods = [
        struct.pack(">HHHHHI", 0x0009, first + n, descriptor, 1, 5, len(body)) + body
        for n in range(many)
    ]
    methods = [main(b"\xb1", 0, 0), *more, *methods]
    return {"Long": file_of([*entries, *names], methods, fields)}


def long_code(part):
    """Methods of 65,535 bytes of code, as many as fit."""
    return of_code(b"\x03\x57" * 32767 + b"\xb1", 1, 0, int(15 * part)), RUN


def objects_handed_on(part):
    """Loops in which 252 locals hand on their objects, so that a pass tells of one local more that
    it has objects of several classes."""
    other = [long_class.utf8("java/lang/NullPointerException"), b"\x07\0\x08"]
    code = b"".join(b"\xbb\0\x02\x3a" + bytes([n]) for n in range(252))
    loop = b"".join(bytes([0x19, n, 0x3a, n + 1]) for n in reversed(range(251)))
    loop += b"\x03\x57" * ((32000 - len(loop)) // 2) + b"\xbb\0\x09\x3a\0"
    code += loop + b"\xa7" + struct.pack(">h", -len(loop)) + b"\xb1"
    return of_code(code, 1, 252, int(30 * part), other), VERIFY


def nested_loops(part):
    """Loops 5,300 deep, each of which goes back once, with 255 locals."""
    code = b"".join(b"\x01\x3a" + bytes([n]) for n in range(255))
    heads = range(len(code), len(code) + 2 * 5300, 2)
    code += b"\x03\x57" * len(heads) + b"\xbb\0\x02\x3a\0"
    for head in reversed(heads):
        code += b"\x03"
        code += b"\x99" + struct.pack(">h", head - len(code))
    return of_code(code + b"\xb1", 1, 255, int(30 * part)), VERIFY


def object_loops(deep, order):
    """The code of loops so deep around 252 locals that hand on their objects, and the constants
    that it needs beside those of each class: each way round all loops tells of one local more that
    it has objects of several classes. Code goes back to their heads in that order."""
    other = [long_class.utf8("java/lang/NullPointerException"), b"\x07\0\x08"]
    code = b"".join(b"\xbb\0\x02\x3a" + bytes([n]) for n in range(252))
    heads = range(len(code), len(code) + 2 * deep, 2)
    code += b"\x03\x57" * len(heads)
    code += b"".join(bytes([0x19, n, 0x3a, n + 1]) for n in reversed(range(251)))
    code += b"\xbb\0\x09\x3a\0"
    for head in order(heads):
        code += b"\x03"
        code += b"\x99" + struct.pack(">h", head - len(code))
    return code + b"\xb1", other


def around_objects(part, order):
    """Methods of loops 5,200 deep around locals that hand on objects."""
    code, other = object_loops(5200, order)
    return of_code(code, 1, 252, int(30 * part), other), VERIFY


def loops_around_objects(part):
    return around_objects(part, reversed)


def loops_that_cross(part):
    return around_objects(part, list)


def rising(part, jumps, together):
    """Jumps back to one another before and behind code that sets 252 locals to another kind, so
    many of them together, so that each of them rises as often as it can before each jump."""
    other = [long_class.utf8("java/lang/NullPointerException"), b"\x07\0\x08"]
    other += [long_class.utf8("java/lang/ArithmeticException"), b"\x07\0\x0a"]
    code = b"".join(b"\x01\x3a" + bytes([n]) for n in range(252))
    back = len(code)
    for made in (b"\xbb\0\x09\x3a", b"\xbb\0\x0b\x3a", b"\xbb\0\x02\x3a", b"\x03\x36"):
        sets = [made + bytes([n]) for n in range(252)]
        pieces = [b""] * jumps
        pieces += [b"".join(sets[n : n + together]) for n in range(0, 252, together)]
        for piece in pieces:
            code += piece + b"\x03\x99" + struct.pack(">h", back - len(code) - len(piece) - 1)
            back = len(code) - 4
    return of_code(code + b"\xb1", 1, 252, int(15 * part), other), VERIFY


def kinds_that_rise(part):
    return rising(part, 3700, 252)


def kinds_that_rise_apart(part):
    return rising(part, 2900, 1)


def operands_on_operands(part):
    """Methods that push 65,534 operands."""
    return of_code(b"\x01" * 65534 + b"\xb1", 65534, 0, int(15 * part)), VERIFY


def under_operands(pushed, branches):
    """Branches to offsets ahead, each under all operands, so that as many frames are kept at once
    as there are branches; behind code that pushes operands, a byte each."""
    code = pushed
    goals = len(pushed) + 4 * branches
    for n in range(branches):
        code += b"\x03\x99" + struct.pack(">h", goals + 2 * n - len(code) - 1)
    return code + b"\x03\x57" * branches + b"\xb1"


def branches_under_operands(part):
    """A method of branches under operands."""
    operands = int(30000 * part)
    return of_code(under_operands(b"\x01" * operands, int(5900 * part)), operands + 2, 0, 1), VERIFY


def methods_of_branches(part):
    """Methods of branches under operands, as many as fit."""
    code = under_operands(b"\x01" * 30000, 5900)
    return of_code(code, 30002, 0, int(15 * part)), VERIFY


def among_classes(names, code, room, places, many):
    """A class with so many methods of that code, whose constants 9, 11 and so on are classes of
    these names, and a small class of each name."""
    entries = []
    for name in names:
        entries += [long_class.utf8(name), b"\x07" + struct.pack(">H", 8 + len(entries))]
    files, small = of_code(code, room, places, many, entries), file_of([], [main(b"\xb1", 0, 0)])
    own = long_class.utf8("Long")
    files.update((name, small.replace(own, long_class.utf8(name), 1)) for name in names)
    return files, VERIFY


def made_of(many):
    """Code that makes an object of each of so many classes, a local each."""
    return b"".join(struct.pack(">BHBB", 0xBB, 9 + 2 * n, 0x3A, n) for n in range(many))


def methods_of_kinds(part):
    """Methods of branches under operands, of which each 256 have nine kinds: seven classes, int and
    null; as many as fit."""
    names = [f"C{n:03}" for n in range(7)]
    seldom = bytes([0x19, 4, 0x19, 5, 0x19, 6])
    often = bytes([0x2A, 0x2B, 0x2C, 0x2D, 0x01, 0x03]) * 43
    code = under_operands(made_of(7) + (seldom + often[:253]) * 116, 5800)
    return among_classes(names, code, 116 * 256 + 2, 7, int(15 * part))


def whole_pieces(pieces):
    """Code that pushes so many times 256 operands, of 129 kinds each: 127 classes, int and null."""
    seldom = b"".join(bytes([0x19, n]) for n in range(4, 127))
    often = bytes([0x2A, 0x2B, 0x2C, 0x2D, 0x01, 0x03]) * 23
    return made_of(127) + (seldom + often[:133]) * pieces


def methods_of_classes(part, length):
    """Methods of branches, each to what is behind it, under operands of which each 256 have as many
    kinds as can be, classes named by so many bytes; as many as fit."""
    names = [f"C{n:03}".ljust(length, "x") for n in range(127)]
    code = whole_pieces(84) + b"\x03\x99\0\x03" * 8000 + b"\xb1"
    return among_classes(names, code, 84 * 256 + 2, 127, int(15 * part))


def short_classes(part):
    return methods_of_classes(part, 4)


def long_classes(part):
    return methods_of_classes(part, 64)


def pushed_and_taken(part):
    """Methods that push and take an operand by turns on 256 others, of as many kinds as can be, of
    classes with long names; as many as fit."""
    names = [f"C{n:03}".ljust(64, "x") for n in range(127)]
    code = whole_pieces(1) + b"\x03\x57" * 32200 + b"\xb1"
    return among_classes(names, code, 258, 127, int(15 * part))


def pushed_on_many(part):
    """The same on 32,512 others, so that each push fills a piece; as many as fit."""
    names = [f"C{n:03}".ljust(64, "x") for n in range(127)]
    often = bytes([0x2A, 0x2B, 0x2C, 0x2D, 0x01, 0x03]) * (126 * 43)
    code = whole_pieces(1) + often[: 126 * 256] + b"\x03\x57" * 16000 + b"\xb1"
    return among_classes(names, code, 127 * 256 + 2, 127, int(15 * part))


def absent(many):
    """The descriptors of so many classes that are not there, of long names."""
    return ["L" + f"A{n:04}".ljust(64, "x") + ";" for n in range(many)]


def with_arguments(code, room, many_arguments, methods):
    """A class with so many methods of that code, whose arguments are of classes that are not
    there."""
    text = "(" + "".join(absent(many_arguments)) + ")V"
    entries = [long_class.utf8(text)]
    return of_code(code, room, many_arguments, methods, entries, 8), VERIFY


def with_fields(code, room, many, methods):
    """A class with so many methods of that code, and with so many static fields, each of a class
    that is not there. The constant of field n is 11 + 4 n."""
    entries, fields = [], []
    for n, text in enumerate(absent(many)):
        at = 8 + 4 * n
        entries += [long_class.utf8(f"f{n:04}"), long_class.utf8(text)]
        entries.append(b"\x0c" + struct.pack(">HH", at, at + 1))
        entries.append(b"\x09" + struct.pack(">HH", 2, at + 2))
        fields.append(struct.pack(">HHHH", 0x0009, at, at + 1, 0))
    return of_code(code, room, 0, methods, entries, 7, fields), VERIFY


def reads(fields):
    """Code that pushes these fields."""
    return b"".join(struct.pack(">BH", 0xB2, 11 + 4 * n) for n in fields)


def loads(many, first=0):
    """Code that pushes so many locals, each of which is an object, from one on and round."""
    places = [(n + first) % many for n in range(many)]
    return b"".join(bytes([0x2A + n]) if n < 4 else bytes([0x19, n]) for n in places)


def each_of_its_kind(part):
    """Methods of branches, each to what is behind it, under operands of which each 256 have as many
    kinds: classes that are not there, and int; as many as fit."""
    code = (loads(255) + b"\x03") * 64 + b"\x03\x99\0\x03" * 8150 + b"\xb1"
    return with_arguments(code, 64 * 256 + 2, 255, int(15 * part))


def pushed_each_of_its_kind(part):
    """Methods that push and take an operand by turns on 256 such others; as many as fit."""
    code = loads(255) + b"\x03" + b"\x03\x57" * 32400 + b"\xb1"
    return with_arguments(code, 258, 255, int(15 * part))


def ways_each_of_its_kind(part):
    """Two ways that push such operands, each in another order, and meet."""
    pieces = max(1, int(31 * part))
    one, other = loads(256) * pieces, loads(256, 128) * pieces
    code = ways_to_goals(b"", one, other, int(3600 * part))
    return with_arguments(code, pieces * 256 + 2, 256, 1)


def windows(part):
    """Methods of branches, each to what is behind it, under operands of which each 256 have as many
    kinds, and each 256 eight others than those below; as many as fit."""
    pieces = 42
    code = b"".join(reads(range(8 * piece, 8 * piece + 256)) for piece in range(pieces))
    code += b"\x03\x99\0\x03" * 8150 + b"\xb1"
    return with_fields(code, pieces * 256 + 2, 8 * pieces + 248, int(14 * part))


def kinds_without_end(part):
    """The same, but each 256 have 32 kinds that stand nowhere else, and 32 that stand in all."""
    pieces = 60
    code = b""
    for piece in range(pieces):
        own = range(32 + 32 * piece, 64 + 32 * piece)
        code += reads([*range(32), *own]) + b"\x59" * 192
    code += b"\x03\x99\0\x03" * 10600 + b"\xb1"
    return with_fields(code, pieces * 256 + 2, 32 + 32 * pieces, int(13 * part))


def folded(one, other):
    """The halves of a product of two words, joined by exclusive or."""
    product = one * other
    return (product ^ product >> 64) & 2**64 - 1


def slot(name):
    """The slot in which a verifier looks for a name of 64 bytes first: the last byte of what the
    standard library's hash gives, whose seed is fixed."""
    words = struct.unpack("<8Q", name.encode())
    state = 0x243F6A8885A308D3 + 64
    for place in range(0, 8, 2):
        state = folded(words[place] ^ state, words[place + 1] ^ 0x9E3779B97F4A7C15)
    return state & 0xFF


def of_one_slot(many):
    """So many long names for which this byte is the same."""
    names = (f"C{n:04}".ljust(64, "x") for n in range(10000))
    return [name for name in names if slot(name) == 128][:many]


def chosen(turned=0):
    """Code that pushes 256 operands of twelve classes, eight of them first and once."""
    first = b"".join(bytes([0x19, 4 + (n + turned) % 8]) for n in range(8))
    return first + bytes(0x2A + (n + turned) % 4 for n in range(4)) * 62


def chosen_names(part):
    """Methods of branches, each to what is behind it, under operands of classes whose names are of
    one slot; as many as fit."""
    code = made_of(12) + chosen() * 116 + b"\x03\x99\0\x03" * 8700 + b"\xb1"
    return among_classes(of_one_slot(12), code, 116 * 256 + 2, 12, int(15 * part))


def pushed_on_chosen_names(part):
    """Methods that push and take an operand by turns on 256 such others; as many as fit."""
    code = made_of(12) + chosen() + b"\x03\x57" * 32450 + b"\xb1"
    return among_classes(of_one_slot(12), code, 258, 12, int(15 * part))


def ways_of_chosen_names(part):
    """Two ways that push such operands, each in another order, and meet."""
    pieces = max(1, int(61 * part))
    code = ways_to_goals(made_of(12), chosen() * pieces, chosen(3) * pieces, int(3500 * part))
    return among_classes(of_one_slot(12), code, pieces * 256 + 2, 12, 1)


def merged_classes(part):
    """Methods of branches, each to what is behind it, under operands that two ways push: of each
    256 one differs, and they have as many kinds as can be, of classes with long names; as many as
    fit."""
    names = [f"C{n:03}".ljust(64, "x") for n in range(127)]
    head = made_of(127)
    one = whole_pieces(42)[len(head) :]
    other = one.replace(bytes([0x19, 4, 0x19, 5]), bytes([0x19, 5, 0x19, 5]))
    code = head + b"\x03\x99" + struct.pack(">h", 6 + len(one)) + one
    code += b"\xa7" + struct.pack(">h", 3 + len(other)) + other
    code += b"\x03\x99\0\x03" * 8000 + b"\xb1"
    return among_classes(names, code, 42 * 256 + 2, 127, int(15 * part))


def ways_to_goals(head, one, other, goals):
    """Code of which two ways push operands, and then branch to the same offsets."""
    second = len(head) + 4 + len(one) + 3
    first = second + len(other) + 4 * goals + 1
    ends = first + 4 * goals + 1

    def branches(at):
        all_ = (b"\x03\x99" + struct.pack(">h", ends + n - (at + 4 * n + 1)) for n in range(goals))
        return b"".join(all_) + b"\xb1"

    code = head + b"\x03\x99" + struct.pack(">h", second - len(head) - 1) + one
    code += b"\xa7" + struct.pack(">h", first - len(code)) + other
    return code + branches(len(code)) + branches(first) + b"\xb1" * goals


def ways_that_meet(part):
    """A method in which two ways push as many operands, kinds of which none fits into that of the
    other, and then branch to the same offsets."""
    operands = int(16000 * part)
    one, other = b"\x01\x2a" * (operands // 2), b"\x2a\x01" * (operands // 2)
    code = ways_to_goals(made_of(1), one, other, int(3600 * part))
    return among_classes(["C000"], code, operands + 2, 1, 1)


def ways_below(part):
    """Methods in which two ways push objects of two classes by turns and meet, so that the frame
    there is above both; the second one then branches there over and over; as many as fit."""
    operands, half = 16000, 4150
    one, other = b"\x2a\x2b" * (operands // 2), b"\x2b\x2a" * (operands // 2)
    branch, jump = b"\x03\x99", b"\xa7"
    goal = 4 * half + 3

    def back(ends):
        return b"".join(branch + struct.pack(">h", ends - 4 * n - 1) for n in range(half))

    code = made_of(2) + branch + struct.pack(">h", operands + 6) + one
    code += jump + struct.pack(">h", 3 + operands + goal) + other
    code += back(goal) + jump + b"\0\4\xb1" + back(-1) + b"\xb1"
    return among_classes(["C000", "C001"], code, operands + 2, 2, int(15 * part))


def exceptions_below(part):
    """Methods in which two ways set 255 locals to exceptions of two classes and meet, so that the
    frame there is above both; the second one then branches there over and over; as many as fit.
    127 classes of exceptions have names that differ late."""
    names = [f"C{n:03}".rjust(64, "x") for n in range(127)]
    half = 7780
    one, other = (
        b"".join(struct.pack(">BHBB", 0xBB, 9 + 2 * n, 0x3A, place) for place in range(255))
        for n in (125, 126)
    )
    branch, jump = b"\x03\x99", b"\xa7"
    goal = 4 * half + 3

    def back(ends):
        return b"".join(branch + struct.pack(">h", ends - 4 * n - 1) for n in range(half))

    code = branch + struct.pack(">h", len(one) + 6) + one
    code += jump + struct.pack(">h", 3 + len(other) + goal) + other
    code += back(goal) + jump + b"\0\4\xb1" + back(-1) + b"\xb1"
    files, words = among_classes(names, code, 1, 255, int(15 * part))
    above, exception = long_class.utf8("java/lang/Object"), long_class.utf8("java/lang/Exception")
    for name in names:
        files[name] = files[name].replace(above, exception, 1)
    return files, words


def of_frames(locals_, code, frames, later, methods):
    """Methods of version 51 with that code and so many frames: one of all locals of the third byte,
    of which nothing is known, and behind it what is written of the later ones."""
    table = struct.pack(">HBHH", frames, 255, 2, locals_) + b"\0" * (locals_ + 2) + later
    body = struct.pack(">HHI", 1, locals_, len(code)) + code + b"\0\0"
    body += b"\0\1" + struct.pack(">HI", 8, len(table)) + table
    names = [long_class.utf8(f"m{n:05}") for n in range(methods)]
    made = [struct.pack(">HHHHHI", 9, 9 + n, 7, 1, 5, len(body)) + body for n in range(methods)]
    file = file_of([long_class.utf8("StackMapTable"), *names], [main(b"\xb1", 0, 0), *made])
    return {"Long": file[:6] + b"\0\x33" + file[8:]}, VERIFY


def frames_told(part):
    """Frames that are told of every second offset, each with all locals of the first one."""
    many = int(30000 * part)
    return of_frames(many, b"\x03\x57" * many + b"\xb1", many, b"\1" * (many - 1), 1)


def all_frames_told(part):
    """Methods in which a frame is told of each offset, with as many locals and as many kinds behind
    whole pieces of a pile as can be; as many as fit."""
    pairs = 32766
    code = b"\x03\x57" * (pairs + 1) + b"\xb1"
    return of_frames(65471, code, 2 * pairs + 1, b"\x40\1\0" * pairs, int(4 * part))


def handlers_around(part):
    """Handlers around all code of a method, as many as code has bytes."""
    many = int(65535 * part)
    code = b"\x03\x57" * ((many - 3) // 2) + b"\xb1"
    handlers = struct.pack(">HHHH", 0, len(code), len(code), 0) * many
    return {"Long": file_of([], [main(code + b"\x57\xb1", 1, 255, handlers)])}, VERIFY


def arguments_shared(part):
    """Methods of version 51 that share one long descriptor."""
    names = [long_class.utf8(f"m{n:05}") for n in range(int(24000 * part))]
    shared = int(60000 * part)
    body = struct.pack(">HHI", 0, shared, 1) + b"\xb1\0\0\0\0"
    methods = [
        struct.pack(">HHHHHI", 0x0009, 9 + n, 8, 1, 5, len(body)) + body for n in range(len(names))
    ]
    entries = [long_class.utf8("(" + "I" * shared + ")V"), *names]
    file = file_of(entries, [main(b"\xb1", 0, 0), *methods])
    return {"Long": file[:6] + b"\0\x33" + file[8:]}, RUN


def arguments_and_loops(part):
    """Methods with one jump back that share 60,000 arguments."""
    many = int(18000 * part)
    names = [long_class.utf8(f"m{n:05}") for n in range(many)]
    text = long_class.utf8("(" + "I" * 60000 + ")V")
    body = struct.pack(">HHI", 1, 60000, 5) + b"\x03\x57\xa7\xff\xfe\0\0\0\0"
    head = ((0x0009, 9 + n, 8, 1, 5, len(body)) for n in range(many))
    methods = [struct.pack(">HHHHHI", *words) + body for words in head]
    return {"Long": file_of([text, *names], [main(b"\xb1", 0, 0), *methods])}, VERIFY


def arguments_verified(part):
    return arguments_shared(part)[0], VERIFY


def calls_never_reached(part):
    """Methods with calls of as many arguments as a descriptor has, which code goes back over and
    never comes to; as many as fit."""
    calls = 10921
    code = b"\xb1" + (b"\xb8\0\x0b" * calls + b"\xa7" + struct.pack(">h", -3 * calls)) * 2
    text, name = long_class.utf8("(" + "I" * 65532 + ")V"), long_class.utf8("taken")
    entries = [text, name, b"\x0c" + struct.pack(">HH", 9, 8), b"\x0a" + struct.pack(">HH", 2, 10)]
    body = struct.pack(">HHI", 0, 65535, 1) + b"\xb1\0\0\0\0"
    taken = struct.pack(">HHHHHI", 0x0009, 9, 8, 1, 5, len(body)) + body
    return of_code(code, 0, 0, int(14 * part), entries, more=[taken]), VERIFY


def handlers_apart(part):
    """A method with a handler for each instruction, which code goes back over."""
    many = int(65530 * part) // 2 * 2
    back = min(many, 32766)
    code = b"\x03\x57" * (many // 2) + b"\xa7" + struct.pack(">h", -back) + b"\x57\xb1"
    apart = (struct.pack(">HHHH", at, at + 1, many + 3, 0) for at in range(many))
    return {"Long": file_of([], [main(code, 1, 0, b"".join(apart))])}, VERIFY


def throws_past(part, named):
    """A loop that divides by zero before handlers that take another class, but for the last."""
    many = int(65000 * part)
    code = b"\x04\x03\x6c\x57\xa7\xff\xfc\x57\xa7\xff\xf8\xb1"
    other = [long_class.utf8("java/lang/NullPointerException"), *[b"\x07\0\x08"] * 500]
    passed = b"".join(struct.pack(">HHHH", 0, 3, 7, it) for it in named) * (many // len(named))
    handlers = passed + struct.pack(">HHHH", 0, 3, 7, 0)
    return {"Long": file_of(other, [main(code, 2, 0, handlers)])}, RUN


def throws_past_handlers(part):
    return throws_past(part, [9])


def throws_past_two_names(part):
    return throws_past(part, [9, 10])


def throws_past_names(part):
    return throws_past(part, range(9, 9 + 500))


def calls_with_locals(part):
    """Calls of a method by itself, each of which has 65,535 locals."""
    named = [b"\x0c\0\x06\0\x07", b"\x0a\0\x02\0\x08"]
    return {"Long": file_of(named, [main(b"\xb8\0\x09\xb1", 0, 65535)])}, [
        "Long",
        "in.txt",
        str(int(400 * part)),
    ]


FILES = {
    "50,000 constants and 60,000 fields": entries_and_fields,
    "65,000 constants that share a text of 65,000 bytes": one_long_text,
    "128 files that name each other's members": files_that_name_each_other,
    "methods of 65,535 bytes of code": long_code,
    "24,000 methods that share 60,000 arguments": arguments_shared,
    "252 locals that hand on objects, verified": objects_handed_on,
    "loops 5,300 deep with 255 locals, verified": nested_loops,
    "loops 5,200 deep around locals that hand on objects, verified": loops_around_objects,
    "loops that cross around locals that hand on objects, verified": loops_that_cross,
    "kinds that rise as often as they can, verified": kinds_that_rise,
    "kinds that rise one after the other, verified": kinds_that_rise_apart,
    "65,534 operands on one another, verified": operands_on_operands,
    "5,900 branches under 30,000 operands, verified": branches_under_operands,
    "15 methods of 5,900 branches under 30,000 operands, verified": methods_of_branches,
    "the same, under 29,696 operands, nine kinds in each 256, verified": methods_of_kinds,
    "8,000 branches under 21,504 operands, 129 kinds in each 256, verified": short_classes,
    "the same, classes named by 64 bytes, verified": long_classes,
    "483,000 operands pushed on 256 of 129 kinds and taken, verified": pushed_and_taken,
    "240,000 operands pushed on 32,512 others and taken, verified": pushed_on_many,
    "8,000 branches under operands that two ways merged, 127 classes named by 64 bytes, verified": (
        merged_classes
    ),
    "8,150 branches under 16,384 operands, each 256 of as many absent classes, verified": (
        each_of_its_kind
    ),
    "486,000 operands pushed on 256 of as many absent classes and taken, verified": (
        pushed_each_of_its_kind
    ),
    "8,150 branches under 10,752 operands, each 256 of other kinds, verified": windows,
    "10,600 branches under 15,360 operands of 1,952 kinds, verified": kinds_without_end,
    "8,700 branches under 29,696 operands, classes with chosen names, verified": chosen_names,
    "486,000 operands pushed on 256 of classes with chosen names and taken, verified": (
        pushed_on_chosen_names
    ),
    "two ways that meet at 3,600 offsets under 16,000 operands, verified": ways_that_meet,
    "the same, under 7,936 operands, each 256 of as many absent classes, verified": (
        ways_each_of_its_kind
    ),
    "the same, at 3,500 offsets under 15,616 operands, classes with chosen names, verified": (
        ways_of_chosen_names
    ),
    "124,500 branches under 16,000 operands to a frame above, verified": ways_below,
    "15,560 branches with 255 exceptions to a frame above, verified": exceptions_below,
    "30,000 frames of 30,000 locals that are told, verified": frames_told,
    "4 methods of 65,533 frames of 65,471 locals that are told, verified": all_frames_told,
    "65,535 handlers around all code, verified": handlers_around,
    "65,530 handlers, each around an instruction, verified": handlers_apart,
    "24,000 methods that share 60,000 arguments, verified": arguments_verified,
    "18,000 methods with a jump back that share 60,000 arguments, verified": arguments_and_loops,
    "305,000 calls of 65,532 arguments that are never reached, verified": calls_never_reached,
    "100,000 steps that throw past 65,000 handlers": throws_past_handlers,
    "the same, which name two constants by turns": throws_past_two_names,
    "the same, which name 500 constants by turns": throws_past_names,
    "400 calls with 65,535 locals each": calls_with_locals,
}
