"""Writes three class files, each with a loop of so many rounds: python3 loops.py ROUNDS.

Numbers reckons with locals, Calls reads a static field and calls a method of two ints, Objects
reads fields of an object. A loop writes no field, since a write is an event that is printed. Prints
for each the instructions of a round.
"""
import sys

from class_files import PUBLIC, PUBLIC_STATIC, Pool, field, initializer, method, write


def loop(pool, first, round_):
    """The first instructions, the rounds, each of which ends by a look at local 0, and a return."""
    start = [("ldc", pool.number(ROUNDS)), "istore_0", "iconst_0", "istore_1", *first]
    return [*start, *round_, ("iinc", 0, -1), "iload_0", ("ifgt", len(start)), "return"]


def numbers():
    pool = Pool()
    round_ = ["iload_1", ("bipush", 31), "imul", "iload_0", "iadd", "istore_1"]
    round_ += ["iload_1", "iconst_3", "iushr", "iload_1", "ixor", "istore_1"]
    main = method(pool, PUBLIC_STATIC, "main", "()V", 3, loop(pool, [], round_))
    write(pool, "Numbers", [], [main])
    return len(round_) + 3


def calls():
    pool = Pool()
    step, add = pool.field("Calls", "step"), pool.method("Calls", "add", "(II)I")
    first = ["iconst_3", ("putstatic", step)]
    round_ = ["iload_1", ("getstatic", step), ("invokestatic", add), "istore_1"]
    added = ["iload_0", "iload_1", "iadd", "ireturn"]
    main = method(pool, PUBLIC_STATIC, "main", "()V", 3, loop(pool, first, round_))
    callee = method(pool, PUBLIC_STATIC, "add", "(II)I", 2, added)
    write(pool, "Calls", [field(pool, PUBLIC_STATIC, "step")], [main, callee])
    return len(round_) + len(added) + 3


def objects():
    pool = Pool()
    one, other = pool.field("Objects", "one"), pool.field("Objects", "other")
    own = pool.method("Objects", "<init>", "()V")
    first = [("new", pool.named("Objects")), "dup", ("invokespecial", own), "astore_2"]
    first += ["aload_2", "iconst_3", ("putfield", one)]
    round_ = ["aload_2", ("getfield", one), "aload_2", ("getfield", other), "iadd"]
    round_ += ["iload_1", "iadd", "istore_1"]
    main = method(pool, PUBLIC_STATIC, "main", "()V", 3, loop(pool, first, round_))
    fields = [field(pool, PUBLIC, "one"), field(pool, PUBLIC, "other")]
    write(pool, "Objects", fields, [initializer(pool), main])
    return len(round_) + 3


ROUNDS = int(sys.argv[1])
print("Numbers", numbers())
print("Calls", calls())
print("Objects", objects())
