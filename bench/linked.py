"""Writes three class files that are run together: python3 linked.py.

Stock takes numbers from an input until it gives 0. Half of each is kept in an object of Item, in a
list, and put out. An odd number throws Odd, which a handler takes. Behind the end of the list 100
is divided by one further number, which may be 0.
"""
from class_files import PUBLIC, PUBLIC_STATIC, Pool, channel, field, initializer, method, write


def odd():
    pool = Pool()
    write(pool, "Odd", [], [initializer(pool, "java/lang/Exception")], "java/lang/Exception")


def item():
    pool = Pool()
    half, next_ = pool.field("Item", "half"), pool.field("Item", "next", "LItem;")
    sum_ = pool.method("Item", "sum", "()I")
    summed = ["aload_0", ("getfield", next_), ("ifnull", 7), "aload_0", ("getfield", next_)]
    summed += [("invokevirtual", sum_), ("goto", 8), "iconst_0"]
    summed += ["aload_0", ("getfield", half), "iadd", "ireturn"]
    fields = [field(pool, PUBLIC, "half"), field(pool, PUBLIC, "next", "LItem;")]
    methods = [initializer(pool), method(pool, PUBLIC, "sum", "()I", 1, summed)]
    write(pool, "Item", fields, methods)


def half_of(pool):
    """Half of an int, or Odd."""
    odd_, own = pool.named("Odd"), pool.method("Odd", "<init>", "()V")
    halved = ["iload_0", "iconst_2", "irem", ("ifeq", 8), ("new", odd_), "dup"]
    halved += [("invokespecial", own), "athrow", "iload_0", "iconst_2", "idiv", "ireturn"]
    return method(pool, PUBLIC_STATIC, "half", "(I)I", 1, halved)


def stock():
    pool = Pool()
    next_, show = pool.method("Stock", "next", "()I"), pool.method("Stock", "show", "(I)V")
    half, last = pool.method("Stock", "half", "(I)I"), pool.field("Stock", "last", "LItem;")
    made = [("new", pool.named("Item")), "dup"]
    made += [("invokespecial", pool.method("Item", "<init>", "()V")), "astore_1"]
    kept = ["aload_1", "iload_0", ("invokestatic", half), ("putfield", pool.field("Item", "half"))]
    kept += ["aload_1", ("getstatic", last), ("putfield", pool.field("Item", "next", "LItem;"))]
    kept += ["aload_1", ("putstatic", last), ("goto", 0)]
    caught = ["pop", "iconst_m1", ("invokestatic", show), ("goto", 0)]
    behind = 4 + len(made + kept + caught)
    asked = [("invokestatic", next_), "istore_0", "iload_0", ("ifeq", behind)]
    end = [("getstatic", last), ("invokevirtual", pool.method("Item", "sum", "()I"))]
    end += [("invokestatic", show), ("bipush", 100), ("invokestatic", next_), "idiv"]
    end += [("invokestatic", show), "return"]
    first, handler = len(asked + made), len(asked + made + kept)
    handlers = [(first, handler, handler, pool.named("Odd"))]
    lines = [*asked, *made, *kept, *caught, *end]
    main = method(pool, PUBLIC_STATIC, "main", "()V", 2, lines, handlers)
    fields = [field(pool, PUBLIC_STATIC, "last", "LItem;")]
    channels = [channel(pool, "next", "()I"), channel(pool, "show", "(I)V")]
    write(pool, "Stock", fields, [*channels, half_of(pool), main])


odd()
item()
stock()
