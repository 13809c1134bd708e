"""Makes random programs that `paragonc` accepts, for the scripts beside it.

A program has all forms of the language: objects and chains of fields, static fields, channels,
methods that call each other and themselves, loops with early exits, exceptions that are thrown and
caught across calls, and locks that are opened, closed, asked for, expected and promised. What is
known of a value and of the context is followed loosely, and a part of the statements is drawn
without a look at it; what does not fit is found by `paragonc --check` alone. A line that it refuses
is drawn anew or gives way, until the program is accepted.
"""
import os
import subprocess

BUILT_IN = ["ArithmeticException", "NullPointerException"]
PLAIN = {"int": "0", "boolean": "false"}
OPERATORS = "+ - * & | ^ << >> >>> / %".split()
NUMBERS = [0, 1, 2, 3, -1, 5, 31, 70000, 2147483647, -2147483648]
TURNS = 2
CARELESS = [0.05, 0.3, 0.6]
TOP = frozenset()


def join(one, other):
    """Policies are sets of clauses, each of an actor and its locks."""
    return frozenset((a, p | q) for a, p in one for b, q in other if a == b)


def below(one, other):
    return all(any(a == b and p <= q for a, p in one) for b, q in other)


def sees(policy, actor, locks):
    return any(own == actor and needed <= locks for own, needed in policy)


class Part:
    """A line, and the statements in its braces if it opens some.

    Where the line is refused, it is drawn anew a few times; then `plain` stands in its place.
    """

    def __init__(self, text, plain=None, inside=None, anew=None):
        self.text, self.plain, self.inside, self.anew = text, plain, inside, anew
        self.turns = TURNS if anew else 0


class Scope:
    """What a statement may name, and about what is known of its spot.

    A local is a list of its name, its kind and its policy. The fuel is the first argument of calls.
    """

    def __init__(self, method, local, fuel, context, loops=0):
        self.method, self.local, self.fuel, self.context = method, list(local), fuel, context
        self.opened, self.loops, self.is_left = set(), loops, False

    def inner(self, policy, fuel=None, loops=0):
        context = join(self.context, policy)
        made = Scope(self.method, self.local, fuel or self.fuel, context, self.loops + loops)
        made.opened = set(self.opened)
        return made

    def leave(self, inside):
        """Behind a block that may leave what is around it, its context counts."""
        if inside.is_left:
            self.is_left, self.context = True, inside.context


class Method:
    def __init__(self, owner, name, static, result, params):
        self.owner, self.name, self.static, self.result = owner, name, static, result
        self.params, self.effect, self.given = params, None, None
        self.throws, self.locks, self.body = {}, set(), []


class Class:
    def __init__(self, name):
        self.name, self.birth = name, None
        self.static, self.own, self.inputs, self.outputs, self.methods = {}, {}, {}, {}, []


class Program:
    def __init__(self, rng, tag=""):
        self.rng, self.names, self.careless = rng, 0, rng.choice(CARELESS)
        self.actors = ["alice", "bob", "carol"][: rng.randint(1, 3)]
        self.bottom = "bottom", frozenset((actor, frozenset()) for actor in self.actors)
        self.make_locks()
        self.make_policies()
        self.thrown = [f"E{tag}_{n}" for n in range(rng.randint(1, 2))] + BUILT_IN
        self.classes = [Class(f"C{tag}_{n}") for n in range(rng.randint(1, 2))]
        self.make_members()
        for kind in self.classes:
            for method in kind.methods:
                self.fill(method)
        self.careless = 0.0

    def chance(self, part):
        return self.rng.random() < part

    # Locks and policies. A policy is its text and its clauses

    def make_locks(self):
        self.locks = ["K", "L", "M"][: self.rng.randint(1, 3)]
        self.lock_lines = [[name, None] for name in self.locks]
        if self.chance(0.4):
            self.locks += [f"Owns({actor})" for actor in self.actors]
            self.lock_lines.append(["Owns(actor)", None])
        if self.chance(0.2):
            self.locks += [f"Both({one},{other})" for one in self.actors for other in self.actors]
            self.lock_lines.append(["Both(actor, actor)", None])

    def written_out(self):
        clauses = set()
        for actor in self.actors:
            for _ in range(self.rng.choice([0, 1, 1, 1, 1, 2])):
                many = min(len(self.locks), self.rng.choice([0, 0, 1, 1, 2]))
                clauses.add((actor, frozenset(self.rng.sample(self.locks, many))))
        listed = sorted((actor, ", ".join(sorted(locks))) for actor, locks in clauses)
        text = "; ".join(f"{actor}: {locks}" for actor, locks in listed)
        return "{" + text + "}", frozenset(clauses)

    def make_policies(self):
        self.pool = [self.written_out() for _ in range(self.rng.randint(2, 3))]
        self.named = [(f"P{n}", *self.written_out()) for n in range(self.rng.randint(0, 2))]
        self.pool += [(name, clauses) for name, _, clauses in self.named]
        self.pool += [self.bottom, self.bottom, ("top", TOP)]
        for line in self.lock_lines:
            if self.chance(0.6):
                line[1] = self.policy(0.3)

    def policy(self, low=0.0):
        if self.chance(low):
            return self.bottom
        one = self.rng.choice(self.pool)
        return self.raised(one) if self.chance(0.1) else one

    def raised(self, policy):
        if self.chance(0.1):
            return "top", TOP
        other = self.rng.choice(self.pool)
        return f"{policy[0]} * {other[0]}", join(policy[1], other[1])

    # Members

    def kind(self):
        return self.rng.choice(["int"] * 5 + ["boolean", self.rng.choice(self.classes).name])

    def make_members(self):
        some = self.rng.randint
        for kind in self.classes:
            kind.static = {f"s{n}": (self.kind(), self.policy(0.2)) for n in range(some(1, 3))}
            kind.own = {f"f{n}": (self.kind(), self.policy(0.2)) for n in range(some(0, 3))}
            kind.inputs = {f"in{n}": self.policy() for n in range(some(0, 2))}
            kind.outputs = {f"out{n}": self.policy(0.3) for n in range(some(0, 2))}
            if self.chance(0.5):
                kind.birth = self.policy(0.7)
            kind.methods = [self.method(kind, f"m{n}") for n in range(some(0, 2))]
        first = self.classes[0]
        first.inputs.update(secret=self.rng.choice(self.pool[:2]), other=self.policy())
        first.outputs.update(show=self.bottom, tell=self.pool[0], keep=self.pool[1])
        first.methods.append(Method(first, "main", True, "void", []))

    def method(self, owner, name):
        params = [("n", "int", self.bottom)]
        params += [(f"p{n}", self.kind(), self.policy(0.3)) for n in range(self.rng.randint(0, 2))]
        result = self.kind() if self.chance(0.5) else "void"
        made = Method(owner, name, self.chance(0.5), result, params)
        made.given = self.policy()
        if self.chance(0.4):
            made.effect = self.policy(0.3)
        made.throws = {it: self.policy(0.5) for it in self.thrown if self.chance(0.1)}
        made.locks = {sign + self.rng.choice(self.locks) for sign in "~+-" if self.chance(0.2)}
        return made

    def of_class(self, name):
        return next(kind for kind in self.classes if kind.name == name)

    def birth(self, kind):
        if kind.birth or not kind.own:
            return (kind.birth or self.bottom)[1]
        return frozenset().union(*(policy[1] for _, policy in kind.own.values()))

    # Values. Each is a text and about its policy

    def statics(self):
        return [
            (f"{c.name}.{name}", kind, policy[1])
            for c in self.classes
            for name, (kind, policy) in c.static.items()
        ]

    def objects(self, scope):
        """Texts of objects, each with its class and policy: seldom of those that may be null."""
        found = [it for it in [*scope.local, *self.statics()] if it[1] not in PLAIN]
        found = [it for it in found if it[0][0] == "o" or self.chance(0.05)]
        if not scope.method.static:
            found.append(("this", scope.method.owner.name, self.bottom[1]))
        for text, name, policy in list(found):
            for field, (its, own) in self.of_class(name).own.items():
                if its not in PLAIN and self.chance(0.1):
                    found.append((f"{text}.{field}", its, join(policy, own[1])))
        return found

    def places(self, scope, kind=None):
        """Fields and locals that can be read and set."""
        found = [it for it in scope.local if it[0] != "n"] + self.statics()
        for text, name, policy in self.objects(scope):
            for field, (its, own) in self.of_class(name).own.items():
                found.append((f"{text}.{field}", its, join(policy, own[1])))
        return [it for it in found if kind in (None, it[1])]

    def call(self, scope, result):
        """A call of a method with this result, or nothing."""
        found = [m for c in self.classes for m in c.methods if m.result == result and m.params]
        if not scope.fuel or not found:
            return None
        method = self.rng.choice(found)
        before, policy = method.owner.name, self.bottom[1]
        if not method.static:
            fit = [it for it in self.objects(scope) if it[1] == before]
            if not fit:
                return None
            before, _, policy = self.rng.choice(fit)
        told = join(scope.context, policy)
        if not below(told, (method.effect or self.bottom)[1]) and not self.chance(self.careless):
            return None
        given = [self.fitting(scope, kind, most[1], -1) for _, kind, most in method.params[1:]]
        text = f"{before}.{method.name}({', '.join([scope.fuel, *(it[0] for it in given)])})"
        return text, join(policy, method.given[1])

    def leaf(self, scope, kind):
        found = [(text, policy) for text, _, policy in self.places(scope, kind)]
        none = self.bottom[1]
        if kind == "int":
            told = [(c.name, *it) for c in self.classes for it in c.inputs.items()]
            told = [(own, name, its[1]) for own, name, its in told if self.is_told(scope, its[1])]
            found += [(f"{own}.{name}()", policy) for own, name, policy in told] * 2
            found += [(str(self.rng.choice(NUMBERS)), none) for _ in range(2)]
            found += [(text, policy) for text, its, policy in scope.local if its == kind] * 2
        elif kind == "boolean":
            number = self.leaf(scope, "int")
            found.append((f"{number[0]} > {self.rng.randint(0, 2)}", number[1]))
        else:
            found += [("null", none), (f"new {kind}()", self.birth(self.of_class(kind)))]
            found += [(text, policy) for text, its, policy in self.objects(scope) if its == kind]
        return self.rng.choice(found)

    def both(self, scope, kind, operator, deep):
        one, other = (self.value(scope, kind, deep - 1) for _ in range(2))
        if operator in "/%" and self.chance(0.8):
            other = "3", self.bottom[1]
        return f"({one[0]} {operator} {other[0]})", join(one[1], other[1])

    def value(self, scope, kind, deep=2):
        if deep <= 0 or self.chance(0.7 if kind == "boolean" else 0.4):
            called = self.call(scope, kind) if deep >= 0 and self.chance(0.3) else None
            return called or self.leaf(scope, kind)
        if kind == "int":
            text, policy = self.both(scope, "int", self.rng.choice(OPERATORS), deep)
            return (f"-{text}" if self.chance(0.1) else text), policy
        if kind == "boolean":
            if self.chance(0.3):
                text, policy = self.both(scope, "boolean", self.rng.choice(["&&", "||"]), deep)
                return (f"!{text}" if self.chance(0.3) else text), policy
            of = self.rng.choice(["int"] * 7 + [self.rng.choice(self.classes).name])
            signs = ["==", "!="] + ["<", "<=", ">", ">="] * (of == "int")
            return self.both(scope, of, self.rng.choice(signs), deep)
        return self.leaf(scope, kind)

    def fitting(self, scope, kind, most, deep=2):
        """A value that is about at most this restrictive, if one is drawn soon."""
        is_careless = self.chance(self.careless)
        for _ in range(8):
            made = self.value(scope, kind, deep)
            if is_careless or below(made[1], most):
                break
        return made

    def shown(self, scope, kind, target):
        """A value for a field or an output of this policy, at the locks that are open."""
        is_careless = self.chance(self.careless)
        for _ in range(8):
            text, policy = self.value(scope, kind)
            special = frozenset((actor, locks - scope.opened) for actor, locks in policy)
            if is_careless or below(special, target):
                break
        return text

    # Statements, each a list of parts

    def fresh(self, letter="x"):
        self.names += 1
        return f"{letter}{self.names}"

    def declared(self, scope):
        kind, name = self.kind(), self.fresh()
        if kind not in PLAIN and self.chance(0.6):
            return self.made(scope, kind)
        said = self.policy() if self.chance(0.1) else None
        text, policy = self.fitting(scope, kind, said[1] if said else TOP)
        scope.local.append([name, kind, join(policy, scope.context)])
        plain = f"{kind} {name} = {PLAIN.get(kind, 'null')};"
        return [Part(f"{f'?{said[0]} ' if said else ''}{kind} {name} = {text};", plain)]

    def taken(self, scope):
        """Locals with what inputs give."""
        for owner in self.classes:
            for name, policy in owner.inputs.items():
                if self.chance(0.6):
                    scope.local.append([self.fresh(), "int", policy[1]])
                    yield [Part(f"int {scope.local[-1][0]} = {owner.name}.{name}();")]

    def made(self, scope, kind):
        """A local that is never null."""
        name = self.fresh("o")
        scope.local.append([name, kind, self.birth(self.of_class(kind))])
        return [Part(f"notnull {kind} {name} = new {kind}();")]

    def is_told(self, scope, target):
        """Whether who sees this may learn about that control came here."""
        effect = (scope.method.effect or self.bottom)[1]
        fits = below(scope.context, target) and below(effect, target)
        return fits or self.chance(self.careless)

    def put(self, scope):
        seen = scope.inner(self.bottom[1])
        every = [(c.name, *it) for c in self.classes for it in c.outputs.items()]
        found = [(f"{owner}.{out}", policy[1]) for owner, out, policy in every]

        def text():
            fit = [it for it in found if self.is_told(seen, it[1])]
            out, policy = self.rng.choice(fit or found)
            return f"{out}({self.shown(seen, 'int', policy)});"

        if not any(self.is_told(seen, policy) for _, policy in found):
            return self.set(scope)
        return [Part(text(), anew=text)]

    def set(self, scope):
        seen = scope.inner(self.bottom[1])

        def text():
            found = self.places(seen)
            local = [it for it in found if isinstance(it, list)]
            field = [it for it in found if not isinstance(it, list) and self.is_told(seen, it[2])]
            place = self.rng.choice(field or local or found)
            if local and self.chance(0.3):
                place = self.rng.choice(local)
                made, policy = self.value(seen, place[1])
                place[2] = join(place[2], join(policy, seen.context))
            else:
                made = self.shown(seen, place[1], place[2])
            return f"{place[0]} = {made};"

        return [Part(text(), anew=text)]

    def called(self, scope):
        made = self.call(scope, self.rng.choice(["void", "void", "int"]))
        return [Part(f"{made[0]};")] if made else self.put(scope)

    def chosen(self, scope, deep):
        test, policy = self.value(scope, "boolean")
        parts = [Part(f"if ({test}) {{", "if (0 < 1) {")]
        while self.chance(0.2):
            test, other = self.value(scope, "boolean", 1)
            policy = join(policy, other)
            parts.append(Part(f"}} else if ({test}) {{", "} else if (1 < 0) {"))
        if self.chance(0.4):
            parts.append(Part("} else {"))
        return self.filled(parts, scope, policy, deep)

    def asked(self, scope, deep):
        lock = self.rng.choice(self.locks)
        line = next(it for it in self.lock_lines if it[0].split("(")[0] == lock.split("(")[0])
        parts = [Part(f"when ({lock}) {{"), Part("} else {")][: self.rng.randint(1, 2)]
        return self.filled(parts, scope, line[1][1] if line[1] else TOP, deep)

    def filled(self, parts, scope, policy, deep):
        insides = [scope.inner(policy) for _ in parts]
        for part, inside in zip(parts, insides):
            part.inside = self.block(inside, deep, exits=0.25)
        for inside in insides:
            scope.leave(inside)
        return parts

    def loop(self, scope, deep):
        name, most, policy = self.fresh(), self.rng.randint(1, 3), self.bottom[1]
        count = f"{name} = {name} + 1;"
        first = [[Part(count, count)]]
        if self.chance(0.3):
            head, plain = "while (true) {", None
            first.append([Part(f"if ({name} > {most}) {{", None, [[Part("break;")]])])
        else:
            head = plain = f"while ({name} < {most}) {{"
            if self.chance(0.6):
                test, policy = self.value(scope, "boolean", 1)
                head = f"while ({name} < {most} && {test}) {{"
        inside = scope.inner(policy, loops=1)
        body = first + self.block(inside, deep, exits=0.15)
        scope.leave(inside)
        return [[Part(f"int {name} = 0;")], [Part(head, plain, body)]]

    def tried(self, scope, deep):
        parts = [Part("try {")]
        for thrown in self.rng.sample(self.thrown, self.rng.randint(1, len(self.thrown))):
            parts.append(Part(f"}} catch ({thrown} {self.fresh('e')}) {{"))
        return self.filled(parts, scope, self.bottom[1], deep)

    def exit(self, scope):
        scope.is_left = True
        texts = [f"throw new {self.rng.choice(self.thrown)}();"]
        texts += ["break;", "continue;"] * min(2, scope.loops)
        if scope.method.result == "void":
            return [Part(self.rng.choice([*texts, "return;"]))]
        return self.returned(scope) if self.chance(0.5) else [Part(self.rng.choice(texts))]

    def returned(self, scope):
        kind = scope.method.result
        made = self.fitting(scope, kind, scope.method.given[1])[0]
        return [Part(f"return {made};", f"return {PLAIN.get(kind, 'null')};")]

    def locking(self, scope):
        lock, line = self.rng.choice(self.locks), self.rng.choice(["open", "open", "close"])
        (scope.opened.add if line == "open" else scope.opened.discard)(lock)
        return [Part(f"{line} {lock};")]

    def statements(self, scope, deep):
        turn = self.rng.random() if deep > 0 else 0.35 + self.rng.random() * 0.65
        if turn < 0.15:
            return [self.chosen(scope, deep - 1)]
        if turn < 0.20:
            return [self.asked(scope, deep - 1)]
        if turn < 0.22:
            return [self.filled([Part("{")], scope, self.bottom[1], deep - 1)]
        if turn < 0.35:
            return self.loop(scope, deep - 1) if turn < 0.27 else [self.tried(scope, deep - 1)]
        if turn < 0.46:
            return [self.locking(scope)]
        if turn < 0.55:
            return [self.declared(scope)]
        if turn < 0.72:
            return [self.put(scope)]
        return [self.set(scope)] if turn < 0.88 else [self.called(scope)]

    def block(self, scope, deep, exits=0.0):
        made = []
        for _ in range(self.rng.randint(1, 3)):
            made += self.statements(scope, deep)
        return made + [self.exit(scope)] * self.chance(exits)

    def fill(self, method):
        local = [[name, kind, policy[1]] for name, kind, policy in method.params]
        scope = Scope(method, local, None, self.bottom[1])
        if method.params:
            method.body = self.block(scope, 2)
            if self.chance(0.6):
                inside = self.block(scope.inner(self.bottom[1], "n - 1"), 1, 0.2)
                method.body.append([Part("if (n > 0) {", None, inside)])
        else:
            scope.fuel = "2"
            method.body = [self.made(scope, kind.name) for kind in self.classes]
            method.body += self.taken(scope)
            for _ in range(3):
                method.body += [*self.block(scope, 2), self.called(scope)]
            method.body += [self.put(scope), self.set(scope)]
            method.body += [[Part(f"{method.owner.name}.show({last});")] for last in (8, 9)]
        if method.result != "void":
            method.body.append(self.returned(scope))

    # Text

    def lines(self):
        """Lines, each with what gives way where it is refused."""
        yield f"actor {', '.join(self.actors)};", None
        for name, said, _ in self.named:
            yield f"policy {name} = {said};", None
        for line in self.lock_lines:
            yield f"lock {line[0]}" + (f" ?{line[1][0]};" if line[1] else ";"), None
        for name in self.thrown[: -len(BUILT_IN)]:
            yield f"class {name} extends Exception {{ }}", None
        for kind in self.classes:
            yield from self.class_lines(kind)

    def class_lines(self, kind):
        yield f"class {kind.name} {f'?{kind.birth[0]} ' if kind.birth else ''}{{", kind
        for name, policy in kind.inputs.items():
            yield f"  ?{policy[0]} input int {name}();", None
        for name, policy in kind.outputs.items():
            yield f"  ?{policy[0]} output void {name}(int v);", None
        for static, fields in (("static ", kind.static), ("", kind.own)):
            for name, (its, policy) in fields.items():
                yield f"  ?{policy[0]} {static}{its} {name};", None
        for method in kind.methods:
            yield self.head(method), method
            yield from self.statement_lines(method.body, "    ")
            yield "  }", None
        yield "}", None

    def head(self, method):
        params = ", ".join(f"?{policy[0]} {kind} {name}" for name, kind, policy in method.params)
        said = f"?{method.given[0]} " if method.result != "void" else ""
        said += "static " if method.static else ""
        text = f"  {said}{method.result} {method.name}({params})"
        if method.effect:
            text += f" !{method.effect[0]}"
        text += "".join(f" {lock}" for lock in sorted(method.locks))
        return text + "".join(f" throws {it} {its[0]}" for it, its in method.throws.items()) + " {"

    def statement_lines(self, made, indent):
        for parts in made:
            for part in parts:
                yield indent + part.text, (made, parts, part)
                if part.inside is not None:
                    yield from self.statement_lines(part.inside, indent + "  ")
            if parts[-1].inside is not None:
                yield indent + "}", None

    def text(self):
        return "".join(text + "\n" for text, _ in self.lines())

    # What gives way where a line is refused

    def mend(self, rule, line):
        blamed = list(self.lines())[line - 1][1]
        if isinstance(blamed, Class):
            blamed.birth = None
        elif isinstance(blamed, Method):
            self.mend_head(rule, blamed)
        else:
            self.mend_statement(rule, *blamed)

    def mend_head(self, rule, method):
        missing = [thrown for thrown in self.thrown if thrown not in method.throws]
        if rule == 203:
            method.body.append([Part(f"return {PLAIN.get(method.result, 'null')};")])
        elif rule == 303:
            method.locks = {lock for lock in method.locks if lock[0] != "+"}
        elif rule == 501 and not method.params:
            method.throws.update((thrown, ("top", TOP)) for thrown in missing)
        elif rule == 501 and method.result == "void" and self.chance(0.6):
            caught = [Part(f"}} catch ({it} {self.fresh('e')}) {{", None, []) for it in missing]
            method.body = [[Part("try {", None, method.body), *caught]]
        elif rule == 501:
            method.throws[self.rng.choice(missing)] = self.policy(0.6)
        else:
            method.throws = {it: self.raised(its) for it, its in method.throws.items()}

    def mend_statement(self, rule, made, parts, part):
        method = next(m for c in self.classes for m in c.methods if within(m.body, made))
        shut = self.shut_by(part.text) - method.locks
        if rule == 302 and shut:
            method.locks |= shut
        elif rule == 406:
            method.given = self.raised(method.given)
        elif part.turns:
            part.turns, part.text = part.turns - 1, part.anew()
        elif part.plain is not None and part.text != part.plain:
            part.text = part.plain
        else:
            made.remove(parts)

    def shut_by(self, text):
        called = [m for c in self.classes for m in c.methods if f".{m.name}(" in text]
        shut = {lock for method in called for lock in method.locks if lock[0] == "-"}
        return shut | ({"-" + text[6:-1]} if text.startswith("close ") else set())

    # Who sees what

    def policy_of(self, event):
        """The policy of an event, as it is printed."""
        word, what = event.split()[:2]
        owner, _, name = what.partition(".")
        kind = self.of_class(owner.split("#")[0])
        if word == "new":
            return self.birth(kind)
        fields = {"set": kind.static, "put": kind.own}
        return kind.outputs[name][1] if word == "out" else fields[word][name][1][1]

    def channels(self):
        """The inputs with their policies."""
        return {f"{c.name}.{name}": it[1] for c in self.classes for name, it in c.inputs.items()}


def within(body, made):
    """Whether a list of statements is this body or stands somewhere in it."""
    return body is made or any(
        within(part.inside, made) for parts in body for part in parts if part.inside is not None
    )


def said(words, folder):
    """The lines that a program prints."""
    ran = subprocess.run(words, cwd=folder, capture_output=True, text=True, check=False)
    return ran.stdout.splitlines() or [f"status {ran.returncode} {ran.stderr}"]


def accepted(paragonc, rng, folder, tag=""):
    """A random program that is accepted, as the file `random.par` of the folder."""
    program = Program(rng, tag)
    while True:
        with open(os.path.join(folder, "random.par"), "w") as out:
            out.write(program.text())
        words = said([paragonc, "--check", "random.par"], folder)[0].split()
        if words == ["accepted"]:
            return program
        if words[0] != "refused":
            raise SystemExit(f"{' '.join(words)}:\n{program.text()}")
        program.mend(int(words[1]), int(words[3].split(":")[0]))


def drawn(rng, channels):
    """Random lists of numbers for inputs."""
    return {it: [rng.randint(-2, 5) for _ in range(rng.randint(1, 4))] for it in channels}


def put_inputs(lists, path):
    with open(path, "w") as out:
        for channel, numbers in lists.items():
            out.write(f"{channel}:{''.join(f' {number}' for number in numbers)}\n")
