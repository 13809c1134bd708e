"""Sources that are made to take as much time or memory as their bytes allow; hostile.py times them.

Each function takes the number of bytes and gives a source of so many: methods of at most 2,000
nodes, four to a class, as far as they fit, and a comment. `SOURCES` has them under their names,
each with the flags of paragonc that it is made for.
"""
import itertools
from functools import partial

import inferred
import reading
import verdicts
from verdicts import LOCKS, OPENED, SHUT

CLASSES, METHODS, NODES = 128, 4, 2000


def padded(source, most):
    """The source with a comment up to so many bytes."""
    assert len(source) + 4 <= most, (len(source), most)
    return source + "/*" + "-" * (most - len(source) - 4) + "*/"


def methods(front, effects, body, most, before=0):
    """Methods of one body behind what stands in front, which declares so many classes."""
    made, method = [front], 0
    size = len(front)
    while method < METHODS * (CLASSES - before):
        ends = method % METHODS == 0 and method > 0
        text = "}" if ends else ""
        if method % METHODS == 0:
            text += f"class M{method // METHODS}{{"
        text += f"static void m{method % METHODS}(){effects}{{{body}}}"
        if size + len(text) + 5 > most:
            break
        made.append(text)
        size += len(text)
        method += 1
    assert method > 0, most
    return padded("".join(made) + "}", most)


def pieces(piece, nodes, used=1):
    """As many copies as a method has nodes for, beside those that are used."""
    return piece * ((NODES - used) // nodes)


def declared(number):
    return "".join(f"int x{n}=0;" for n in range(number))


def copies(number):
    """Each local copied to the next, the last first, so that a value moves on by one a round."""
    return "".join(f"x{n + 1}=x{n};" for n in reversed(range(number - 1)))


def exceptions(number):
    return "".join(f"class E{n} extends Exception{{}}" for n in range(number))


def thrown(number, policy):
    return "".join(f" throws E{n} {policy}" for n in range(number))


MAIN = "static void main(){}"


# What is read and named.


def comment(most):
    return padded(f"class A{{{MAIN}}}", most)


def long_names(most):
    """Fields whose names have 64 letters and differ in the last ones."""
    made, field = [f"class A{{{MAIN}"], 0
    size = len(made[0])
    while True:
        text = f"}}class B{field // 256}{{" if field % 256 == 0 else ""
        text += f"static int {'n' * 59}{field % 256:05};"
        if size + len(text) + 5 > most:
            return padded("".join(made) + "}", most)
        made.append(text)
        size += len(text)
        field += 1


def last_member(most):
    """Calls of the last of 127 methods, whose names differ in the last letters."""
    names = [f"{'n' * 30}{n:03}" for n in range(127)]
    front = f"class A{{{MAIN}" + "".join(f"static void {name}(){{}}" for name in names) + "}"
    return methods(front, "", pieces(f"A.{names[-1]}();", 3), most, before=1)


def members_of_members(most):
    """Members of members, each of which may be missing."""
    front = f"class A{{A b;static A a;{MAIN}}}"
    effects = " throws NullPointerException bottom"
    return methods(front, effects, pieces("A.a=A.a" + ".b" * 58 + ";", 63), most, before=1)


def arguments(most):
    """Calls with sixteen arguments."""
    taken = ",".join(f"int x{n}" for n in range(16))
    front = f"class A{{static void t({taken}){{}}{MAIN}}}"
    return methods(front, "", pieces("A.t(" + ",".join("1" * 16) + ");", 19), most, before=1)


# Policies.


def wide(number, clauses=30):
    """A policy of so many clauses of 16 locks that all these policies have, and one of its own."""
    common = [OPENED[4 * n : 4 * n + 16] for n in range(clauses)]
    own = OPENED[150:164] + [SHUT[number]]
    return "{" + ";".join("a:" + ",".join(clause) for clause in common + [own]) + "}"


def widest():
    """An actor, all locks and two policies that can be met, and joined within the limits."""
    front = "actor a;" + "".join(f"lock {lock};" for lock in LOCKS)
    return front + f"policy P={wide(0)};policy Q={wide(1)};"


def one_join(most):
    """One policy that is joined with itself over and over."""
    front = widest() + f"class A{{{MAIN}}}policy R=P"
    return padded(front + "*P" * ((most - len(front) - 5) // 2) + ";", most)


def joined_over(front, most):
    """Policies that are each the join of P and Q."""
    made, size = [front], len(front)
    while True:
        text = f"policy R{len(made)}=P*Q;"
        if size + len(text) + 4 > most:
            return padded("".join(made), most)
        made.append(text)
        size += len(text)


def many_joins(most):
    """Two policies, none of which is below the other, joined over and over."""
    return joined_over(widest() + f"class A{{{MAIN}}}", most)


def late(own, others):
    """A policy of 31 clauses of 15 locks, one of them of its own, and of one of two locks more that
    each clause of the join of two such policies has."""
    common = LOCKS[200:213]
    clauses = [[lock, *common, own] for lock in others] + [[*common, *LOCKS[254:]]]
    return "{" + ";".join("a:" + ",".join(clause) for clause in clauses) + "}"


def late_joins(most):
    """Two policies joined over and over, of whose joined clauses the last one covers all."""
    front = "actor a;" + "".join(f"lock {lock};" for lock in LOCKS)
    front += f"policy P={late(LOCKS[254], LOCKS[2:33])};policy Q={late(LOCKS[255], LOCKS[40:71])};"
    return joined_over(front + f"class A{{{MAIN}}}", most)


def single_locks(locks):
    """A policy of a clause of one lock for each of these."""
    return "{" + ";".join(f"a:{lock}" for lock in locks) + "}"


def wide_joins(most):
    """Two policies joined over and over, of whose joined clauses none covers another."""
    front = "actor a;" + "".join(f"lock {lock};" for lock in LOCKS)
    front += f"policy P={single_locks(LOCKS[:31])};policy Q={single_locks(LOCKS[40:71])};"
    return joined_over(front + f"class A{{{MAIN}}}", most)


def field_joins(most, written=""):
    """The policies of `late_joins`, joined for one field after another, with what is written."""
    front = "actor a;" + "".join(f"lock {lock};" for lock in LOCKS)
    front += f"policy P={late(LOCKS[254], LOCKS[2:33])};policy Q={late(LOCKS[255], LOCKS[40:71])};"
    made, field = [front + f"class A{{{MAIN}"], 0
    size = len(made[0])
    while True:
        text = f"}}class B{field // 256}{{" if field % 256 == 0 else ""
        text += f"?P*Q{written} int f{field % 256};"
        if size + len(text) + 5 > most:
            return padded("".join(made) + "}", most)
        made.append(text)
        size += len(text)
        field += 1


def ordered_joins(most, written=""):
    """Fifteen policies that are all joined, in ever new orders, with what is written; 32 clauses
    stay at each step."""
    made = ["actor a;" + "".join(f"lock {lock};" for lock in LOCKS) + f"class A{{{MAIN}}}"]
    names = "BCDEFGHIJKLMNOP"
    for name, own in zip(names, LOCKS[40:]):
        clauses = ";".join(f"a:{lock},{own}" for lock in LOCKS[:32])
        made.append(f"policy {name}={{{clauses}}};")
    size = len("".join(made))
    for order in itertools.permutations(names):
        text = f"policy R{len(made)}={'*'.join(order)}{written};"
        if size + len(text) + 4 > most:
            break
        made.append(text)
        size += len(text)
    return padded("".join(made), most)


def births(most):
    """Classes whose birth policies are the meets of those of their fields."""
    made = [widest() + f"class A{{{MAIN}}}"]
    size = len(made[0])
    for number in range(CLASSES - 1):
        fields, room = [], min(most - size - 30, (most - len(made[0])) // (CLASSES - 1) - 30)
        while len(fields) < 256 and room > 12:
            fields.append(f"?{'PQ'[len(fields) % 2]} int f{len(fields)};")
            room -= len(fields[-1])
        made.append(f"class B{number}{{{''.join(fields)}}}")
        size += len(made[-1])
    return padded("".join(made), most)


# Facts and checks.


def handed_on(most):
    """Two hundred locals that hand on their values in a loop."""
    front = f"actor a;class A{{?{{a:}} input int k();{MAIN}}}"
    body = declared(200) + "while(x0<1){" + copies(200) * 2 + "x0=A.k();}"
    return methods(front, "", body, most, before=1)


def nested_loops(most):
    """The same in sixty loops that stand in each other."""
    front = f"actor a;class A{{?{{a:}} input int k();{MAIN}}}"
    body = declared(200) + "while(x0<1){" * 60 + copies(200) * 2 + "x0=A.k();" + "}" * 60
    return methods(front, "", body, most, before=1)


def throwing_loops(most):
    """Locals that hand on their values in a loop, and calls there that throw 118 classes."""
    front = f"actor a;policy P={{a:}};{exceptions(118)}class A{{?P input int k();{MAIN}"
    front += f"static void t()!P{thrown(118, 'P')}{{}}}}"
    body = declared(200) + "while(x0<1){" + copies(200) + "x0=A.k();" + "A.t();" * 320 + "}"
    return methods(front, thrown(118, "P"), body, most, before=119)


def throwing_operands(most):
    """Sums of calls that throw 94 classes."""
    front = f"{exceptions(94)}class A{{{MAIN}static int t(){thrown(94, 'bottom')}{{return 1;}}}}"
    body = "int x=0;" + pieces("x=" + "A.t()+" * 20 + "1;", 63, 3)
    return methods(front, thrown(94, "bottom"), body, most, before=95)


def handlers(most):
    """Handlers that stand sixty deep in each other, with 200 locals."""
    front = f"{exceptions(60)}class A{{{MAIN}static void t(){thrown(60, 'bottom')}{{}}}}"
    body = declared(200) + "try{" * 60 + "A.t();" + pieces("x0=x1;", 3, 850)
    body += "".join(f"}}catch(E{n} e){{x{n}=1;}}" for n in range(60))
    return methods(front, "", body, most, before=61)


def asked_locks(most):
    """Locks that are asked for sixty deep, with 200 locals."""
    front = "actor a;" + "".join(f"lock {lock} ?bottom;" for lock in LOCKS)
    front += f"class A{{{MAIN}}}"
    body = declared(200) + "".join(f"when({lock}){{" for lock in LOCKS[:60])
    body += pieces("x0=x1;", 3, 700) + "}" * 60
    return methods(front, "", body, most, before=1)


def wide_values(most):
    """One value that joins 142 inputs of the widest policies, written over and over."""
    inputs, writes = (number * most // verdicts.MOST_BYTES for number in (142, 480))
    return padded(verdicts.joined(inputs, ["Q"], ["f0=x;"] * writes), most)


def between_locks(most):
    """A value that joins 250 inputs of as many policies, written between locks."""
    front = "actor a;" + "".join(f"lock {lock};" for lock in LOCKS) + "class A{"
    for number in range(250):
        shut = [OPENED[(number + 3 * n) % 180 :][:15] + [SHUT[n]] for n in range(6)]
        clauses = shut + [OPENED[number % 184 : number % 184 + 16]]
        policy = ";".join("a:" + ",".join(clause) for clause in clauses)
        front += f"?{{{policy}}} input int k{number}();"
    front += f"?{{a:}} static int f;{MAIN}}}"
    moved = OPENED[200:]
    body = "int x=0;" + "".join(f"open {lock};" for lock in OPENED)
    for first in range(0, 250, 20):
        body += "x=x" + "".join(f"+A.k{n}()" for n in range(first, min(first + 20, 250))) + ";"
    turns = [f"close {moved[n % 24]};A.f=x;open {moved[n * 7 % 24]};" for n in range(160)]
    return methods(front, "".join(f" -{lock}" for lock in moved), body + "".join(turns), most, 1)


# Releases and inferred fields.


def releases(most):
    """Writes of which each is a release."""
    front = "actor a,b;lock L;class A{?{a:;b:L} input int k();?{a:;b:} static int f;" + MAIN + "}"
    return methods(front, "", "open L;" + pieces("A.f=A.k();", 5, 2), most, before=1)


def chain(most):
    return inferred.source(False, most)


def cycle(most):
    return inferred.source(True, most)


# Sources that are compiled.


def much_code(most):
    """Methods of 2,000 nodes with 200 locals."""
    return padded(verdicts.locals_(most - 4), most)


def much_text(most):
    return padded(verdicts.methods(most - 4), most)


def many_classes(most):
    return padded(verdicts.classes(most - 4), most)


def branches(most):
    """Branches in sums, at each of which a frame stands."""
    body = declared(200) + pieces("x0=x1;if(x1<x2&&x3<x4||x5<x6){x7=1;}", 19, 401)
    return methods(f"class A{{{MAIN}}}", "", body, most, before=1)


def framed_calls(most):
    """Arguments that branch, so that frames list operands, behind a block of 200 locals."""
    front = f"class A{{static void t(int x,boolean y){{}}{MAIN}}}"
    piece = "A.t(1," + "!" * 60 + "true);"
    body = pieces(piece, 64, 420) + "{" + declared(200) + "}"
    return methods(front, "", body, most, before=1)


CHECK = ["--check"]

# A row's name, the flags and the source. What is read but breaks a rule on names is read whole.
SOURCES = {
    "one comment": (CHECK, comment),
    "blocks nested 63 deep": (CHECK, reading.nested),
    "sums of 61 terms": (CHECK, reading.long_sums),
    "chains of 61 else": (CHECK, reading.chains),
    "fields with names of 64 letters": (CHECK, long_names),
    "calls of the last of 127 methods": (CHECK, last_member),
    "members of members": (CHECK, members_of_members),
    "calls with 16 arguments": (CHECK, arguments),
    "one policy joined with itself": (CHECK, one_join),
    "two policies joined over and over": (CHECK, many_joins),
    "two whose last joined clause covers all": (CHECK, late_joins),
    "the same, for fields": (CHECK, field_joins),
    "for fields, with a written term": (CHECK, partial(field_joins, written="*{a:}")),
    "two whose joined clauses are 961": (CHECK, wide_joins),
    "15 policies joined in many orders": (CHECK, ordered_joins),
    "15 policies joined with a written term": (CHECK, partial(ordered_joins, written="*{a:}")),
    "birth policies": (CHECK, births),
    "200 locals handed on in a loop": (CHECK, handed_on),
    "the same in 60 nested loops": (CHECK, nested_loops),
    "the same with calls that throw 118 classes": (CHECK, throwing_loops),
    "sums of calls that throw 94 classes": (CHECK, throwing_operands),
    "handlers 60 deep, 200 locals": (CHECK, handlers),
    "`when` 60 deep, 200 locals": (CHECK, asked_locks),
    "a value of 142 policies written over and over": (CHECK, wide_values),
    "a value of 250 policies written between locks": (CHECK, between_locks),
    "releases of one secret": (["--audit", "b"], releases),
    "releases of a value of 142 policies": (["--audit", "a"], wide_values),
    "254 inferred fields in a chain": (["--infer"], chain),
    "254 inferred fields in a cycle": (["--infer"], cycle),
    "128 classes, compiled": ([], many_classes),
    "methods of 2,000 nodes, compiled": ([], much_text),
    "methods of 2,000 nodes and 200 locals, compiled": ([], much_code),
    "branches and 200 locals, compiled": ([], branches),
    "arguments that branch and 200 locals, compiled": ([], framed_calls),
    "60 nested loops of 200 locals, compiled": ([], nested_loops),
}
