"""Shows where a program releases something to an actor.

    python3 tools/why.py PARAGONC ACTOR FILE

PARAGONC is the path of the built program. FILE is printed with the number of each line. Under a
line with a release, which `paragonc --audit ACTOR FILE` tells, stand a caret and what it is. Lines
that open, close, ask for or expect a lock have a `*`. It is an aid for people, and proves nothing.
"""
import re
import subprocess
import sys

from explain import pointed

RELEASES = {
    "401": "a static field takes",
    "402": "a field of an object takes",
    "403": "an output shows",
}
LOCKS = re.compile(rb"\b(open|close|when)\b|~")


def audited(paragonc, actor, path):
    """The releases by line, and the last line that was said."""
    words = [paragonc, "--audit", actor, path]
    lines = subprocess.run(words, capture_output=True, text=True, check=False).stdout.splitlines()
    found = {}
    for line in lines[:-1]:
        _, rule, _, place = line.split()
        at, column = (int(number) for number in place.split(":"))
        found.setdefault(at, []).append((column, rule))
    return found, lines[-1] if lines else "no answer"


def drawn(source, found, actor):
    """The lines of a source with its releases."""
    lines = source.split(b"\n")[: source.count(b"\n") + (not source.endswith(b"\n"))]
    width = len(str(len(lines)))
    for number, line in enumerate(lines, 1):
        mark = "*" if LOCKS.search(line.split(b"//")[0]) else " "
        yield f"{number:>{width}} {mark} {line.decode(errors='replace')}"
        for column, rule in found.get(number, []):
            caret = pointed(source, number, column).splitlines()[1].split("| ", 1)[1]
            told = f"{rule}: {RELEASES[rule]} what {actor} sees by an open lock"
            yield f"{'':>{width}}   {caret} {told}"


if __name__ == "__main__":
    if len(sys.argv) != 4:
        sys.exit(__doc__)
    with open(sys.argv[3], "rb") as file:
        text = file.read()
    releases, ending = audited(*sys.argv[1:])
    if ending.startswith("audited"):
        print("\n".join(drawn(text, releases, sys.argv[2])))
    print(ending)
