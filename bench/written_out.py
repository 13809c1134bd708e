"""Writes out what is inferred for fields, and looks that what comes of it is accepted.

    python3 written_out.py PARAGONC FILE ..

PARAGONC is the path of the built program. For each FILE with a field whose policy is left open, and
for which `--infer` finds policies, each is written in the place of its `?_`, and `--check` has to
accept that. Printed are the files that it refuses, with its answer, and how many were tried. The
status is 1 where one is refused.
"""
import os
import re
import subprocess
import sys
import tempfile

# a comment, a word, or any other sign
TOKEN = re.compile(rb"//[^\n]*|/\*.*?\*/|\w+|[^\w\s]", re.DOTALL)
FIELD = re.compile(rb"field [^ ]+ (.*)")


def left_open(source):
    """Where the `_` of each `?_` stands."""
    tokens = [it for it in TOKEN.finditer(source) if not it[0].startswith((b"//", b"/*"))]
    return [this.start() for last, this in zip(tokens, tokens[1:]) if last[0] + this[0] == b"?_"]


def answer(paragonc, flag, source):
    with tempfile.TemporaryDirectory() as folder:
        with open(os.path.join(folder, "a.par"), "wb") as out:
            out.write(source)
        ran = subprocess.run([paragonc, flag, "a.par"], cwd=folder, stdout=subprocess.PIPE)
        return ran.stdout, ran.returncode


def written_out(source, policies):
    parts, behind = [], 0
    for place, policy in zip(left_open(source), policies, strict=True):
        parts += [source[behind:place], policy]
        behind = place + 1
    return b"".join(parts) + source[behind:]


def tried(paragonc, files):
    """How many sources were written out, and those of them that are refused."""
    number, refused = 0, []
    for file in files:
        with open(file, "rb") as given:
            source = given.read()
        told, status = answer(paragonc, "--infer", source)
        policies = FIELD.findall(told)
        if status != 0 or not policies:
            continue
        number += 1
        checked = answer(paragonc, "--check", written_out(source, policies))
        if checked != (b"accepted\n", 0):
            refused.append((file, checked))
    return number, refused


if __name__ == "__main__":
    number, refused = tried(os.path.abspath(sys.argv[1]), sys.argv[2:])
    for file, (told, status) in refused:
        print(file, told.decode().strip(), status)
    print(f"{number} written out, {len(refused)} refused")
    sys.exit(1 if refused else 0)
