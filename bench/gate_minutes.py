#!/usr/bin/env python3
"""Runs the gate (`rt ci`) and tells how many processor minutes each crate took.

Run it at the top of the repository, with nothing beside it. What an earlier run on this machine
passed is not proved again, and so counts nothing: `--anew` proves all from nothing. The log of the
gate is the file `gate.log` in a new folder that is named first.

A crate's minutes are those of its proof, of the proof of its tests, of the check that its must-fail
edits begin with, and of the edits. Lines are those of its files .rt and .antt.
"""

import collections
import os
import pathlib
import subprocess
import sys
import tempfile
import time

TICKS = os.sysconf("SC_CLK_TCK")
PAUSE = 0.5
PARTS = ("proof", "tests", "base", "edits")


def part_of(words, folder):
    """Returns which part of a crate's minutes a prover of these words works on."""
    if "--test" in words:
        return "tests"
    if "rt-edit" not in folder:
        return "proof"
    begun_with = words[words.index("--incremental") + 1] if "--incremental" in words else ""
    return "base" if begun_with.endswith("/seed") else "edits"


def prover_at(process, session):
    """Returns the prover of this number, if it is one of the session: its name, and what it took."""
    try:
        words = (process / "cmdline").read_text().split("\0")
        if not words[0].endswith("/rattle") or "--crate-name" not in words:
            return None
        fields = (process / "stat").read_text().rpartition(")")[2].split()
        folder = os.readlink(process / "cwd")
    except (OSError, UnicodeDecodeError):
        return None
    if int(fields[3]) != session:
        return None
    crate = words[words.index("--crate-name") + 1]
    seconds = (int(fields[11]) + int(fields[12])) / TICKS
    return (process.name, fields[19]), (crate, part_of(words, folder), seconds)


def watched(gate):
    """Returns what each prover took that the gate started, once the gate has ended."""
    provers = {}
    while gate.poll() is None:
        for process in pathlib.Path("/proc").glob("[0-9]*"):
            found = prover_at(process, gate.pid)
            if found:
                provers[found[0]] = found[1]
        time.sleep(PAUSE)
    return provers.values()


def lines_of(crate):
    files = [it for end in ("rt", "antt") for it in pathlib.Path("crates", crate).rglob(f"*.{end}")]
    return sum(len(it.read_text().splitlines()) for it in files if "out" not in it.parts)


def main():
    log = pathlib.Path(tempfile.mkdtemp(prefix="gate-"), "gate.log")
    print(log, flush=True)
    with log.open("w") as out:
        words = ["rt", "ci", *sys.argv[1:]]
        gate = subprocess.Popen(words, stdout=out, stderr=out, start_new_session=True)
    minutes = collections.defaultdict(collections.Counter)
    for crate, part, seconds in watched(gate):
        minutes[crate][part] += seconds / 60
    print("crate", *PARTS, "all", "lines", "a 1,000 lines", sep="\t")
    for crate in sorted(minutes, key=lambda it: -minutes[it].total()):
        took, lines = minutes[crate], lines_of(crate)
        figures = [f"{took[part]:.1f}" for part in PARTS] + [f"{took.total():.1f}"]
        print(crate, *figures, lines, f"{1000 * took.total() / max(lines, 1):.1f}", sep="\t")
    print("all", f"{sum(it.total() for it in minutes.values()):.1f}", sep="\t")
    print(log.read_text().splitlines()[-1])
    return gate.returncode


if __name__ == "__main__":
    sys.exit(main())
