#!/usr/bin/env python3
"""Writes the table of lines in docs/ARCHITECTURE.md anew.

Blank lines, comments, imports and the choice of tactics do not count, and in code no clause. The
lines of a crate of calls or rows, and of those in SHARED, which they share, are tests.
"""

import pathlib
import re

ROOT = pathlib.Path(__file__).parent.parent
PAGE = ROOT / "docs" / "ARCHITECTURE.md"
SHARED = ("par_worked", "par_code_runner", "par_typed_sources")
TABLE = re.compile(r"(<!-- lines -->\n).*?(?=<!-- /lines -->)", re.DOTALL)
HEAD = """Without blank lines, comments and imports, and code without clauses.

| Crate | Code | Tests | Definitions | Proof |
|---|---|---|---|---|
"""

def logic_lines(folder):
    lines = [line.strip() for file in folder.rglob("*.antt") for line in file.read_text().splitlines()]
    return sum(bool(line) and not line.startswith(("--", "use ")) for line in lines)


def is_code(line):
    return line and not line.startswith("//") and not re.match(r"#!?\[tactic", line)


def code_lines_of(text):
    count, in_import, open_braces = 0, False, 0
    for line in filter(is_code, map(str.strip, text.splitlines())):
        braces = line.count("{") - line.count("}")
        if in_import or re.match(r"(pub )?(ghost )?use ", line):
            in_import = ";" not in line
        elif open_braces or re.match(r"(ensures|requires|ghost)\b", line):
            open_braces += braces
        else:
            count += 1
    return count


def code_lines(folder):
    return sum(code_lines_of(file.read_text()) for file in folder.rglob("*.rt"))


def is_tests(crate):
    return crate in SHARED or crate.endswith(("_calls", "_rows"))


def row(crate):
    folder = ROOT / "crates" / crate
    code = code_lines(folder / "src")
    split = (0, code) if is_tests(crate) else (code, 0)
    return *split, logic_lines(folder / "specs"), logic_lines(folder / "proofs")


def main():
    listed = (ROOT / "crates.txt").read_text().splitlines()
    crates = [line.split(":")[0] for line in listed if ":" in line and not line.startswith("#")]
    rows = {crate: row(crate) for crate in crates}
    rows["all"] = [sum(column) for column in zip(*rows.values())]
    body = "".join(f"| {name} | {' | '.join(map(str, it))} |\n" for name, it in rows.items())
    PAGE.write_text(TABLE.sub(lambda found: found[1] + HEAD + body, PAGE.read_text()))


if __name__ == "__main__":
    main()
