"""Shows what an answer of `paragonc` means, at its place in the source.

    paragonc --check FILE | python3 tools/explain.py FILE

Each line of standard input that refuses the source is shown with the line of FILE, a caret under
the place, and what docs/REFUSALS.md says of the rule, its mend among it. Other answers are shown
with what that page says of them, and lines that have none as they are. It is an aid for people, and
proves nothing.
"""
import pathlib
import re
import sys

PAGE = pathlib.Path(__file__).resolve().parent.parent / "docs" / "REFUSALS.md"
REFUSED = re.compile(r"refused (\d+) at (\d+):(\d+)( limit \d+ count \d+)?")


def sections():
    """The sections of the page, each with its heading."""
    for section in PAGE.read_text().split("\n## ")[1:]:
        heading, _, text = section.partition("\n")
        yield heading, text.strip()


def is_about(heading, answer):
    """Whether a heading names this answer: its small words are those of the answer."""
    named = re.match(r"`([^`]+)`", heading)
    if not named:
        return False
    words = [word for word in named[1].split() if word.islower()]
    return answer.split()[: len(words)] == words


def section_of(answer):
    refused = REFUSED.fullmatch(answer)
    for heading, text in sections():
        if heading.startswith(f"{refused[1]}:") if refused else is_about(heading, answer):
            return heading, text
    return None


def as_text(section):
    """A section without the marks of its page: sources are set in."""
    lines, inside = [], False
    for line in section.splitlines():
        if line.startswith("```"):
            inside = not inside
        else:
            lines.append(f"    {line}" if inside else re.sub(r"\[([^\]]+)\]\([^)]+\)", r"\1", line))
    return "\n".join(lines)


def pointed(source, line, column):
    """A line of a source with a caret under a column, which counts bytes."""
    text = source.split(b"\n")[line - 1] if line <= source.count(b"\n") + 1 else b""
    before = text[: column - 1].decode(errors="replace")
    blank = re.sub(r"[^\t]", " ", before)
    margin = " " * len(str(line))
    return f"{line} | {text.decode(errors='replace')}\n{margin} | {blank}^"


def explained(answer, source):
    yield answer
    refused = REFUSED.fullmatch(answer)
    if refused:
        yield pointed(source, int(refused[2]), int(refused[3]))
    section = section_of(answer)
    if section:
        yield f"\n{section[0]}\n\n{as_text(section[1])}"


if __name__ == "__main__":
    if len(sys.argv) != 2:
        sys.exit(__doc__)
    path = pathlib.Path(sys.argv[1])
    content = path.read_bytes() if path.is_file() else b""
    for said in sys.stdin.read().splitlines():
        print("\n".join(explained(said, content)))
