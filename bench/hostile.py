"""Times the worst sources and class files that are known, each at its full size.

    python3 hostile.py PARAGONC PARAGON [WORD ..]

PARAGONC and PARAGON are the paths of the built programs. The words choose rows by a part of their
name. Each row of the table has the bytes of the source or of the class files, the last line that is
put, the processor seconds and the most memory in MB, and how many times the seconds are those of
half the size. A row is bold that takes more than 5 s or 512 MB, and a run is ended after 600 s of a
processor, and is given no more than 4 GB.
"""
import os
import resource
import subprocess
import sys
import tempfile

from worst_files import FILES
from worst_sources import SOURCES

MOST_BYTES, MOST_SECONDS, MOST_MEMORY, PATIENCE, ROOM = 262144, 5, 512, 600, 4 << 30


def patient():
    resource.setrlimit(resource.RLIMIT_CPU, (PATIENCE, PATIENCE))
    resource.setrlimit(resource.RLIMIT_AS, (ROOM, ROOM))


def run(words, folder):
    """The last line that is put, the processor seconds and the most memory."""
    with open(os.path.join(folder, "told"), "w+b") as told:
        ran = subprocess.Popen(words, cwd=folder, stdout=told, preexec_fn=patient)
        _, status, used = os.wait4(ran.pid, 0)
        told.seek(max(0, os.path.getsize(told.name) - 200))
        lines = told.read().decode().splitlines() or [""]
    ended = f"ended by signal {os.WTERMSIG(status)}" if os.WIFSIGNALED(status) else lines[-1]
    return ended, used.ru_utime + used.ru_stime, used.ru_maxrss // 1024


def source_row(paragonc, row, most):
    flags, source = SOURCES[row]
    text = source(most)
    with tempfile.TemporaryDirectory() as folder:
        with open(os.path.join(folder, "worst.par"), "w") as out:
            out.write(text)
        return len(text), *run([paragonc, *flags, "worst.par"], folder)


def file_row(paragon, row, part):
    files, words = FILES[row](part)
    with tempfile.TemporaryDirectory() as folder:
        open(os.path.join(folder, "in.txt"), "w").close()
        for name, bytes_ in files.items():
            with open(os.path.join(folder, name + ".class"), "wb") as out:
                out.write(bytes_)
        return sum(map(len, files.values())), *run([paragon, *words], folder)


def line(row, half, whole):
    """A line of the table."""
    length, told, seconds, most = whole
    grown = f"{seconds / half[2]:.1f}" if half[2] > 0.05 else ""
    over = "**" if seconds > MOST_SECONDS or most > MOST_MEMORY else ""
    return f"| {over}{row}{over} | {length:,} | `{told}` | {seconds:.2f} | {most} | {grown} |"


def rows(paragonc, paragon):
    """Each row's name, and what takes its half and its whole."""
    for row in SOURCES:
        yield row, lambda part, row=row: source_row(paragonc, row, int(MOST_BYTES * part))
    for row in FILES:
        yield row, lambda part, row=row: file_row(paragon, row, part)


def tried(paragonc, paragon, chosen):
    print("| Work | Bytes | Last line | Seconds | MB | Doubled |")
    print("|---|---|---|---|---|---|")
    for row, timed in rows(paragonc, paragon):
        if not chosen or any(word in row for word in chosen):
            print(line(row, timed(0.5), timed(1)), flush=True)


if __name__ == "__main__":
    tried(*map(os.path.abspath, sys.argv[1:3]), sys.argv[3:])
