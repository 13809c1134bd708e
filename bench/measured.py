"""Runs a program and tells what it printed, its processor seconds and its most memory, in MB."""
import os
import re
import shutil
import subprocess
import tempfile
import time


def timed(words, folder):
    """What was printed, processor seconds, wall seconds and the most memory.

    `time` tells the memory: what wait4 tells of a process begun here is never less than the memory
    that python has.
    """
    with tempfile.NamedTemporaryFile("r") as most:
        begun = time.monotonic()
        telling = ["time", "-q", "-f", "%M", "-o", most.name, *words]
        ran = subprocess.Popen(telling, cwd=folder, stdout=subprocess.PIPE, text=True)
        told = ran.stdout.read().strip()
        _, _, used = os.wait4(ran.pid, 0)
        wall = time.monotonic() - begun
        return told, used.ru_utime + used.ru_stime, wall, int(most.read()) // 1024


def quickest(words, folder, turns=3):
    """The same, of the turn with the least processor seconds."""
    return min((timed(words, folder) for _ in range(turns)), key=lambda ran: ran[1])


def run(words, folder):
    """What was printed, processor seconds and the most memory."""
    told, seconds, _, most = timed(words, folder)
    return told, seconds, most


def least(words, folder, turns=3):
    """The same, of the quickest turn."""
    told, seconds, _, most = quickest(words, folder, turns)
    return told, seconds, most


def instructions(words, folder):
    """The machine instructions of a run, which other load does not change; or None."""
    if not shutil.which("valgrind"):
        return None
    counted = ["valgrind", "--tool=callgrind", "--callgrind-out-file=/dev/null", *words]
    told = subprocess.run(counted, cwd=folder, capture_output=True, text=True).stderr
    return int(re.search(r"Collected : (\d+)", told)[1])


def growth(lesser, greater):
    """How many times as many the greater are, where both are known, as the end of a line."""
    return f", {greater / lesser:.2f} times the instructions" if lesser and greater else ""


LAUNCH = """public class Launch {
  public static void main(String[] words) throws Exception {
    Class.forName(words[0]).getMethod("main").invoke(null);
  }
}
"""


def launcher(folder):
    """Words that run the class file of a class by the interpreter of java, or nothing."""
    if not shutil.which("javac"):
        return None
    with open(os.path.join(folder, "Launch.java"), "w") as out:
        out.write(LAUNCH)
    run(["javac", "Launch.java"], folder)
    return ["java", "-Xint", "-cp", ".", "Launch"]
