"""Runs the parts of a check, shows how far it is, counts the results, and keeps the time that each part takes."""
import collections
import os
import re
import subprocess
import sys
import time

TOP = os.path.dirname(os.path.dirname(os.path.dirname(os.path.realpath(__file__))))
COUNTS = re.compile(r"(\d+) passed, (\d+) failed")

Part = collections.namedtuple("Part", "name passed failed processor clock")


def processor_seconds():
    """Returns the processor time of the commands that have ended."""
    used = os.times()
    return used.children_user + used.children_system


def run_part(name, words):
    """Runs a command, shows what it prints but its last line, and returns its counts; it fails if it ends badly with no count of failures."""
    began, used, last = time.monotonic(), processor_seconds(), ""
    with subprocess.Popen(words, cwd=TOP, stdin=subprocess.DEVNULL, stdout=subprocess.PIPE, stderr=subprocess.STDOUT, text=True, errors="replace") as command:
        for line in command.stdout:
            print(last, end="", flush=True)
            last = line
    counts = COUNTS.fullmatch(last.rstrip("\n"))
    if not counts:
        print(last, end="")
    passed, failed = map(int, counts.groups()) if counts else (0, 1)
    failed = failed or int(command.returncode != 0)
    return Part(name, passed, failed, processor_seconds() - used, time.monotonic() - began)


def show(part, began):
    """Prints the result of a part, with the minutes since the start."""
    result = f"{part.passed} passed, {part.failed} failed"
    print(f"-- {part.name}: {result}; {part.processor:.0f} s of a processor, {(time.monotonic() - began) / 60:.1f} min so far", flush=True)


def keep(parts, file):
    """Writes the parts into a file, for tools/gate-table."""
    os.makedirs(os.path.dirname(file), exist_ok=True)
    with open(file, "w", encoding="utf-8") as it:
        it.writelines("\t".join([part.name, *(f"{value:.0f}" for value in part[1:])]) + "\n" for part in parts)


def run_all(parts, file, needs_first=False):
    """Runs parts, each a name and a command, and ends with the slowest ones and the counts over all. If the others need the first one and it fails, it runs
    none of them."""
    began, done = time.monotonic(), []
    for name, words in parts:
        done.append(run_part(name, words))
        show(done[-1], began)
        if needs_first and done[0].failed:
            print(f"{name} failed, so nothing else was run", flush=True)
            break
    keep(done, file)
    slowest = sorted(done, key=lambda it: -it.processor)[:5]
    print("What took longest, in processor minutes: " + ", ".join(f"{it.name} {it.processor / 60:.1f}" for it in slowest))
    passed, failed = (sum(getattr(it, field) for it in done) for field in ("passed", "failed"))
    print(f"{passed} passed, {failed} failed")
    sys.exit(failed > 0)
