"""The table of docs/HOST-KERNEL.md, which shows the classes of differences."""
import re

import pvtest

from . import differences

PAGE = f"{pvtest.TOP}/docs/HOST-KERNEL.md"
START, END = "<!-- classes: written by tools/host-kernel --page -->", "<!-- end of classes -->"
# An argument is cut after so many characters.
LONGEST = 20


def table():
    """Returns the lines of the table."""
    lines = ["| Class | Least bundle | pvsim | Linux | Source | Why |", "|---|---|---|---|---|---|"]
    for name, entry in differences.table().items():
        call, _, answers = entry.shows.rpartition(": ")
        was, came = answers.split(", ")
        call = re.sub(r'"([^"]{%d})[^"]+"' % LONGEST, r'"\1.."', call)
        lines.append(f"| {name} | [`{call}`](../{entry.bundle()}) | {was} | {came} | {entry.source} | {entry.why} |")
    return lines


def text():
    """Returns the page with the table as it is to be."""
    page = pvtest.read(PAGE).decode()
    return page, re.sub(f"{re.escape(START)}.*{re.escape(END)}", lambda _: "\n".join([START, "", *table(), "", END]), page, flags=re.S)


def fault():
    """Returns how the page differs from the table, or None."""
    page, wanted = text()
    return pvtest.difference(wanted.encode(), page.encode())


def write():
    pvtest.write(PAGE, text()[1])
