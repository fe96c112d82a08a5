"""Draws a recording of a terminal from the commands of a page and their printed outputs: an SVG with a screen for each section, which types the commands.
A viewer that does not animate shows the last screen."""
import html
import re

LETTER, ROW, EDGE = 7.8, 18, 14
TYPED, ANSWERED, READ, LINE = 0.04, 0.3, 2.5, 0.25  # seconds: for a letter, before an answer, at the end of a screen and for each of its lines
HEAD = ('<svg xmlns="http://www.w3.org/2000/svg" width="{0}" height="{1}" viewBox="0 0 {0} {1}" font-family="monospace" font-size="13">\n'
        '<rect width="{0}" height="{1}" rx="6" fill="#16181d"/>\n'
        '<rect width="0" height="0"><animate id="all" attributeName="width" to="0" begin="0s;all.end" dur="{2:g}s"/></rect>')
COLOURS = {"title": "#9aa4b2", "command": "#9be28a", "answer": "#e6e6e6"}


def screens_of(page, left_out):
    """Yields the rows of each section of a page that prints commands: of each row its kind and its text."""
    for section in re.split(r"^## ", page, flags=re.M)[1:]:
        rows = []
        for block in re.findall(r"^```\n(.*?)^```$", section, re.M | re.S):
            for part in re.split(r"^\$ ", block, flags=re.M)[1:]:
                command, *answer = part.splitlines()
                if command.split()[0] not in left_out:
                    rows += [("command", f"$ {command}"), *(("answer", row) for row in answer)]
        if rows:
            yield [("title", f"# {section.splitlines()[0]}"), *rows]


def timed(rows):
    """Returns the second at which each row appears, and the length of the screen."""
    now, times = 0.5, []
    for at, (kind, text) in enumerate(rows):
        times.append(0 if kind == "title" else now)
        now += len(text) * TYPED if kind == "command" else 0
        now += ANSWERED if kind == "command" and rows[at + 1:] and rows[at + 1][0] == "answer" else 0
        now += 2 * ANSWERED if kind == "answer" and rows[at + 1:] and rows[at + 1][0] == "command" else 0
    return times, now + READ + LINE * len(rows)


def row_of(name, at, kind, text, begin, after):
    """Returns the drawing of a row, which appears some seconds after its screen; a command is typed."""
    width, height = len(text) * LETTER, EDGE + at * ROW
    hidden = f'<set attributeName="visibility" to="hidden" begin="all.begin+{begin:g}s" dur="{after:g}s"/>' if after else ""
    words = (f'<text x="{EDGE}" y="{height + 13:g}" fill="{COLOURS[kind]}" textLength="{width:g}" xml:space="preserve"'
             f'{{}}>{html.escape(text, quote=False)}{hidden}</text>')
    if kind != "command":
        return words.format("")
    typing = f'<animate attributeName="width" from="0" to="{width:g}" begin="all.begin+{begin + after:g}s" dur="{len(text) * TYPED:g}s"/>'
    return (f'<clipPath id="{name}"><rect x="{EDGE}" y="{height:g}" width="{width:g}" height="{ROW}">{typing}</rect></clipPath>\n'
            + words.format(f' clip-path="url(#{name})"'))


def drawn(page, left_out):
    """Returns the recording of a page, without the commands that begin with some words."""
    screens = [(rows, *timed(rows)) for rows in screens_of(page, left_out)]
    width = 2 * EDGE + max(len(text) for rows, *_ in screens for _, text in rows) * LETTER
    height = 2 * EDGE + max(len(rows) for rows, *_ in screens) * ROW
    shapes, begin, whole = [], 0, sum(length for *_, length in screens)
    for number, (rows, times, length) in enumerate(screens):
        is_last = number + 1 == len(screens)
        shown = (f'<set attributeName="visibility" to="hidden" begin="all.begin" dur="{begin:g}s"/>' if is_last else
                 f'<set attributeName="visibility" to="visible" begin="all.begin+{begin:g}s" dur="{length:g}s"/>')
        shapes.append(f'<g{"" if is_last else " visibility=" + chr(34) + "hidden" + chr(34)}>{shown}')
        shapes += [row_of(f"c{number}-{at}", at, kind, text, begin, time) for at, ((kind, text), time) in enumerate(zip(rows, times))]
        shapes.append("</g>")
        begin += length
    return "\n".join([HEAD.format(round(width), round(height), whole), *shapes, "</svg>\n"])
