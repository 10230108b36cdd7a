"""Draws docs/speed.svg: the tables of docs/SPEED.md that are marked by a line `<!-- chart: TITLE -->`, as bars.

A figure is our time by theirs. The scale is that of logarithms, so that twice and half as fast are bars of one length; a bar to the
left of 1 is faster. Cells that are no plain numbers are left out. With `--check` nothing is drawn: it ends with 1 where the drawing is
another.
"""
import math
import os
import re
import sys

os.chdir(os.path.join(os.path.dirname(os.path.abspath(__file__)), ".."))
LEFT, WIDTH, BAR, GAP = 210, 560, 11, 8
LEAST, MOST = 0.03, 3.0
SHADES = [("#1a7f5a", "#c2571a"), ("#57b893", "#e79a63"), ("#2c6fa8", "#a8325e"), ("#7fb2da", "#dd86a4")]


def tables_of(path):
    """Each marked table: its title, the names of its columns, and its rows, each a label and the figures by column."""
    lines, at = open(path, encoding="utf-8").read().split("\n"), 0
    for at, line in enumerate(lines):
        found = re.fullmatch(r"<!-- chart: (.*) -->", line)
        if not found:
            continue
        cells = []
        for row in lines[at + 1 :]:
            if not row.startswith("|"):
                break
            cells.append([cell.strip().replace("`", "") for cell in row.strip("|").split("|")])
        names, rows = cells[0], cells[2:]
        numbers = [k for k in range(1, len(names)) if all(re.fullmatch(r"[\d.]+", row[k]) for row in rows)]
        yield found.group(1), [names[k] for k in numbers], [(row[0], [float(row[k]) for k in numbers]) for row in rows]


def place(figure):
    share = math.log(figure / LEAST) / math.log(MOST / LEAST)
    return LEFT + WIDTH * min(max(share, 0), 1)


def text(x, y, words, more=""):
    words = words.replace("&", "&amp;").replace("<", "&lt;")
    return f'<text x="{x:.0f}" y="{y:.0f}" {more}>{words}</text>'


def draw(tables):
    """The lines of the drawing, and its height."""
    parts, y = [], 46
    for title, names, rows in tables:
        y += 22
        parts.append(text(10, y, title, 'font-weight="bold"'))
        x, y = LEFT, y + 16
        for k, name in enumerate(names):
            parts.append(f'<rect x="{x}" y="{y - 9}" width="10" height="10" fill="{SHADES[k][0]}"/>')
            parts.append(text(x + 14, y, name))
            x += 30 + 7 * len(name)
        y += 8
        for label, figures in rows:
            parts.append(text(LEFT - 10, y + BAR * (len(figures) + 1) / 2 - 1, label, 'text-anchor="end"'))
            for k, figure in enumerate(figures):
                begin, end = sorted((place(1), place(figure)))
                parts.append(f'<rect x="{begin:.1f}" y="{y}" width="{max(end - begin, 1):.1f}" height="{BAR - 2}" fill="{SHADES[k][figure > 1]}"/>')
                parts.append(text(LEFT + WIDTH + 10, y + BAR - 2, f"{figure:g}"))
                y += BAR
            y += GAP
    scale = []
    for figure in (0.03, 0.1, 0.25, 0.5, 1, 2, 3):
        shade = "#000" if figure == 1 else "#ccc"
        scale.append(f'<line x1="{place(figure):.1f}" y1="38" x2="{place(figure):.1f}" y2="{y}" stroke="{shade}"/>')
        scale.append(text(place(figure), 34, f"{figure:g}", 'text-anchor="middle"'))
    heading = text(10, 16, "our time by theirs: to the left of 1 (green, blue) we are faster, to the right (orange, red) slower")
    return [heading, *scale, *parts], y + 10


def main():
    parts, height = draw(tables_of("docs/SPEED.md"))
    size = f'width="{LEFT + WIDTH + 60}" height="{height}"'
    begin = f'<svg xmlns="http://www.w3.org/2000/svg" {size} font-family="sans-serif" font-size="11">'
    drawing = "\n".join([begin, '<rect width="100%" height="100%" fill="#fff"/>', *parts, "</svg>"]) + "\n"
    if sys.argv[1:] == ["--check"]:
        with open("docs/speed.svg", encoding="utf-8") as file:
            return 0 if file.read() == drawing else "docs/speed.svg isn't what bench/chart.py draws of docs/SPEED.md"
    with open("docs/speed.svg", "w", encoding="utf-8") as file:
        file.write(drawing)
    return 0


if __name__ == "__main__":
    sys.exit(main())
