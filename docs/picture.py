#!/usr/bin/env python3
"""Draws a merge as SVG: the left tree, the right tree, and below them the merged tree, with the join pair drawn.

    picture.py COMMAND FOLDER    COMMAND is ./run or an installed gandeuch, FOLDER has relay.query, breaker.query and relay-breaker.joins

The merged tree is what the command writes. A variable has the colour of the side it comes from; a joined one has a third.
"""

import html
import pathlib
import subprocess
import sys

WIDTH, LINE, CHAR, PAD, INDENT, BOX, TOP = 900, 22, 8.4, 14, 20, 400, 48
LEFT, RIGHT, JOINED, PLAIN = "#0b5cad", "#b0501c", "#7a1fa2", "#333333"


def lines(text):
    return [line.split("\t") for line in text.splitlines()]


def columns(fields):
    """The columns of a query: its project line is the second."""
    return fields[1][1:]


def joined(left, right, joins):
    """The join columns of each side."""
    pairs = [(int(first), int(second)) for first, second in lines(joins)]
    return {columns(left)[first] for first, _ in pairs}, {columns(right)[second] for _, second in pairs}


def colour(name, own, joined_names):
    if not name.startswith("?"):
        return PLAIN
    return JOINED if name in joined_names else own


def merged_colour(name):
    return {"?j": JOINED, "?l": LEFT, "?r": RIGHT}.get(name[:2], PLAIN)


def indents(fields):
    """How deep each line stands."""
    left, result = [1], []
    for word, *rest in fields:
        while not left[-1]:
            left.pop()
        left[-1] -= 1
        result.append(len(left) - 1)
        left.append({"query": 1, "project": 1, "join": 2, "bgp": int(rest[0]) if word == "bgp" else 0}.get(word, 0))
    return result


def row(x, y, fields, colours):
    """One line of a tree: a tspan a field."""
    spans = "".join(f'<tspan fill="{fill}">{html.escape(field)}</tspan> ' for field, fill in zip(fields, colours))
    return f'<text x="{x:.0f}" y="{y:.0f}" xml:space="preserve">{spans.rstrip()}</text>'


def box(x, y, title, fields, colours):
    """A tree in a frame."""
    height = LINE * len(fields) + 2 * PAD
    parts = [f'<text x="{x}" y="{y - 12}" class="title">{html.escape(title)}</text>',
             f'<rect x="{x}" y="{y}" width="{BOX}" height="{height}" rx="6" class="frame"/>']
    for number, (line, indent) in enumerate(zip(fields, indents(fields))):
        parts.append(row(x + PAD + INDENT * indent, y + PAD + LINE * (number + 0.7), line, colours(line)))
    return parts, height


def middle(x, y, fields, name):
    """Where a column stands in the project line of a box: its middle, below the line."""
    before = len(" ".join(fields[1][: fields[1].index(name)])) + 1
    return x + PAD + INDENT + CHAR * (before + len(name) / 2), y + PAD + LINE * 1.95


def curve(start, end):
    (x, y), (u, v) = start, end
    return f'<path d="M{x:.0f},{y:.0f} C{x:.0f},{y + 90:.0f} {u:.0f},{v - 110:.0f} {u:.0f},{v:.0f}" class="join"/>'


def picture(left, right, joins, merged):
    left, right, merged = lines(left), lines(right), lines(merged)
    of_left, of_right = joined(left, right, joins)
    second = WIDTH - BOX - 20
    first_box, height = box(20, TOP, "left: relay.query", left, lambda line: [colour(field, LEFT, of_left) for field in line])
    second_box, other = box(second, TOP, "right: breaker.query", right, lambda line: [colour(field, RIGHT, of_right) for field in line])
    middle_x, below = (WIDTH - BOX) // 2, TOP + max(height, other) + 90
    merged_box, last = box(middle_x, below, "merged", merged, lambda line: [merged_colour(field) for field in line])
    end = middle(middle_x, below, merged, "?j0")
    end = end[0], end[1] - LINE - 6
    joins_drawn = [curve(middle(20, TOP, left, name), end) for name in sorted(of_left)] + [curve(middle(second, TOP, right, name), end) for name in sorted(of_right)]
    total = below + last + 20
    parts = first_box + second_box + merged_box
    frames, texts = ([part for part in parts if part.startswith("<rect") == framed] for framed in (True, False))
    return "\n".join([
        f'<svg xmlns="http://www.w3.org/2000/svg" viewBox="0 0 {WIDTH} {total}" width="{WIDTH}" height="{total}" role="img" aria-label="Two queries and the query they are merged into">',
        "<style>text { font: 14px monospace } .title { font: bold 14px sans-serif; fill: #333 } .frame { fill: #fafafa; stroke: #999 } .join { fill: none; stroke: #d3b3e2; stroke-width: 4 }</style>",
        f'<rect width="{WIDTH}" height="{total}" fill="white"/>', *frames, *joins_drawn, *texts, "</svg>", ""])


def main():
    command, folder = pathlib.Path(sys.argv[1]).resolve(), pathlib.Path(sys.argv[2])
    files = [folder / name for name in ("relay.query", "breaker.query", "relay-breaker.joins")]
    merged = subprocess.run([command, "merge_queries", *files], stdout=subprocess.PIPE, check=True, text=True).stdout
    sys.stdout.write(picture(*[file.read_text() for file in files], merged))


if __name__ == "__main__":
    if len(sys.argv) != 3:
        sys.exit(__doc__)
    main()
