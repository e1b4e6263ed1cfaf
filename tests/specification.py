#!/usr/bin/env python3
"""The examples of docs/SPECIFICATION.md and docs/VARIANTS.md.

    python3 -B tests/specification.py

holds every text in them to second_reader.py, every call to second_calls.py and
what it writes to the reader too, every answer's rows to counting/semantics.py;
that each word of the layout has an example, and each row that names a line one
with it; that each variant that nemo's files name has a row; and that every
section that is cited is there. make_texts.py and make_vectors.py take the
examples from here, so that the proved checks and programs are run on them.

A fenced block headed `KIND` or `KIND NUMBER` is a text, one headed `call
PROGRAM` what a program reads, a line ->, and what it writes, the line `left` of
standard error last, one headed `rows`
an evaluation as counting/evaluations.py has it. In a table a column headed by
a kind or a call has one example a cell, with a space for a tab and ` / `
between lines; the answer of a call stands in the column `->`.
"""
import collections
import os
import re
import sys

from random_texts import WORDS
from second_calls import TEXTS, answer, shown
from second_reader import KINDS, number

HERE = os.path.dirname(os.path.abspath(__file__))
sys.path.append(os.path.join(HERE, "counting"))

from layout import tree
from semantics import evaluate

ROOT = os.path.dirname(HERE)
PAGES = ["SPECIFICATION", "VARIANTS"]
HEAD = re.compile("(%s)( 1| 2| 14)?|call (%s)|rows" % ("|".join(KINDS), "|".join(TEXTS)))
CODE = re.compile("`([^`]+)`")


def page(name):
    with open(os.path.join(ROOT, "docs", name + ".md"), encoding="utf-8") as file:
        return file.read()


def cells(line):
    """The cells of a table's line."""
    return [cell.strip() for cell in re.split(r"(?<!\\)\|", line)[1:-1]]


def tables(text):
    """Each table: its head and its rows."""
    for block in re.findall(r"(?m)(?:^\|.*\n)+", re.sub(r"(?ms)^```.*?^```$", "", text)):
        head, rule, *rows = block.splitlines()
        assert re.fullmatch(r"[|:-]+", rule), block
        assert all(len(cells(row)) == len(cells(head)) for row in rows), block
        yield cells(head), [cells(row) for row in rows]


def laid(cell):
    """The bytes of an example in a table."""
    written = CODE.fullmatch(cell).group(1).replace("\\|", "|")
    return "".join(line.replace(" ", "\t") + "\n" for line in written.split(" / ")).encode()


def examples(name):
    """The examples of a page, as (what it is headed by, its bytes, the bytes of a call's answer)."""
    text = page(name)
    for info, body in re.findall(r"(?ms)^```([^\n]+)\n(.*?)^```$", text):
        assert HEAD.fullmatch(info), "%s: a block headed %s" % (name, info)
        given, _, written = ("\n" + body).partition("\n->\n") if info.startswith("call") or info == "rows" else ("\n" + body, "", "")
        given = given[1:] if given.endswith("\n") or given == "" else given[1:] + "\n"
        yield info, given.encode(), written.encode()
    for head, rows in tables(text):
        for place, title in enumerate(head):
            info = title.strip("`")
            if title.startswith("`") and HEAD.fullmatch(info):
                answers = head.index("`->`") if info.startswith("call") else None
                for row in rows:
                    yield info, laid(row[place]), laid(row[answers]) if answers is not None else b""


def texts():
    """The texts of both pages: label, kind, bytes, number."""
    for name in PAGES:
        found = [(info, given) for info, given, _ in examples(name) if info.split()[0] in KINDS]
        for count, (info, given) in enumerate(found, 1):
            kind, _, refused = info.partition(" ")
            yield "%s-%d" % (name.lower(), count), kind, given, int(refused or 0)


def calls():
    """The calls of both pages: program, label, what it reads, what it writes."""
    for name in PAGES:
        found = [(info, given, written) for info, given, written in examples(name) if info.startswith("call")]
        for count, (info, given, written) in enumerate(found, 1):
            yield info.split()[1], "%s-%d" % (name.lower(), count), given, written


def hold_texts():
    for label, kind, given, expected in texts():
        found = number(kind, given)
        assert found == expected, "%s: %d on the page, %d by the reader\n%r" % (label, expected, found, given)


def hold_calls():
    for program, label, given, written in calls():
        found = shown(program, given)
        assert found == written, "%s: %r on the page, %r by the second calls" % (label, written, found)
        if program != "scope" and not written.startswith(b"refused"):
            assert number(TEXTS[program][0], answer(program, given)) == 0, "%s: %r" % (label, written)


def hold_rows():
    """Each evaluated tree is well formed, and its rows are those of the counting definitions; returns how many there are."""
    found = [(given, written.decode()) for name in PAGES for info, given, written in examples(name) if info == "rows"]
    for given, written in found:
        pattern, triples = given.split(b"--\n")
        assert number("tree", pattern) == 0, pattern
        columns, *rows = (line.split("\t") for line in written.splitlines())
        store = {tuple(line.split("\t")) for line in triples.decode().splitlines()}
        counts = collections.Counter(tuple(row.get(name, "-") for name in columns) for row in evaluate(store, tree(pattern.decode())))
        assert counts == {tuple(cells): int(count) for count, *cells in rows}, "%r: %r" % (given, counts)
    return len(found)


def hold_words():
    """Each word of the layout begins a line of an example that is well formed."""
    met = {line.split(b"\t")[0] for _, _, given, refused in texts() if refused == 0 for line in given.splitlines()}
    assert set(WORDS) <= met, set(WORDS) - met


def stand_in_variants():
    """The variants of the enums that the comparison's stand-in has."""
    with open(os.path.join(ROOT, "compare", "stand-ins", "spargebra.rs"), encoding="utf-8") as file:
        source = file.read()
    for name, body in re.findall(r"(?ms)pub enum (\w+) \{\n(.*?)^ *\}\n(?=\n|\}|\Z)", source):
        for variant in re.findall(r"(?m)^(?:    |        )([A-Z]\w*)(?: \{|\(|,)", body):
            yield name + "::" + variant


def hold_lines():
    """In a table with a column `line`, the example of a row has a line like one of those named: its word, and as many fields."""
    for head, rows in [table for name in PAGES for table in tables(page(name)) if "line" in table[0]]:
        for row in rows:
            shapes = [span.replace("\\|", "|").split(" ") for span in CODE.findall(row[head.index("line")])]
            found = [line.split("\t") for line in laid(row[-1]).decode().splitlines()]
            fits = [line for line in found for shape in shapes
                    if line[0] == shape[0] and (len(line) == len(shape) or shape[-1] in ("…", "value"))]
            assert fits, "no line %s in %s" % (row[head.index("line")], row[-1])


def hold_variants():
    """Each variant of the stand-in has a row."""
    named = {CODE.match(row[0]).group(1) for head, rows in tables(page("VARIANTS")) for row in rows}
    wanted = set(stand_in_variants())
    assert len(wanted) > 100 and wanted <= named, wanted - named


def citations():
    """The titles that files cite behind the page's name, and those that the page itself quotes, with the file."""
    for folder, folders, files in os.walk(ROOT):
        folders[:] = [name for name in folders if not name.startswith(".") and name not in ("target", "data")]
        for path in (os.path.join(folder, name) for name in files):
            with open(path, encoding="utf-8", errors="replace") as file:
                for run in re.findall(r'SPECIFICATION\.md((?:,?\s+(?:and\s+)?"[A-Z][^"]*")+)', file.read()):
                    yield from ((path, title) for title in re.findall('"([^"]*)"', run))
    for title in re.findall(r'"([A-Z][a-z]+(?: [a-z0-9]+)*)"', re.sub(r"(?s)```.*?```|`[^`]*`", "", page("SPECIFICATION"))):
        yield "the page", title


def hold_citations():
    there = {re.sub(r"^[0-9]+\. ", "", title) for title in re.findall(r"(?m)^##+ (.*)$", page("SPECIFICATION"))}
    for path, title in citations():
        assert title in there, "%s cites %s" % (path, title)
    return len(list(citations()))


def main():
    hold_texts()
    hold_calls()
    rows = hold_rows()
    hold_words()
    hold_lines()
    hold_variants()
    cited = hold_citations()
    counts = len(list(texts())), len(list(calls())), rows, cited
    print("documented examples: %d texts, %d calls, %d answers with rows; %d citations of sections" % counts)


if __name__ == "__main__":
    sys.exit(main())
