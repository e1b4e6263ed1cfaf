#!/usr/bin/env python3
"""The calls' recorded inputs with their answers.

    python3 make_vectors.py OUTDIR

writes OUTDIR/cases and OUTDIR/expected, the same bytes each time. First come
the cases of vectors/, whose answers are those of nemo's Rust, then the inputs
below, in written_merges.py, written_placings.py, written_empty.py and
written_namespaces.py, whose answers are written by hand from the rules of docs/SPECIFICATION.md, then the
calls of that page. It stops where second_calls.py writes another answer or lists
other filters. The Rust lists none, so that its cases have the list of second_calls.py.

vectors/NAME.txt: a head, then the cases; a line ==== follows each of them. A
case is what the call NAME reads, a line ->, and what it must write. `%` and
two hexadecimal digits stand for a byte.

cases: for each record a line `DIGIT TAB LENGTH TAB LABEL`, then LENGTH bytes
and a line end; DIGIT is the call's number in calls.txt. expected: for each record
a line with its label, then what the program `call` writes, the line `left` last.
"""
import os
import sys
import urllib.parse

import calls
import second_calls
import specification
import written_empty
import written_merges
import written_namespaces
import written_placings
from written_texts import BAR, LONG, MALFORMED, OVER, padded, refused, text

HERE = os.path.dirname(os.path.abspath(__file__))


def recorded(program):
    """The pairs of input and answer of a file."""
    with open(os.path.join(HERE, "vectors", program + ".txt"), "rb") as file:
        parts = file.read().split(b"\n====\n")
    assert parts.pop() == b"", program
    for part in parts[1:]:
        given, answer = part.split(b"\n->\n")
        yield urllib.parse.unquote_to_bytes(given + b"\n"), urllib.parse.unquote_to_bytes(answer + b"\n")


TREE = text("project ?a/bgp 1/t ?a <p> ?b")
OTHER = text("project ?b/bgp 1/t ?b <p> ?a")
SCOPE = text("in ?a/hid ?a ?b")
SWAP = text("?a ?b/?b ?a")

# The number of lines `--` is looked at before the texts, so a tree over a bound tells whether a line was one.
WRITTEN = [
    ("scope", "no-input", b"", text("in/hid")),
    ("scope", "tree", TREE, SCOPE),
    ("scope", "over-bound", OVER, refused(2)),
    ("scope", "bar-behind", TREE + BAR, refused(1)),
    ("scope", "bar-before", BAR + TREE, refused(1)),
    ("scope", "bar-alone", BAR, refused(1)),
    ("scope", "bar-before-bounds", OVER + BAR, refused(1)),
    ("scope", "unended-bar", OVER + b"--", refused(2)),
    ("scope", "longer-bar", OVER + b"---\n", refused(2)),
    ("scope", "spaced-bar", OVER + b"-- \n", refused(2)),
    ("scope", "returned-bar", OVER + b"--\r\n", refused(2)),
    ("scope", "inner-bar", b"path\t?a\t--\t?b\n", text("in ?a ?b/hid")),
    ("scope", "longest-input", padded(TREE + BAR, LONG), refused(1)),
    ("scope", "too-long-input", padded(TREE + BAR, LONG + 1), refused(2)),
    ("rename", "swap", TREE + BAR + SWAP, OTHER),
    ("rename", "no-mapping", TREE + BAR, TREE),
    ("rename", "no-texts", BAR, text("project/bgp 0")),
    ("rename", "no-bar", TREE + SWAP, refused(1)),
    ("rename", "two-bars", TREE + BAR + SWAP + BAR, refused(1)),
    ("rename", "no-bar-before-bounds", OVER + SWAP, refused(1)),
    ("rename", "two-bars-before-bounds", OVER + BAR + SWAP + BAR, refused(1)),
    ("rename", "over-bound", OVER + BAR + SWAP, refused(2)),
    ("rename", "over-bound-first", OVER + BAR + MALFORMED, refused(2)),
    ("rename", "malformed-first", MALFORMED + BAR + text("/".join("?c%d ?d" % i for i in range(257))), refused(1)),
    ("rename", "mapping-256", text("project " + " ".join("?c%d" % i for i in range(256)) + "/bgp 0") + BAR
     + text("/".join("?c%d ?d%d" % (i, 255 - i) for i in range(256))), text("project " + " ".join("?d%d" % i for i in range(255, -1, -1)) + "/bgp 0")),
    ("rename", "mapping-over-bound", TREE + BAR + text("/".join("?c%d ?d" % i for i in range(257))), refused(2)),
    ("rename", "from-repeated", TREE + BAR + text("?a ?b/?a ?b"), refused(1)),
    ("rename", "unended-bar", OVER + b"--", refused(1)),
    ("rename", "unended-second-bar", TREE + BAR + SWAP + b"--", refused(1)),
    ("rename", "too-long-input", padded(TREE + BAR + SWAP, LONG + 1), refused(2)),
]


def records():
    for program in sorted(set(calls.NAMES) - calls.OURS, key=calls.NAMES.index):
        for number, (given, answer) in enumerate(recorded(program), 1):
            yield program, "%s-%d" % (program, number), given, answer + second_calls.left(program, given)
    written = WRITTEN + written_merges.WRITTEN + written_placings.WRITTEN + written_empty.WRITTEN + written_namespaces.WRITTEN
    for program, name, given, answer in written:
        yield program, "%s-%s" % (program, name), given, answer
    for program, name, given, answer in specification.calls():
        yield program, "%s-%s" % (program, name), given, answer


def main(outdir):
    os.makedirs(outdir, exist_ok=True)
    with open(os.path.join(outdir, "cases"), "wb") as cases, open(os.path.join(outdir, "expected"), "wb") as expected:
        for program, label, given, answer in records():
            assert second_calls.shown(program, given) == answer, label
            cases.write(b"%d\t%d\t%s\n" % (calls.NAMES.index(program), len(given), label.encode()))
            cases.write(given + b"\n")
            expected.write(label.encode() + b"\n" + answer)


if __name__ == "__main__":
    main(sys.argv[1])
