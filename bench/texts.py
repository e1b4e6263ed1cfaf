#!/usr/bin/env python3
"""Trees for the benchmark of the tree check, the same every time.

    python3 texts.py FOLDER

writes FOLDER/SHAPE-NAMES-SIZE. The shapes are one basic graph pattern, and a query with joins, optional parts and
filters. The names are four, or as many as the text has room for, up to 1,024: of two letters in order, of three letters
at random, words with a number, or such that the search for each starts at the same place among the hints of the table of
names. A text is as long as whole lines allow, up to its size in bytes.
"""
import itertools
import os
import sys

SIZES = (1024, 4096, 16384)
LETTERS = "abcdefghijklmnopqrstuvwxyzABCDEFGHIJKLMNOPQRSTUVWXYZ0123456789"
TYPE = "<http://www.wikidata.org/prop/direct/P31>"
PLACE = "<http://www.wikidata.org/prop/direct/P131>"
WORDS = "bay relay event breaker line bus feeder trip zone time".split()
ITEM = "<http://www.wikidata.org/entity/Q515>"


def words(length):
    return ("?" + "".join(w) for w in itertools.product(LETTERS, repeat=length))


def place(name):
    """Where the search for a name's hint starts, by crates/names."""
    h = 0
    for b in name.encode():
        h = (h + b) * 16777619 % 4294967296
    return h // 2097152


def few():
    return itertools.islice(words(1), 4)


def many():
    return itertools.islice(words(2), 1024)


def random():
    """Names by a generator of our own, the same under every version of Python."""
    x, seen = 1, {}
    while len(seen) < 1024:
        x = (x * 1103515245 + 12345) % 2147483648
        k = x >> 8
        seen["?" + LETTERS[k % 26] + LETTERS[k // 26 % 26] + LETTERS[k // 676 % 26]] = True
    return iter(seen)


def words_with_number():
    return ("?%s%d" % (WORDS[i % len(WORDS)], i // len(WORDS)) for i in range(1024))


def alike():
    return itertools.islice((w for w in words(4) if place(w) == 0), 1024)


def triples(names, size):
    head = "bgp\t%d\n"
    room = size - len(head % 1000)
    lines = []
    while True:
        line = "t\t%s\t%s\t%s\n" % (next(names), next(names), next(names))
        room -= len(line)
        if room < 0:
            return head % len(lines) + "".join(lines)
        lines.append(line)


def part(names):
    a, b, c = next(names), next(names), next(names)
    return ("filter\nleftjoin\t0\nbgp\t2\nt\t%s\t%s\t%s\nt\t%s\t%s\t%s\nbgp\t1\nt\t%s\t<label>\t%s\n"
            "or\nnot\nbound\t%s\ngt\nterm\t%s\nterm\t\"5\"\n" % (a, TYPE, ITEM, a, PLACE, b, b, c, c, b))


def joined(parts):
    half = len(parts) // 2
    return "join\n" + joined(parts[:half]) + joined(parts[half:]) if half else parts[0]


def query(names, size):
    head = "project\t%s\n" % next(names)
    room = size - len(head) + len("join\n")
    parts = []
    while True:
        text = part(names)
        room -= len("join\n") + len(text)
        if room < 0:
            return head + joined(parts)
        parts.append(text)


def main(folder):
    kinds = {"few": few, "many": many, "random": random, "worded": words_with_number, "alike": alike}
    for shape, (kind, names), size in itertools.product((triples, query), kinds.items(), SIZES):
        with open(os.path.join(folder, "%s-%s-%d" % (shape.__name__, kind, size)), "w", newline="\n") as f:
            f.write(shape(itertools.cycle(names()), size))


if __name__ == "__main__":
    main(sys.argv[1])
