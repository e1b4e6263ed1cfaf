#!/usr/bin/env python3
"""Literals changed behind their first quote: crates/laws' Alike from outside.

    python3 -B tests/literals.py [SEED] [--programs FOLDER]

Takes inputs of the calls that docs/SPECIFICATION.md, "Literals changed", names: the recorded ones of vectors/, those of
without in written_merges.py, and random ones, half of them damaged. In each, some fields that start with a quote get
other bytes behind it, as many, none of them a tab or a line end; head lines stay. Both inputs are answered by
second_calls.py, or by the product's program in FOLDER: the answers have to be one refusal, or two texts of one length
that are the same line by line and field by field, but for fields that are changed literals, each beside what it was.
Last come inputs for which this would not hold: the two of docs/DECISIONS.md. `./test` runs it without any argument.
"""
import argparse
import os
import random
import sys

import calls
import random_texts
from make_vectors import HERE, recorded
from second_calls import TEXTS, answer
from written_merges import WITHOUT

CALLS = [name for name in TEXTS if name in ("merge", "merge_queries", "push", "negate", "without")]
RANDOM = 1500  # inputs a call
BYTES = b'?<>"_:-019axL \\@^\x00\r\x7f\xff'


def is_changeable(fields, place):
    return place > 0 and fields[0] != b"query" and fields[place].startswith(b'"')


def changed(data, rng, share):
    """The input with some literals changed, and the pairs of what they were and what they are."""
    pairs, lines = set(), []
    for line in data.split(b"\n"):
        fields = line.split(b"\t")
        for place, field in enumerate(fields):
            if is_changeable(fields, place) and rng.random() < share:
                fields[place] = b'"' + bytes(rng.choice(BYTES) for _ in field[1:])
                pairs.add((field, fields[place]))
        lines.append(b"\t".join(fields))
    return b"\n".join(lines), pairs


def differences(first, second):
    """The pairs of fields in which two texts of the same form differ; None if their forms are not the same."""
    if len(first) != len(second):
        return None
    rows = [[line.split(b"\t") for line in text.split(b"\n")] for text in (first, second)]
    if list(map(len, rows[0])) != list(map(len, rows[1])):
        return None
    return {pair for lines in zip(*rows) for pair in zip(*lines) if pair[0] != pair[1]}


class Answering:
    """The second implementation, or the programs of a folder."""

    def __init__(self, programs):
        self.ours = None
        if programs:
            sys.path.append(os.path.join(HERE, "..", "compare"))
            import sides
            self.ours = sides.ours(programs)

    def answers(self, name, inputs):
        return self.ours.answers(name, inputs) if self.ours else [answer(name, data) for data in inputs]

    def answer(self, name, data):
        return self.answers(name, [data])[0]


def tried(answering, name, inputs, rng):
    """Of each input whether it has literals that were changed, and whether its answer is a text that differs."""
    others = [changed(data, rng, rng.choice([0.3, 1])) for data in inputs]
    before, after = answering.answers(name, inputs), answering.answers(name, [other for other, _ in others])
    for data, (other, pairs), first, second in zip(inputs, others, before, after):
        assert len(other) == len(data)
        found = differences(first, second)
        assert found is not None and found <= pairs, (name, data, other)
        yield any(a != b for a, b in pairs), bool(found)


def written(name):
    """The recorded inputs of a call."""
    if name in calls.OURS:
        return [given for program, _, given, _ in WITHOUT if program == name]
    return [given for given, _ in recorded(name)]


def random_text(kind, rng):
    """A text of that kind; a tree mostly below a `project`, a list mostly with positions that are inside."""
    make = random_texts.Maker(rng)
    if kind in ("tree", "query") and rng.random() < 0.7:
        head = b"query\tselect\t-\t-\n" if kind == "query" else b""
        return head + b"project\t?x\t?y\t?z\n" + random_texts.well_formed("tree", rng)
    if kind in ("joins", "constants") and rng.random() < 0.8:
        places = [b"%d" % place for place in rng.sample(range(3), rng.randrange(3))]
        return random_texts.joined([[place, place if kind == "joins" else make.constant()] for place in places])
    return random_texts.well_formed(kind, rng)


def random_input(name, rng):
    """Texts of the call's kinds, one of them damaged in half of the inputs."""
    texts = [random_text(kind, rng) for kind in TEXTS[name]]
    if rng.random() < 0.5:
        place = rng.randrange(len(texts))
        texts[place] = random_texts.damaged(texts[place], rng)
    return b"--\n".join(texts)


def heads_are_compared(answering):
    """An opaque field of a head line is no literal, even if it starts with a quote."""
    query = b'query\tselect\t"%s"\t-\nproject\t?a\nbgp\t0\n'
    assert answering.answer("merge_queries", b"--\n".join([query % b"d", query % b"d", b"", b"", b""])).startswith(b"query\t")
    assert answering.answer("merge_queries", b"--\n".join([query % b"e", query % b"d", b"", b"", b""])) == b"refused\t5\n"


def first_quote_stays(answering):
    """The first quote itself tells what a field is."""
    query = b'query\task\t-\t-\nproject\nbgp\t1\nt\t<s>\t<p>\t%s\n'
    assert answering.answer("negate", query % b'"a"').startswith(b"query\t")
    assert answering.answer("negate", query % b"'a'") == b"refused\t1\n"


def main():
    ap = argparse.ArgumentParser()
    ap.add_argument("seed", nargs="?", type=int, default=1)
    ap.add_argument("--programs")
    said = ap.parse_args()
    answering, rng = Answering(said.programs), random.Random(said.seed)
    for name in CALLS:
        found = list(tried(answering, name, written(name) + [random_input(name, rng) for _ in range(RANDOM)], rng))
        print("literals changed, seed %d: %s: %d inputs, %d with a changed literal, %d of them with answers that differ there"
              % (said.seed, name, len(found), sum(a for a, _ in found), sum(b for _, b in found)))
    heads_are_compared(answering)
    first_quote_stays(answering)


if __name__ == "__main__":
    main()
