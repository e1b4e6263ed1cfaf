#!/usr/bin/env python3
"""Reports over random inputs: a report gives what its merges in turn give, refusals included.

    python3 -B tests/reports.py [SEED] [CALL]

A report of up to eight queries is made step by step: each step's positions go by the columns of the result so far, now and then
outside. Its answer is held to that of the merges, one after the other: the first that is refused is the report's, and a result
over a bound that another step would merge is 2. Now and then a text is missing, damaged or at a bound, or there are too many
lines. The answers are those of second_calls.py; where CALL is given, the proved program `call`, its answers to the report and to
each merge are held to them too.
"""
import collections
import os
import random
import subprocess
import sys

HERE = os.path.dirname(os.path.abspath(__file__))
sys.path.append(os.path.join(HERE, "..", "compare"))

import inputs
import random_texts
import second_calls
from second_reader import number

REPORTS = 300


def refused(answer):
    """The number of a refusal, or None."""
    return int(answer[8:]) if answer.startswith(b"refused\t") else None


def in_turn(call, texts):
    """By the number of texts, each text's own number and the lines; then by one merge after the other."""
    if len(texts) == 2:
        return call("push", texts)
    if len(texts) > 29 or len(texts) % 4 != 1 or len(texts) == 1:
        return b"refused\t%d\n" % (2 if len(texts) > 29 else 1)
    for kind, text in zip(["query"] + len(texts) // 4 * second_calls.STEP, texts):
        if number(kind, text):
            return b"refused\t%d\n" % number(kind, text)
    if b"".join(texts).count(b"\n") > 8192:
        return b"refused\t8\n"
    result = texts[0]
    for place in range(1, len(texts), 4):
        result = call("merge_queries", [result, *texts[place:place + 4]])
        if refused(result) == 6 and place + 4 < len(texts):
            return b"refused\t2\n"
        if refused(result) is not None:
            return result
    return result


class Reports(inputs.Inputs):
    """Texts of reports, step by step."""

    def report(self):
        head, count = self.head(), self.rng.choice([1, 2, 3, 3, 4, 5, 8, 8])
        texts = [inputs.query(head, self.part())]
        result = texts[0]
        for _ in range(count - 1):
            right = self.part()
            widths = [min(self.width(tree), inputs.trees.COLUMNS) for tree in (result.split(b"\n", 1)[1], right)]
            step = [inputs.query(head if self.chance(0.97) else self.other_head(head), right), self.joins(*widths), *map(self.constants, widths)]
            made = second_calls.answer("merge_queries", inputs.BAR.join([result, *step]))
            result = result if refused(made) is not None else made
            texts += step
        return self.changed(texts if count > 1 else texts + [self.constants(self.width(texts[0].split(b"\n", 1)[1]))])

    def part(self):
        """A tree, most often a small one with project at its root."""
        return b"" if self.chance(0.05) else self.tree(inputs.trees.name_pool(self.rng)) if self.chance(0.3) else self.projected(inputs.trees.name_pool(self.rng))

    def changed(self, texts):
        if self.chance(0.05):
            texts[self.rng.randrange(len(texts))] = random_texts.damaged(texts[self.rng.randrange(len(texts))], self.rng)
        if self.chance(0.04):
            del texts[self.rng.randrange(len(texts))]
        if self.chance(0.04):
            texts += texts[1:1 + self.rng.choice([1, 3, 4])]
        if self.chance(0.02):
            texts = texts[:1] + 5 * [b"query\tselect\t-\t-\nproject\t?a\nvalues\t1\t2040\ncols\t?a\n" + b"row\t-\n" * 2040, b"", b"", b""]
        return texts


def by_second(name, texts):
    return second_calls.answer(name, inputs.BAR.join(texts))


def by_program(program):
    return lambda name, texts: subprocess.run([program, name], input=inputs.BAR.join(texts), stdout=subprocess.PIPE, check=True).stdout


def main(seed, program):
    make, found = Reports(random.Random(seed)), collections.Counter()
    for _ in range(REPORTS):
        data = inputs.BAR.join(make.report())
        texts = second_calls.parted(data)
        expected = by_second("report", texts)
        for call in [by_second] + [by_program(program)] * bool(program):
            assert call("report", texts) == expected, data
            assert in_turn(call, texts) == expected, data
        found[refused(expected)] += 1
    said = ", ".join("%d refused with %d" % (found[key], key) for key in sorted(filter(None, found)))
    print("reports: %d as their merges in turn%s; %d written, %s" % (REPORTS, ", by the program too" * bool(program), found[None], said))


if __name__ == "__main__":
    main(sys.argv[1] if len(sys.argv) > 1 else "1", sys.argv[2] if len(sys.argv) > 2 else None)
