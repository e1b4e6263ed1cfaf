#!/usr/bin/env python3
"""Runs the commands of documents and holds what they do against what is written there.

    commands.py FILE...    run in the repository, with HOME set to a folder that may be written

In a fenced block `console` a line `$ COMMAND` is run by sh, and the lines up to the next one are what it writes, standard output first and then
standard error. A line `...` stands for any number of lines, and `...` at a line's end for the rest of it. A last line `[N]` is the exit status where it isn't 0.
`./test` is not run: it runs this script. Exits with 1 if a command does something else, or a file has none.
"""

import re
import subprocess
import sys

SELF = "./test"


def commands(text):
    """The commands of a document with the lines that follow each."""
    for block in re.findall(r"^```console\n(.*?)^```$", text, re.M | re.S):
        for part in re.split(r"^\$ ", block, flags=re.M)[1:]:
            command, *expected = part.rstrip("\n").split("\n")
            yield command, expected


def pattern(lines):
    """A regular expression for the lines."""
    parts = []
    for line in lines:
        if line == "...":
            parts.append(r"(?:.*\n)*?")
        elif line.endswith("..."):
            parts.append(re.escape(line[:-3]) + r".*\n")
        else:
            parts.append(re.escape(line) + r"\n")
    return "".join(parts) + r"\Z"


def run(command, expected):
    """None, or what is wrong."""
    status = 0
    if expected and re.fullmatch(r"\[\d+\]", expected[-1]):
        status = int(expected[-1][1:-1])
        expected = expected[:-1]
    done = subprocess.run(["sh", "-c", command], stdout=subprocess.PIPE, stderr=subprocess.PIPE, stdin=subprocess.DEVNULL, text=True)
    written = done.stdout
    if status == done.returncode and (re.match(pattern(expected), written) or re.match(pattern(expected), written + done.stderr)):
        return None
    return f"status {done.returncode}\n{written}{done.stderr}"


def main():
    failed = 0
    for name in sys.argv[1:]:
        with open(name, encoding="utf-8") as file:
            found = [pair for pair in commands(file.read()) if pair[0] != SELF]
        wrong = [(command, said) for command, expected in found if (said := run(command, expected))]
        for command, said in wrong:
            print(f"{name}: {command}\n{said}")
        print(f"{name}: {len(found)} commands, {len(wrong)} do something else")
        failed += bool(wrong) or not found
    sys.exit(1 if failed or len(sys.argv) == 1 else 0)


if __name__ == "__main__":
    main()
