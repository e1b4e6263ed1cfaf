#!/usr/bin/env python3
"""The calls, as calls.txt lists them; all that names calls is held to that table.

    python3 calls.py    run in the repository; prints how many calls there are, or what differs

A new call is a row of the table, a row of `calls` in crates/answering/specs/Answering.antt, and what this test then misses.
"""
import collections
import os
import re
import subprocess
import sys

HERE = os.path.dirname(os.path.abspath(__file__))
Row = collections.namedtuple("Row", "name kinds c rust room list")


def rows():
    """The table's rows, by their numbers."""
    with open(os.path.join(HERE, "calls.txt"), encoding="utf8") as file:
        lines = [line.split() for line in file if not line.startswith("#")]
    assert [int(line[0]) for line in lines] == list(range(len(lines))), "calls.txt: the numbers go from 0"
    return [Row(name, kinds.split(","), *others) for _, name, kinds, *others in lines]


ROWS = rows()
NAMES = [row.name for row in ROWS]
COUNT = {"one": 1, "two": 2, "three": 3, "five": 5, "listing": 2}
OURS = {"without", "namespaces"}  # the calls that nemo has not


def read(path):
    with open(os.path.join(HERE, "..", path), encoding="utf8") as file:
        return file.read()


def functions(path, head, text, end=")"):
    """The functions of a file by name, with the number of their texts."""
    found = {}
    for match in re.finditer(head + r"(\w+)\(", read(path)):
        found[match[1]] = read(path)[match.end():].split(end)[0].count(text)
    return found


def named(path, pattern):
    return re.findall(pattern, read(path))


def helped():
    """The calls that `run --help` lists, with the texts that each has to have."""
    said = subprocess.run([os.path.join(HERE, "..", "run"), "--help"], stdout=subprocess.PIPE, check=True, text=True).stdout
    lines = said.split("calls:\n")[1].split("\n\n")[0].splitlines()
    return {line.split()[0]: len(re.findall(r"\b[A-Z_]+\b", line.split("   ")[0])) for line in lines}


def counted(name):
    """By the table: a field, and the number of texts."""
    return {getattr(row, name): len(row.kinds) for row in ROWS}


def rooms(case):
    return sorted({case(row.room) for row in ROWS})


def listing(name):
    """By the table: a field of the calls that list numbers."""
    return [getattr(row, name) for row in ROWS if row.list != "-"]


def lending(path, head, text):
    """The functions of a file that have a list."""
    return [name for name, count in functions(path, head, text).items() if count]


def files(folder, names, ends):
    return sorted(name + end for name in names for end in ends), sorted(os.listdir(os.path.join(HERE, folder)))


def pairs():
    """What is said of calls, by the table and in a place."""
    numbers = {name: str(number) for number, name in enumerate(NAMES)}
    table = read("crates/answering/specs/Answering.antt").split("\ncalls =\n")[1].split("[]")[0]
    yield "answering/specs", {name: COUNT[count] for count, name in re.findall(r'(\w+) "(\w+)"', table)}, counted("name")
    yield "answering/specs, in order", re.findall(r'"(\w+)"', table), NAMES
    yield "answering/specs, lists", re.findall(r'listing "(\w+)"', table), listing("name")
    yield "gandeuch/src, lists", lending("crates/gandeuch/src/lib.rt", r'extern "C" fn ', ": &mut [u16]"), listing("c")
    yield "include, lists", lending("include/gandeuch.h", r"\nuint8_t ", "uint16_t *"), listing("c")
    yield "rust/src/ffi.rs, lists", lending("rust/src/ffi.rs", "pub fn ", "*mut u16"), listing("c")
    yield "rust/src/lib.rs, lists", named("rust/src/lib.rs", r"\npub fn (\w+)\([^)]*\) -> Result<\(Vec<u8>, Vec<u16>\)"), listing("rust")
    yield "answering/src", named("crates/answering/src/lib.rt", r'= \*b"(\w+)";'), [*NAMES, *sorted({row.list for row in ROWS} - {"-"})]
    yield "gandeuch/src", functions("crates/gandeuch/src/lib.rt", r'extern "C" fn ', ": &[u8]"), counted("c")
    yield "include", functions("include/gandeuch.h", r"\nuint8_t ", "const uint8_t *"), counted("c")
    yield "rust/src/ffi.rs", functions("rust/src/ffi.rs", "pub fn ", "*const u8"), counted("c")
    yield "rust/src/lib.rs", functions("rust/src/lib.rs", "\npub fn ", ": &[u8]"), counted("rust")
    yield "rooms for C", sorted(named("include/gandeuch.h", r"#define GANDEUCH_(\w+)_ROOM\(")), rooms(str)
    yield "rooms for Rust", sorted(named("rust/src/room.rs", r"pub fn (\w+)\(")), rooms(str.lower)
    yield "rooms proved", sorted(named("crates/room/specs/Room.antt", r"pub (\w+)_room :")), sorted([*rooms(str.lower), "list"])
    yield "run --help", helped(), counted("name")
    yield "run", {name: int(count) - 1 for count, name in named("run", r'"([0-9]) (\w+)"') if name in NAMES}, counted("name")
    yield "install", {"call", "merge"} - set(named("install", r'programs="(.*)"')[0].split()), set()
    timed = named("bench/calls", r"\b([0-9]+):(\w+)")
    yield "bench/calls", timed, [(numbers[name], name) for _, name in timed]
    for program in "bench_calls", "vectors":
        said = named(f"crates/{program}/src/main.rt", r"\b([0-9]+) ([a-z_]+)(?:,| and|\.)")
        yield f"crates/{program}", said, [(numbers[name], name) for name in NAMES]
    yield "bench/stack", named("bench/stack", r"for call in (.*); do")[0].split(), NAMES
    yield "bench/stack.c", dict(named("bench/stack.c", r'call, "(\w+)"\)\) return (\w+)\(')), {row.name: row.c for row in ROWS}
    yield "compare/driver", set(NAMES) - OURS - set(named("compare/driver/main.rs", r'"(\w+)" =>')), set()
    yield "docs/SPECIFICATION.md", set(named("docs/SPECIFICATION.md", r"\n```call (\w+)\n")), set(NAMES)
    yield "rust/tests", set(NAMES) - set(named("rust/tests/answers.rs", r'\("(\w+)"')), set()
    yield "tests/c", {row.c for row in ROWS} - set(named("tests/c/calls.c", r"\b(gandeuch_\w+)\(")), set()
    yield ("tests/vectors", *files("vectors", sorted(set(NAMES) - OURS), [".txt"]))
    stored, found = files("calls", NAMES, [".stdin", ".stdout"])
    yield "tests/calls", sorted(stored + [name + ".stderr" for name in listing("name")]), found


def main():
    differ = [f"{place}: {said} and {other}" for place, said, other in pairs() if said != other]
    print("\n".join(differ) or f"calls: {len(ROWS)}, all places as tests/calls.txt has them")
    sys.exit(bool(differ))


if __name__ == "__main__":
    main()
