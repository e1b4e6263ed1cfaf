#!/usr/bin/env python3
"""What a reviewer has to believe: the definition files that the public contracts and the theorems of demands and requests cite.

    believe.py    run in the repository; holds docs/BELIEVE.md against them

A file cites the files that its `use` lines name. From the contracts and theorems of START all files are gathered that are reached so. The page has to
list each of them once, with its number of lines, and no other; a definition file outside stands in a folder `bridge`, or is one of cases or examples.
"""

import pathlib
import re
import sys

CRATES = pathlib.Path("crates")
PAGE = pathlib.Path("docs/BELIEVE.md")

# Where the public contracts stand, and the theorems of the demands and requests.
START = [
    "gandeuch/src/lib.rt", "answering/src/lib.rt", "demand3/proofs/Theorem.antt", "demand3/proofs/Returned.antt",
    "demand3/proofs/Empty.antt", "demand3/proofs/Without.antt", "laws/proofs/Theorem.antt", "merging/proofs/Order.antt", "names/proofs/Narrow.antt",
    "filtering/proofs/NotPlaced.antt", "converting/proofs/Theorem.antt", "turns/proofs/Theorem.antt", "turns/proofs/Returned.antt", "editions/proofs/Theorem.antt",
    "evaluated/proofs/Theorem.antt", "figures/proofs/Theorem.antt",
    "scoping/proofs/Standard.antt", "surveying/proofs/Standard.antt", "room/proofs/Theorem.antt",
]
APART = ("Examples", "Cases", "Agreement")
USE = re.compile(r"^\s*(?:pub )?(?:ghost )?use Rattle\.(?!std\.)(\w+)\.specs\.([\w.]+)", re.M)


def specs():
    """The definition files by crate and module."""
    found = {}
    for path in CRATES.glob("*/specs/**/*.antt"):
        crate, _, *below = path.relative_to(CRATES).with_suffix("").parts
        if below != ["Lib"] and below != ["bridge"]:
            found[crate, ".".join(below)] = path
    return found


def cited(path, files):
    """The definition files that a file cites."""
    for crate, module in USE.findall(path.read_text()):
        parts = module.rstrip(".").split(".")
        known = [".".join(parts[:count]) for count in range(len(parts), 0, -1) if (crate, ".".join(parts[:count])) in files]
        if known:
            yield crate, known[0]
        elif parts[0] != "declared":
            sys.exit(f"{path}: no definition file {crate} {module}")


def closure():
    """All that is reached from the contracts and theorems."""
    files, found = specs(), set()
    waiting = [name for start in START for name in cited(CRATES / start, files)]
    while waiting:
        name = waiting.pop()
        if name not in found:
            found.add(name)
            waiting += cited(files[name], files)
    return found


def main():
    files = specs()
    wanted = {str(files[name]): len(files[name].read_text().splitlines()) for name in closure()}
    rows = re.findall(r"^\| `(crates/[^`]+)` \| (\d+) \|", PAGE.read_text(), re.M)
    listed = {name: int(lines) for name, lines in rows}
    faults = [f"missing: {name} ({wanted[name]} lines)" for name in sorted(wanted.keys() - listed.keys())]
    faults += [f"not cited: {name}" for name in sorted(listed.keys() - wanted.keys())]
    faults += [f"{name} has {wanted[name]} lines" for name in sorted(wanted.keys() & listed.keys()) if wanted[name] != listed[name]]
    faults += ["a file is listed twice"] * (len(rows) != len(listed))
    faults += [f"serves proofs only, and doesn't stand apart: {path}" for (_, module), path in sorted(files.items())
               if str(path) not in wanted and not module.startswith("bridge.") and module not in APART]
    said = re.search(r"(\d+) files with ([\d,]+) lines", PAGE.read_text())
    if not said or (int(said[1]), int(said[2].replace(",", ""))) != (len(wanted), sum(wanted.values())):
        faults.append(f"there are {len(wanted)} files with {sum(wanted.values()):,} lines")
    print(f"definition files to believe: {len(wanted)} with {sum(wanted.values())} lines, {len(faults)} faults in {PAGE}")
    print("\n".join(faults), end="\n" * bool(faults))
    sys.exit(1 if faults else 0)


if __name__ == "__main__":
    main()
