#!/usr/bin/env python3
"""tools/moved on a repository of two commits that is made for it.

    python3 -B tests/moved.py

The second commit has definitions, contracts and laws that stayed, in their file or in another, under other comments, imports and proofs; changed; new; gone;
one name that two files define; and a definition that leaves the believed files. Where no git runs it says so, and that is all.
"""
import os
import shutil
import subprocess
import sys
import tempfile

TOOL = os.path.join(os.path.dirname(os.path.dirname(os.path.abspath(__file__))), "tools", "moved")

OLD = {
    "docs/BELIEVE.md": "| `crates/a/specs/Row.antt` | 9 | rows |\nThe `ensures` of crates/a/src/lib.rt.\n",
    "crates/a/specs/Row.antt": """-- Rows.
use x.{y}

-- kept
unfoldable pub width : Row → ℕ
unfolding length
width r = length r  -- its cells

pub record Row : Type 0 where
  pub cells : List Cell

abbrev pub Only : Row → Type 0
Only r = width r ≡ 1

unfoldable pub size : Row → ℕ
size r = 0
""",
    "crates/a/specs/bridge/Walk.antt": """unfoldable mutual
  unfolding width

  pub even : ℕ → Bool
  even zero = true
  even (suc n) = odd n

  pub odd : ℕ → Bool
  odd zero = false
  odd (suc n) = even n

abbrev size : ℕ → ℕ
size n = n
""",
    "crates/a/proofs/Laws.antt": """module _ (r : Row) where
  pub some-cell : width r ≡ 1 → Some r
  some-cell h = search rules

  pub no-cell : width r ≡ 0 → None r
  no-cell h = refl

pub old-law : "--" ≡ "--"
old-law = refl
""",
    "crates/a/proofs/f/Answers.antt": "pub returns : goal.returns\nreturns c = a\n",
    "crates/a/src/lib.rt": """// Code.
fn free(x: u8) -> u8 {
    x
}

pub fn width(x: &[u8]) -> usize
    ensures { result ≡ 1 }
{
    1
}

impl S {
    fn at(self) -> u8
        requires { 1 ≤ 2 }
    {
        0
    }
}
""",
}

NEW = {
    "docs/BELIEVE.md": OLD["docs/BELIEVE.md"],
    "crates/a/specs/Row.antt": OLD["crates/a/specs/Row.antt"].replace("use x", "use z").replace("-- kept", "-- the same").replace("size r = 0", "size r = 1")
    .replace("abbrev pub Only : Row → Type 0\nOnly r = width r ≡ 1\n", "pub data Cell : Type 0 where\n  unbound : Cell\n"),
    "crates/a/specs/bridge/Walk.antt": OLD["crates/a/specs/bridge/Walk.antt"].replace("odd zero = false", "odd zero = true")
    + "\nabbrev pub Only : Row → Type 0\nOnly r =\n    width r ≡ 1\n",
    "crates/b/proofs/Cells.antt": OLD["crates/a/proofs/Laws.antt"].replace("search rules", "omega arith").replace("≡ 0", "≡ 2").replace("old-law", "new-law"),
    "crates/a/proofs/f/Answers.antt": "pub returns : goal.returns\nreturns c = b\n",
    "crates/a/src/lib.rt": OLD["crates/a/src/lib.rt"].replace("    1\n}", "    2 - 1\n}").replace("1 ≤ 2", "1 ≤ 3").replace("S {", "T {"),
}

EXPECTED = """believed definitions: 1 changed, 1 new, 0 gone, 3 stayed
  changed: a/specs/Row.antt: size
  new: a/specs/Row.antt: Cell
  believed no more: a/specs/bridge/Walk.antt: Only
other definitions: 1 changed, 0 new, 0 gone, 2 stayed
  changed: a/specs/bridge/Walk.antt: odd
believed contracts: 1 changed, 0 new, 0 gone, 1 stayed
  changed: a/src/lib.rt: at
other contracts: 0 changed, 0 new, 0 gone, 0 stayed
believed laws: 0 changed, 0 new, 0 gone, 0 stayed
other laws: 1 changed, 1 new, 1 gone, 1 stayed
  changed: b/proofs/Cells.antt: no-cell
  new: b/proofs/Cells.antt: new-law
  gone: a/proofs/Laws.antt: old-law
"""


def commit(folder, texts):
    """One commit of these texts and no others."""
    def git(*words):
        subprocess.run(["git", "-c", "user.name=a", "-c", "user.email=a@b", *words], cwd=folder, check=True, stdout=subprocess.DEVNULL)
    git("init", "-q")
    git("rm", "-rqf", "--ignore-unmatch", ".")
    for name, text in texts.items():
        path = os.path.join(folder, name)
        os.makedirs(os.path.dirname(path), exist_ok=True)
        with open(path, "w", encoding="utf-8") as file:
            file.write(text)
    git("add", ".")
    git("commit", "-qm", "texts")


def main():
    if not shutil.which("git"):
        sys.exit(print("tools/moved: no git on the PATH, not tested"))
    with tempfile.TemporaryDirectory() as folder:
        commit(folder, OLD)
        commit(folder, NEW)
        done = subprocess.run([TOOL, "HEAD~1", "HEAD"], cwd=folder, stdout=subprocess.PIPE, text=True)
        same = subprocess.run([TOOL, "HEAD", "HEAD"], cwd=folder, stdout=subprocess.PIPE, text=True)
    fine = done.stdout == EXPECTED and "  " not in same.stdout and "stayed" in same.stdout
    print("tools/moved: as expected" if fine else f"tools/moved wrote\n{done.stdout}{same.stdout}")
    sys.exit(0 if fine else 1)


if __name__ == "__main__":
    main()
