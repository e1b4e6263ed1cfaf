"""The two sides: nemo's Rust in the driver, and ours: the program `call`, one case a process, or `vectors`, many cases a process."""

import concurrent.futures
import os
import pathlib
import re
import subprocess
import sys
import tempfile

HERE = pathlib.Path(__file__).resolve().parent
sys.path.append(str(HERE.parent / "tests"))

import calls

ROOM = 65536  # bytes of a program's answer; a longer one is refusal 6


def build(rust, out):
    """Builds both drivers from the folder of nemo's files."""
    subprocess.run([HERE / "build", rust, out], check=True)


def split_cases(text):
    """The cases of a text in which a line ==== follows each."""
    return [case + b"\n" for case in text.split(b"\n====\n")[:-1]]


class Driver:
    """A driver that `build` made: ordered or untouched."""

    def __init__(self, folder, kind):
        self.path = pathlib.Path(folder) / f"driver-{kind}"

    def answers(self, mode, cases):
        text = b"".join(case + b"====\n" for case in cases)
        done = subprocess.run([self.path, "batch", *mode.split()], input=text, stdout=subprocess.PIPE, check=True)
        answers = split_cases(done.stdout)
        assert len(answers) == len(cases)
        return [answer if len(answer) <= ROOM else b"refused\t6\n" for answer in answers]


def without_left(shown):
    """An answer without the line `left` behind it, which the Rust doesn't have; no line of a tree or a query begins so."""
    return re.sub(rb"(?m)^left\t.*\n\Z", b"", shown)


class Batch:
    """The program `vectors` of a folder: what the program `call` writes for a name, for all cases in one process."""

    def __init__(self, folder):
        self.path = pathlib.Path(folder).resolve() / "vectors"

    def answers(self, program, cases):
        return list(map(without_left, self.shown(program, cases)))

    def shown(self, program, cases):
        """The answers, each with its line `left`, if it has one."""
        with tempfile.TemporaryDirectory() as room:
            with open(pathlib.Path(room) / "cases", "wb") as file:
                for number, case in enumerate(cases):
                    file.write(b"%d\t%d\t==== %d\n%s\n" % (calls.NAMES.index(program), len(case), number, case))
            done = subprocess.run([self.path], cwd=room, stdout=subprocess.PIPE)
        answers = re.split(rb"(?m)^==== [0-9]+\n", done.stdout)[1:]
        if done.returncode:
            answers.append(b"stopped with %d\n" % done.returncode)
        return answers[: len(cases)] + [b"no answer\n"] * (len(cases) - len(answers))


class Programs:
    """The program `call` of a folder."""

    def __init__(self, folder):
        self.folder = pathlib.Path(folder).resolve()

    def answer(self, program, case):
        done = subprocess.run([self.folder / "call", program], input=case, stdout=subprocess.PIPE, stderr=subprocess.PIPE, timeout=60)
        return done.stdout + done.stderr if done.returncode >= 0 else b"stopped by signal %d\n" % -done.returncode

    def answers(self, program, cases):
        return list(map(without_left, self.shown(program, cases)))

    def shown(self, program, cases):
        """The answers, each with its line `left`, if it has one."""
        with concurrent.futures.ThreadPoolExecutor(os.cpu_count()) as pool:
            return list(pool.map(lambda case: self.answer(program, case), cases))


def ours(folder):
    """Our side: `vectors`, if the folder has it, else the program `call`."""
    return Batch(folder) if (pathlib.Path(folder) / "vectors").exists() else Programs(folder)
