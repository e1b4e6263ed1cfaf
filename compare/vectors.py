"""The file format of vectors. A head, then the cases; a line ==== follows each of them. A case is what a program reads, a
line ->, and what it must write. `%` and two hexadecimal digits stand for a byte that isn't tab, line end or visible ASCII,
and for `%`.
"""

import re
import urllib.parse


def escape(text):
    return re.sub(rb"[^\t\n!-$&-~]", lambda byte: b"%%%02X" % byte[0][0], text)


def write(file, head, cases):
    """Writes pairs of input and output."""
    body = b"".join(escape(case) + b"->\n" + escape(answer) + b"====\n" for case, answer in cases)
    file.write_bytes(head.encode() + b"====\n" + body)


def read(file):
    """The pairs of input and output."""
    parts = file.read_bytes().split(b"\n====\n")
    assert parts.pop() == b"", f"{file}: no line ==== at the end"
    halves = [part.split(b"\n->\n") for part in parts[1:]]
    return [tuple(urllib.parse.unquote_to_bytes(half + b"\n") for half in pair) for pair in halves]
