"""Texts for inputs written by hand."""

BAR = b"--\n"
LONG = 65536  # bytes of a program's input, and of its answer


def text(written):
    """The bytes of a text with / for a line end, the last one left out, and spaces for tabs."""
    return written.replace(" ", "\t").replace("/", "\n").encode("latin-1") + b"\n" if written else b""


def refused(number):
    return b"refused\t%d\n" % number


def padded(start, size):
    return start + b"x" * (size - len(start))


MALFORMED = text("bgp 1")
OVER = text("project " + " ".join("?c%d" % i for i in range(257)) + "/bgp 0")
