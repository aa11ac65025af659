"""What the texts of cases stand for, for .ci/cases and .ci/calls.

`@COUNT PART@` stands for so many copies of the part, in which `#` is the number of the copy, from 1 on, and `~` the next one.
`\\n`, `\\r`, `\\t`, `\\0` and `\\xHH` stand for their bytes.
"""
import re

ESCAPES = {"n": b"\n", "r": b"\r", "t": b"\t", "0": b"\0"}


def unescaped(text):
    """The bytes of a text with escapes."""
    pieces = re.split(rb"\\(x..|.)", text)
    for place in range(1, len(pieces), 2):
        name = pieces[place].decode()
        pieces[place] = bytes([int(name[1:], 16)]) if len(name) == 3 else ESCAPES.get(name, name.encode())
    return b"".join(pieces)


def copies(part, has_escapes):
    count, _, one = part.partition(b" ")
    one = unescaped(one) if has_escapes else one
    if b"#" not in one and b"~" not in one:
        return one * int(count)
    return b"".join(one.replace(b"#", b"%d" % k).replace(b"~", b"%d" % (k + 1)) for k in range(1, int(count) + 1))


def whole(text, has_escapes=True):
    """The bytes that a text stands for."""
    parts = text.split(b"@")
    plain = unescaped if has_escapes else bytes
    return b"".join(copies(part, has_escapes) if place % 2 else plain(part) for place, part in enumerate(parts))


def rows_of(body):
    """The rows `FIRST ==> SECOND` among the lines of a text."""
    for line in body.split(b"\n"):
        first, sign, second = line.partition(b" ==>")
        if sign:
            yield first, second.removeprefix(b" ")
