"""Prints the tables of crates/f_value/src/tests/rows.rt: Fortran's operators and elemental intrinsics at the edges of each kind.

Each value is what gfortran's program prints. Where an operation has no value (its result isn't in its kind, a division by zero, a shift by
more than the width) the row says so in a word, by exact arithmetic, and gfortran isn't asked. Nor is it where its program stops on x86,
at what -1 leaves of the least number, which is 0.
`fortran_values.py --check` compares the file with what would be printed.
"""
import os
import re
import sys

from fortran_rows import run

FILE = os.path.join(os.path.dirname(os.path.abspath(__file__)), "..", "crates", "f_value", "src", "tests", "rows.rt")
COMPARISONS = ["==", "/=", "<", "<=", ">", ">="]


def half(kind):
    return 2 ** (8 * kind - 1)


def truncated(a, b):
    q = abs(a) // abs(b)
    return q if (a < 0) == (b < 0) else -q


def fits(value, kind):
    return -half(kind) <= value < half(kind)


def fault(name, kind, a, b):
    """The word for a row that has no value, or None."""
    if name in ("/", "mod", "modulo") and b == 0 or name == "**" and a == 0 and b < 0:
        return "zero"
    if name in ("mod", "modulo") and b == -1:
        return "0"
    if name == "ishft":
        return "shift" if abs(b) > 8 * kind else None
    if name == "**":
        size = 0 if abs(a) < 2 or b < 0 else abs(b)
        exact = half(kind) if size > 130 else a ** size if size else 0
    else:
        exact = {"+": lambda: a + b, "-": lambda: a - b, "*": lambda: a * b, "/": lambda: truncated(a, b),
                 "negative": lambda: -a, "abs": lambda: abs(a)}.get(name, lambda: 0)()
    return None if fits(exact, kind) else "kind"


def of_kind(kind):
    """The rows of numbers of one kind: name, a, b (None for one argument)."""
    low, high, width = -half(kind), half(kind) - 1, 8 * kind
    rows = []

    def add(name, *pairs):
        rows.extend((name, a, b) for a, b in pairs)

    add("+", (high, 1), (high, 0), (low, -1), (low, high))
    add("-", (low, 1), (low, low), (0, low), (-1, high), (low, -1))
    add("*", (low, -1), (high, -1), (high, high), (low, 1), (2 ** (4 * kind), 2 ** (4 * kind - 2)), (2 ** (4 * kind), 2 ** (4 * kind - 1)))
    add("/", (low, -1), (low, 1), (-7, 2), (7, -2), (-7, -2), (high, low), (low, high), (1, 0))
    add("**", (2, width - 1), (2, width - 2), (-2, width - 1), (-2, width), (0, 0), (0, -1), (0, 5), (3, -1), (-1, -3), (-1, -2), (-1, high), (1, low),
        (low, 1), (low, 0), (high, 2), (2, high), (2, low), (-3, 4))
    for name in COMPARISONS:
        add(name, (low, high), (high, low), (-1, -1))
    for name in ("mod", "modulo"):
        add(name, (-7, 2), (-8, 5), (8, -5), (-8, -5), (8, 4), (low, -1), (low, high), (high, low), (1, 0))
    for name in ("iand", "ior", "ieor"):
        add(name, (low, high), (-1, low), (-2, 7), (85, 51))
    add("ishft", (-1, width - 1), (-1, 1 - width), (1, width), (-1, -width), (1, width + 1), (1, -width - 1), (high, 1), (low, -1), (-1, 0), (low, 1), (85, 1), (-86, -3))
    for name in ("max", "min"):
        add(name, (low, high), (0, -1))
    for name in ("not", "abs", "negative"):
        add(name, (low, None), (high, None), (-1, None), (0, None))
    return rows


TEXTS = [("", ""), ("", " "), ("ab", "ab  "), ("ab ", "ab"), ("ab", "abc"), ("b", "ab"), ("ab", "a"), ("ab", "ab!"), ("a", "B"), ("ab", "ab\x1f")]


def number(value, kind):
    return f"(-{half(kind) - 1}_{kind} - 1_{kind})" if value == -half(kind) else f"{value}_{kind}" if value >= 0 else f"(-{-value}_{kind})"


def characters(text):
    """A text as a Fortran expression, its controls by ACHAR."""
    return " // ".join([f"'{part}'" if part.isprintable() else f"achar({ord(part)})" for part in re.findall(r"[^\x00-\x1f]+|[\x00-\x1f]", text)] or ["''"])


def expression(name):
    if name in ("+", "-", "*", "/", "**"):
        return f"a {name} b"
    if name in COMPARISONS:
        return f"merge(1, 0, a {name} b)"
    return {"negative": "-a", "not": "not(a)", "abs": "abs(a)"}.get(name, f"{name}(a, b)")


def block(kind, a, other_kind, b, text):
    lines = ["block", f"integer({kind}), volatile :: a", f"a = {number(a, kind)}"]
    if b is not None:
        lines[2:2] = [f"integer({other_kind}), volatile :: b"]
        lines += [f"b = {number(b, other_kind)}"]
    return lines + [f"write (*, '(I0)') {text}", "end block"]


def answered(rows, between=" "):
    """The rows with their answers: each has its words, its fault or None, and its block."""
    values = iter(run([lines for _, word, lines in rows if word is None]))
    return [f"{words}{between}{word or next(values)}" for words, word, lines in rows]


def numbers(kind):
    return [(f"{name} {a}" + ("" if b is None else f" {b}"), fault(name, kind, a, b), block(kind, a, kind, b, expression(name))) for name, a, b in of_kind(kind)]


def two_kinds():
    """Operands of two kinds, and INT to a kind: name, kind, a, the other kind, b."""
    rows = [("+", 1, 127, 2, 1), ("+", 2, 32767, 1, 1), ("*", 4, 2147483647, 8, 2), ("*", 8, 9223372036854775807, 1, 2), ("-", 1, -128, 4, 1), ("/", 2, -32768, 1, -1), ("**", 1, 2, 8, 40), ("<", 1, -1, 8, 0)]
    found = [(f"{name} {j} {a} {k} {b}", fault(name, max(j, k), a, b), block(j, a, k, b, expression(name))) for name, j, a, k, b in rows]
    for kind in (1, 2, 4, 8):
        for a in (half(kind) - 1, half(kind), -half(kind), -half(kind) - 1):
            if fits(a, 8):
                found.append((f"int 8 {a} 4 {kind}", None if fits(a, kind) else "kind", block(8, a, 4, None, f"int(a, {kind})")))
    return found


def of_texts():
    rows = []
    for s, t in TEXTS:
        for name in COMPARISONS:
            rows.append((f"{name}|{s}|{t}", None, ["block", f"character({len(s)}), volatile :: a", f"character({len(t)}), volatile :: b", f"a = {characters(s)}", f"b = {characters(t)}", f"write (*, '(I0)') merge(1, 0, a {name} b)", "end block"]))
    for s in ("", " ", "a", " a b  ", "a\tb "):
        rows.append((f"len_trim|{s}|", None, ["block", f"character({len(s)}), volatile :: a", f"a = {characters(s)}", "write (*, '(I0)') len_trim(a)", "end block"]))
    return answered(rows, "|")


def tables():
    for kind in (1, 2, 4, 8):
        yield f"OF_KIND_{kind}", f"Numbers of kind {kind}: the operation, its operands, and its value or why it has none.", answered(numbers(kind))
    yield "OF_TWO_KINDS", "The operation, the first operand's kind and value, the second's, and the value or why there is none.", answered(two_kinds())
    yield "OF_TEXTS", "The operation, its operands, and the value.", of_texts()


def printed():
    parts = ["//! Written by tools/fortran_values.py: values of gfortran, and words where an operation has none."]
    for name, comment, rows in tables():
        text = "\n".join(rows).replace("\\", "\\\\").replace("\t", "\\t").replace("\x1f", "\\x1f").replace('"', '\\"')
        parts.append(f'/// {comment}\npub const {name}: &str = "{text}";')
    return "\n\n".join(parts) + "\n"


if "--check" in sys.argv:
    sys.exit(0 if open(FILE).read() == printed() else "fortran_values: the tables differ")
sys.stdout.write(printed())
