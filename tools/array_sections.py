"""Prints the table of crates/array_view/src/tests/rows.rt: sections of arrays of four-byte elements, of ranks 1, 2, 3 and 15.

A row has the bounds of each dimension, the subscripts, where the elements begin, and T or F for whether they lie side by side. Each element of
gfortran's array holds where it begins, so gfortran prints the third column. Where a subscript that occurs lies outside its dimension, or a
stride is 0, the row says `none`, and gfortran isn't asked.
`array_sections.py --check` compares the file with what would be printed.
"""
import os
import sys

from fortran_rows import run

FILE = os.path.join(os.path.dirname(os.path.abspath(__file__)), "..", "crates", "array_view", "src", "tests", "rows.rt")
ONES = " ".join(["1:1"] * 6)
WIDE = f"1:2 {ONES} 0:1 {ONES} -1:0"
FIRST = " ".join(["1"] * 6)
ROWS = [
    ("1:5", "1:5:1 2:5:1 1:4:1 5:1:-1 5:1:-2 1:6:3 1:5:3 4:1:-4 9:8:1 0:1:-1 3:3:7 3:3:-7 3:2:1 5 1 1:0:1 [3] [] [3,1,3] [2,3,4] [5,4,3]"),
    ("1:5", "2:6:1 0:3:1 3:0:-1 6:1:-1 2:2:0 9:8:0 0 6 [1,6] [0] 1:7:3 5:-1:-3"),
    ("-2:2", "-2:2:2 2:-2:-2 -1:-1:1 -2 2 [0,-2] 2:3:1 -3:2:1"),
    ("1:0", "1:0:1 5:1:1 [] 1 1:1:1"),
    ("1:3 1:2", "1:3:1,1:2:1 1:3:1,2 2,1:2:1 2,2 1:2:1,1:2:1 1:3:2,2:1:-1 3:1:-1,1:2:1 1:0:1,1:2:1 1:3:1,2:1:1 [3,1],1:2:1 2:3:1,[2,2] [],2 1:3:1,[] 3:1:-1,2:1:-1 2:2:1,1:2:1"),
    ("1:3 1:2", "1:4:1,1:2:1 1:3:1,0:1:1 4,1 1,3 [3,4],1 1:3:1,[3] 1:0:1,3 9:8:1,1:3:1 1:3:0,1"),
    ("0:1 -1:1", "0:1:1,1:-1:-2 1,-1:1:1 1:0:-1,0 0:1:1,[1,-1] [1,1],[0,0]"),
    ("1:2 1:2 1:2", "2:1:-1,2,1:2:1 1:2:1,1:2:1,1:2:1 1:2:1,1:2:1,2 1:2:1,2,1:2:1 1,1:2:1,1:2:1 1,1,1:2:1 1,1,2 2:1:-1,2:1:-1,2:1:-1 1:2:1,1:0:1,2 1:2:1,[2,1],1 [],[1,2],1:2:1 [2,1],[2,1],[2,1] 1:2:2,1:2:2,1:2:2"),
    ("1:2 1:2 1:2", "1:2:1,3,1:2:1 0,1,1 1:2:1,1:2:1,1:3:1 [1,2],[1,3],1 3:1:-1,1,1 1:0:1,1:2:1,3"),
    (WIDE, f"1:2:1 {FIRST} 0:1:1 {FIRST} -1:0:1;2:1:-1 {FIRST} 1:0:-1 {FIRST} 0:-1:-1;1 {FIRST} 1 {FIRST} 0;1:2:1 {FIRST} 0:1:1 {FIRST} 0;"
           f"2 {FIRST} 0:1:1 {FIRST} -1:0:1;[2,1] {FIRST} 0:1:1 {FIRST} -1;1:2:1 {FIRST} [] {FIRST} -1:0:1;1:2:1 {FIRST} 1:0:1 {FIRST} 0;"
           f"1:2:1 {FIRST} 0:1:1 {FIRST} 1;3 {FIRST} 0 {FIRST} 0;1:2:1 {FIRST} [0,2] {FIRST} 0;1:2:1 {FIRST} 0:1:0 {FIRST} 0;1:2:1 {FIRST} 0:2:2 {FIRST} -1:0:2"),
]


def choices(text):
    """The lists of subscripts that a cell of ROWS stands for."""
    if ";" in text:
        return [part.split() for part in text.split(";")]
    lists = []
    for word in text.split():
        subs, inside = [""], False
        for c in word:
            inside = inside or c == "["
            inside = inside and c != "]"
            if c == "," and not inside:
                subs.append("")
            else:
                subs[-1] += c
        lists.append(subs)
    return lists


def occurring(sub):
    """The subscripts that occur, or None for a stride of 0."""
    if sub.startswith("["):
        return [int(k) for k in sub[1:-1].split(",") if k]
    first, *rest = map(int, sub.split(":"))
    if not rest:
        return [first]
    last, stride = rest
    return None if stride == 0 else list(range(first, last + (1 if stride > 0 else -1), stride))


def is_designated(bounds, subs):
    found = [occurring(sub) for sub in subs]
    return all(ks is not None and all(lower <= k <= upper for k in ks) for (lower, upper), ks in zip(bounds, found))


def in_fortran(sub):
    if sub.startswith("["):
        return f"[integer :: {sub[1:-1]}]"
    return sub


def block(bounds, subs):
    """Statements that print the section's elements on one line."""
    shape = [max(upper - lower + 1, 0) for lower, upper in bounds]
    declared = ", ".join(f"{lower}:{upper}" for lower, upper in bounds)
    size = 1
    for extent in shape:
        size *= extent
    reference = ", ".join(map(in_fortran, subs))
    return ["block", "integer :: i", f"integer :: a({declared})", f"a = reshape([(4 * i, i = 0, {size - 1})], {shape})", f"write (*, '(*(I0, 1X))') a({reference})", "end block"]


def rows():
    found = []
    for bounds, text in ROWS:
        limits = [tuple(map(int, bound.split(":"))) for bound in bounds.split()]
        for subs in choices(text):
            assert len(subs) == len(limits), (bounds, subs)
            found.append((bounds, subs, block(limits, subs) if is_designated(limits, subs) else None))
    lines = iter(run([lines for _, _, lines in found if lines]))
    for bounds, subs, asked in found:
        if not asked:
            yield f"{bounds}|{' '.join(subs)}|none|"
            continue
        offsets = list(map(int, next(lines).split()))
        side_by_side = all(b == a + 4 for a, b in zip(offsets, offsets[1:]))
        yield f"{bounds}|{' '.join(subs)}|{' '.join(map(str, offsets))}|{'T' if side_by_side else 'F'}"


def printed():
    text = "\n".join(rows())
    return ("//! Written by tools/array_sections.py: where gfortran finds the elements of sections.\n\n"
            "/// The bounds of each dimension, the subscripts, where the elements begin, and whether they lie side by side.\n"
            f'pub const SECTIONS: &str = "{text}";\n')


if "--check" in sys.argv:
    sys.exit(0 if open(FILE).read() == printed() else "array_sections: the table differs")
sys.stdout.write(printed())
