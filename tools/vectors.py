#!/usr/bin/env python3
"""The vectors of the program dta_vectors, from Stata's published tables as document 01 corrects them.

  tools/vectors.py           write crates/dta_vectors/stdin and crates/dta_vectors/stdout
  tools/vectors.py --check   exit 1 if one of them is not what would be written

A vector is a cell of a numeric type by its bytes, in either byte order; a type code; or a search in a published label table. What each
must give is worked out here, from the published ranges, with Python's own floats, and not from the definitions of the crates.
"""
import os
import struct
import sys

ROOT = os.path.dirname(os.path.dirname(os.path.abspath(__file__)))
CRATE = os.path.join(ROOT, "crates", "dta_vectors")

# the types: 117's code, bytes
TYPES = {"byte": (65530, 1), "int": (65529, 2), "long": (65528, 4), "float": (65527, 4), "double": (65526, 8)}
# the range of whole numbers of each type; the 27 values above it are the letters
RANGES = {"byte": (-127, 100), "int": (-32767, 32740), "long": (-2147483647, 2147483620)}
LETTERS = [".", *("." + c for c in "abcdefghijklmnopqrstuvwxyz")]
# the published bits of floats and doubles: minimum, maximum, code for `.`, and the step from a letter to the next
REALS = {
    "float": dict(m=0xFEFFFFFF, M=0x7EFFFFFF, dot=0x7F000000, step=0x800, inf=0x7F800000, minus=0x80000000),
    "double": dict(m=0xFFEFFFFFFFFFFFFF, M=0x7FDFFFFFFFFFFFFF, dot=0x7FE0000000000000, step=0x10000000000, inf=0x7FF0000000000000, minus=0x8000000000000000),
}


def whole_vectors(kind):
    """Every boundary of a whole type, and every letter."""
    low, high = RANGES[kind]
    top = 256 ** TYPES[kind][1]
    values = [low - 1, low, low + 1, -1, 0, 1, high - 1, *range(high, high + 28)]
    return [v % top for v in values]


def real_vectors(kind):
    """The published rows, every letter, every boundary, and numbers at the edges of the label search."""
    r, form = REALS[kind], {"float": ">f", "double": ">d"}[kind]
    bits = [r["m"], r["M"], r["dot"] - 1]
    for k in range(27):
        bits.append(r["dot"] + k * r["step"])
    bits += [r["dot"] + 1, r["dot"] + r["step"] - 1, r["dot"] + r["step"] + 1, r["dot"] + 26 * r["step"] - 1, r["dot"] + 26 * r["step"] + 1]
    bits += [r["dot"] + 27 * r["step"], r["inf"] - 1, r["inf"], r["inf"] + 1, r["minus"] - 1, r["minus"], r["minus"] + 1]
    bits += [r["m"] - 1, r["m"] + 1, r["minus"] + r["inf"], r["minus"] + r["inf"] + 1, 2 * r["minus"] - 1, 0, 1]
    values = [1.0, -1.0, 9.0, 9.7, -9.0, 0.5, 101.0, 3.141592653589793, 2147483520.0, 2147483648.0, -2147483520.0, -2147483648.0]
    if kind == "double":
        values += [2147483619.0, 2147483620.0, 2147483620.5, 2147483621.0, 2147483622.0, 2147483647.0, -2147483647.0, -2147483647.5, 4294967296.0, 1e300]
    bits += [int.from_bytes(struct.pack(form, v), "big") for v in values]
    return list(dict.fromkeys(bits))


def says(kind, bits):
    """What the cell says, and what it seeks, in words."""
    if kind in RANGES:
        top = 256 ** TYPES[kind][1]
        value = bits - top if bits >= top // 2 else bits
        low, high = RANGES[kind]
        if low <= value <= high:
            return "number %d" % value, value
        if value > high:
            return letter(value - high - 1)
        return "outside", None
    r, form = REALS[kind], {"float": ">f", "double": ">d"}[kind]
    if r["dot"] <= bits <= r["inf"]:
        k, rest = divmod(bits - r["dot"], r["step"])
        return letter(k) if rest == 0 and k <= 26 else ("between", None)
    if bits <= r["M"] or r["minus"] <= bits <= r["m"]:
        value = struct.unpack(form, bits.to_bytes(TYPES[kind][1], "big"))[0]
        whole = value == int(value) and -2147483647 <= value <= 2147483620
        return "number %s" % struct.pack(">d", value).hex(), int(value) if whole else None
    return "outside", None


def letter(k):
    return "letter %s" % LETTERS[k], 2147483621 + k


# type codes at every boundary: edition, code, kind, width
def code_vectors():
    old = {251: "byte", 252: "int", 253: "long", 254: "float", 255: "double"}
    new = {TYPES[k][0]: k for k in TYPES}
    for code in [0, 1, 2, 243, 244, 245, 250, 251, 252, 253, 254, 255, 256, 32768, 65530]:
        yield 114, code, old.get(code, "text" if 1 <= code <= 244 else "unknown")
    for code in [0, 1, 2, 244, 251, 2044, 2045, 2046, 32767, 32768, 32769, 65525, 65526, 65527, 65528, 65529, 65530, 65531, 65535]:
        yield 117, code, new.get(code, "strL" if code == 32768 else "text" if 1 <= code <= 2045 else "unknown")


def width_of(kind, code):
    return code if kind == "text" else {"strL": 8, "unknown": 0}.get(kind) if kind in ("strL", "unknown") else TYPES[kind][1]


# 003's label tables for yes and no: as published, recorded the other way round, and (not allowed) with its values out of order
def table(order, offsets, values, text):
    number = ">%dI" if order == "MSF" else "<%dI"
    return struct.pack(number % 2, len(values), len(text)) + struct.pack(number % (2 * len(values)), *offsets, *values) + text


TABLES = [("yes and no", (0, 4), (1, 2), b"yes\0no\0"), ("no and yes", (3, 0), (1, 2), b"no\0yes\0"), ("out of order", (4, 0), (2, 1), b"yes\0no\0")]


def published_search(values, sought):
    """003's vlfindval."""
    if not values:
        return -1
    lb, ub = 0, len(values) - 1
    while True:
        middle = (lb + ub) // 2
        if sought == values[middle]:
            return middle
        if sought < values[middle]:
            ub = middle - 1
            if ub < lb:
                return -(middle + 1)
        else:
            lb = middle + 1
            if ub < lb:
                return -(lb + 1)


def lines_and_rows():
    cells, codes, searches, lines = [], [], [], []
    for kind in TYPES:
        for bits in whole_vectors(kind) if kind in RANGES else real_vectors(kind):
            code, width = TYPES[kind]
            for order in ("MSF", "LSF"):
                data = bits.to_bytes(width, "big" if order == "MSF" else "little")
                said, sought = says(kind, bits)
                lines.append("%s %s %s %s seeks %s" % (kind, order, data.hex(), said, "nothing" if sought is None else sought))
                cells.append([1 if order == "MSF" else 0, code // 256, code % 256, *data.ljust(8, b"\0")])
    for edition, code, kind in code_vectors():
        lines.append("%d type %d %s %d" % (edition, code, kind, width_of(kind, code)))
        codes.append([1 if edition == 117 else 0, code // 256, code % 256])
    for name, offsets, values, text in TABLES:
        for order in ("MSF", "LSF"):
            for sought in (-1, 0, 1, 2, 3):
                slot = published_search(values, sought)
                lines.append("table %s %s seeks %d %s" % (order, table(order, offsets, values, text).hex(), sought, "slot %d" % slot if slot >= 0 else "not found"))
                searches.append([1 if order == "MSF" else 0, sought + 1, *table(order, offsets, values, text)])
    return lines, cells, codes, searches


ROW = 34  # bytes of a row: what it is (0 cell, 1 type code, 2 search), and its contents


def files():
    lines, *tables = lines_and_rows()
    rows = b"".join(bytes([what, *row]).ljust(ROW, b"\0") for what, table in enumerate(tables) for row in table)
    return {"stdin": rows, "stdout": "".join(l + "\n" for l in lines).encode()}


def main():
    wrong = 0
    for path, text in files().items():
        path = os.path.join(CRATE, path)
        if sys.argv[1:] == ["--check"]:
            if not os.path.exists(path) or open(path, "rb").read() != text:
                print("%s is not what tools/vectors.py writes" % os.path.relpath(path, ROOT))
                wrong = 1
        elif sys.argv[1:]:
            print(__doc__)
            return 2
        else:
            with open(path, "wb") as f:
                f.write(text)
    return wrong


if __name__ == "__main__":
    sys.exit(main())
