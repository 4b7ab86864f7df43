#!/usr/bin/env python3
"""Document 01's example P14, the stored run of the program dta_header.

  tools/p14.py            write crates/dta_header/stdin and crates/dta_header/stdout
  tools/p14.py --check    exit 1 if they are not what would be written
"""
import pathlib
import struct
import sys

ROOT = pathlib.Path(__file__).resolve().parent.parent
MAP = [0, 153, 276, 313, 400, 427, 544, 649, 846, 881, 900, 915, 944, 956]


def tagged(name, content):
    return b"<" + name + b">" + content + b"</" + name + b">"


def field(text, width):
    return text.ljust(width, b"\0")


def p14():
    """117, MSF, float and int, N = 1, a stamp of 17 bytes, names myfloat and myint, all else empty."""
    header = (
        tagged(b"release", b"117")
        + tagged(b"byteorder", b"MSF")
        + tagged(b"K", struct.pack(">H", 2))
        + tagged(b"N", struct.pack(">I", 1))
        + tagged(b"label", b"\0")
        + tagged(b"timestamp", b"\x11" + b"01 Jan 2013 00:00")
    )
    return tagged(
        b"stata_dta",
        tagged(b"header", header)
        + tagged(b"map", struct.pack(">14Q", *MAP))
        + tagged(b"variable_types", struct.pack(">2H", 65527, 65529))
        + tagged(b"varnames", field(b"myfloat", 33) + field(b"myint", 33))
        + tagged(b"sortlist", bytes(6))
        + tagged(b"formats", bytes(98))
        + tagged(b"value_label_names", bytes(66))
        + tagged(b"variable_labels", bytes(162))
        + tagged(b"characteristics", b"")
        + tagged(b"data", bytes(6))
        + tagged(b"strls", b"")
        + tagged(b"value_labels", b""),
    )


def main():
    folder = ROOT / "crates" / "dta_header"
    wrong = False
    for name, content in (("stdin", p14()), ("stdout", b"117 MSF 2 1 956\n")):
        path = folder / name
        if sys.argv[1:] == ["--check"]:
            if not path.exists() or path.read_bytes() != content:
                print(f"{path.relative_to(ROOT)} is not what tools/p14.py writes", file=sys.stderr)
                wrong = True
        else:
            path.write_bytes(content)
    sys.exit(1 if wrong else 0)


if __name__ == "__main__":
    main()
