#!/usr/bin/env python3
"""Writes the transformed glyf table of a WOFF2 font, as decompressed, to a file.

    woff2_streams.py FONT.woff2 OUT

Needs the program brotli.
"""

import struct
import subprocess
import sys

HEADER_SIZE = 48
GLYF, LOCA, HMTX = 10, 11, 3
ARBITRARY_TAG = 63


def base128(data, at):
    """A variable-length number: seven bits a byte, the highest first."""
    value = 0
    while True:
        value = value << 7 | data[at] & 0x7F
        at += 1
        if not data[at - 1] & 0x80:
            return value, at


def directory(data, count):
    """The tables as (known tag or None, length in the decompressed stream, whether transformed)."""
    at, tables = HEADER_SIZE, []
    for _ in range(count):
        flags = data[at]
        at += 1
        tag = flags & 0x3F
        if tag == ARBITRARY_TAG:
            tag, at = None, at + 4
        version = flags >> 6
        transformed = version == 0 if tag in (GLYF, LOCA) else version != 0
        length, at = base128(data, at)
        if transformed:
            length, at = base128(data, at)
        tables.append((tag, length, transformed))
    return tables, at


def main():
    path, out = sys.argv[1:3]
    data = open(path, "rb").read()
    (count,) = struct.unpack_from(">H", data, 12)
    (compressed,) = struct.unpack_from(">I", data, 20)
    tables, at = directory(data, count)
    packed = data[at:at + compressed]
    stream = subprocess.run(["brotli", "-dc"], input=packed, stdout=subprocess.PIPE, check=True).stdout
    place = 0
    for tag, length, transformed in tables:
        if tag == GLYF and transformed:
            open(out, "wb").write(stream[place:place + length])
            return
        place += length
    sys.exit("the font has no transformed glyf table")


if __name__ == "__main__":
    main()
