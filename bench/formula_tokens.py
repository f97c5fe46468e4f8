#!/usr/bin/env python3
"""Writes a formula of as many tokens as its length allows, of one kind.

    for kind in leaves right left parens spaces sums calls strings; do
        python3 bench/formula_tokens.py $kind > /tmp/$kind.tokens
        bench/run /tmp/$kind.tokens crates/example_calls/out/example_calls formula
    done
"""
import struct
import sys

ROOM = 65_535
ONE = bytes.fromhex("1E0100")
EMPTY = b"\x16"
ADD = b"\x03"


def tokens(kind):
    """The first is one operand, and each of the others is a pattern that the last bytes join to one."""
    if kind == "leaves":  # cells far to the right and below, joined at the end
        cell = bytes.fromhex("24FFFFFF3F")
        count = ROOM // 6
        return cell * count + ADD * (count - 1)
    if kind == "right":
        return EMPTY * 32_768 + ADD * 32_767
    if kind == "left":
        return EMPTY + (EMPTY + ADD) * 32_767
    if kind == "parens":
        return ONE + b"\x15" * (ROOM - 3)
    if kind == "spaces":  # 255 before the operand, each time
        return ONE + bytes.fromhex("194000FF") * ((ROOM - 3) // 4)
    if kind == "sums":
        return ONE + bytes.fromhex("19100000") * ((ROOM - 3) // 4)
    if kind == "calls":  # AVERAGE of one operand
        return ONE + bytes.fromhex("22010500") * ((ROOM - 3) // 4)
    if kind == "strings":  # of 255 units, each three bytes in the text
        string = b"\x17\xff\x01" + b"\xac\x20" * 255
        count = ROOM // (len(string) + 1)
        return string * count + ADD * (count - 1)
    raise SystemExit(__doc__)


def main():
    tokens_of_kind = tokens(sys.argv[1])
    sys.stdout.buffer.write(struct.pack("<H", len(tokens_of_kind)) + tokens_of_kind)


if __name__ == "__main__":
    main()
