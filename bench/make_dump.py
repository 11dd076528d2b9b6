#!/usr/bin/env python3
"""Writes large core dumps for measurements.

    make_dump.py frames N VALUES FILE    N frames with VALUES locals and VALUES operands together
    make_dump.py pages N FILE            N segments of 65,536 bytes each, over a memory of at most 4,096 pages
"""
import os
import sys

sys.path.insert(0, os.path.join(os.path.dirname(os.path.abspath(__file__)), "..", "samples"))
from writer import dump, frame, i32, s32, section, u32, vector

PAGE = 65536


def frames(count, values, path):
    half = values // 2
    narrow = [i32(-123456)] * half
    wide = [b"\x7e" + s32(624485)] * (values - half)
    with open(path, "wb") as out:
        out.write(dump(b"module", [], [], [frame(i % 1000, i, narrow, wide) for i in range(count)]))


def pages(count, path):
    memory = min(count, 4096)
    heads = [u32(0) + b"\x41" + s32(i % memory * PAGE) + b"\x0b" + u32(PAGE) for i in range(count)]
    length = len(u32(count)) + sum(len(head) + PAGE for head in heads)
    with open(path, "wb") as out:
        out.write(dump(b"module", [0], [], []))
        out.write(section(5, vector([b"\0" + u32(memory)])))
        out.write(b"\x0b" + u32(length) + u32(count))
        for i, head in enumerate(heads):
            out.write(head + bytes([i % 255 + 1]) * PAGE)


if sys.argv[1] == "frames":
    frames(int(sys.argv[2]), int(sys.argv[3]), sys.argv[4])
else:
    pages(int(sys.argv[2]), sys.argv[3])
