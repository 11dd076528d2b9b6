#!/usr/bin/env python3
"""Writes the samples of this folder, byte by byte.

div.wasm    a module whose function `div` divides two i32 (signed)
core.wasm   the dump of `div` at 7 / 0: one frame, innermost first, at code offset 5
stack.core  a dump written by hand: two frames, a value that was not recorded, a memory of one page, a global
"""
import os

from writer import HEADER, dump, frame, i32, name, s32, section, u32, vector

DIV = (
    HEADER
    + section(1, vector([b"\x60" + vector([b"\x7f", b"\x7f"]) + vector([b"\x7f"])]))
    + section(3, vector([u32(0)]))
    + section(7, vector([name(b"div") + b"\0" + u32(0)]))
    + section(10, vector([name(b"\0\x20\0\x20\1\x6d\x0b")]))
)

CORE = dump(b"module", [], [], [frame(0, 5, [i32(7), i32(0)], [i32(7), i32(0)])])

STACK = (
    dump(
        b"sum.wasm",
        [0],
        [0],
        [
            frame(1, 24, [i32(65536), i32(3), i32(6)], [i32(6), i32(65536)]),
            frame(0, 12, [i32(1024), i32(None)], [i32(7)]),
        ],
    )
    + section(5, vector([b"\0" + u32(1)]))
    + section(6, vector([b"\x7f\1\x41" + s32(66560) + b"\x0b"]))
    + section(11, vector([u32(0) + b"\x41" + s32(1024) + b"\x0b" + name(bytes([1, 0, 0, 0, 2, 0, 0, 0]))]))
)

folder = os.path.dirname(os.path.abspath(__file__))
for file, contents in (("div.wasm", DIV), ("core.wasm", CORE), ("stack.core", STACK)):
    with open(os.path.join(folder, file), "wb") as out:
        out.write(contents)
