"""Writes modules and core dumps byte by byte: the shortest numbers, sections, frames."""

HEADER = b"\0asm\1\0\0\0"


def u32(n):
    out = bytearray()
    while True:
        low, n = n & 0x7F, n >> 7
        out.append(low | (0x80 if n else 0))
        if not n:
            return bytes(out)


def s32(n):
    out = bytearray()
    while True:
        low, n = n & 0x7F, n >> 7
        last = (n == 0 and not low & 0x40) or (n == -1 and low & 0x40)
        out.append(low | (0 if last else 0x80))
        if last:
            return bytes(out)


def vector(items):
    return u32(len(items)) + b"".join(items)


def name(text):
    return u32(len(text)) + text


def section(number, contents):
    return bytes([number]) + u32(len(contents)) + contents


def custom(title, contents):
    return section(0, name(title) + contents)


def i32(value):
    """A value of a frame; None for one that was not recorded."""
    return b"\x01" if value is None else b"\x7f" + s32(value)


def frame(function, offset, values, operands):
    return b"\0" + u32(0) + u32(function) + u32(offset) + vector(values) + vector(operands)


def dump(title, memories, variables, frames):
    """The four custom sections; the memory, its globals and its data come behind them."""
    instance = b"\0" + u32(0) + vector([u32(m) for m in memories]) + vector([u32(g) for g in variables])
    return (
        HEADER
        + custom(b"core", b"\0" + name(title))
        + custom(b"coremodules", vector([b"\0" + name(title)]))
        + custom(b"coreinstances", vector([instance]))
        + custom(b"corestack", b"\0" + name(b"main") + vector(frames))
    )
