#!/usr/bin/env python3
"""Scripts for the edge listing, by name: all layouts and depths, odd sizes, blocks at w4 and h4, overlapping, missing and
doubled blocks, every number that a script can be refused with, every shape of `form`, and each form that docs/01-scope.md
leaves open (docs/DECISIONS.md). cases.py stdin, cases.py stdout: what crate replay_list reads, each script in parts of
several lengths, and what it must write, which is model.py's answer to each."""
import sys
from model import BLOCKS, TRANSFORMS, answer


def script(*lines):
    return "".join(line + "\n" for line in lines).encode()


FRAME, LEVEL, BLOCK = "frame 16 8 400 8 64 0", "level 20 20 0 0", "block 0 0 8x8 8x8 - I"
SMALL = "frame 16 16 400 8 64 0", "level 1 1 0 0"
COLOUR = "frame 16 8 420 8 64 0", "level 1 1 1 1"
EXAMPLE = script(FRAME, LEVEL, BLOCK, "block 2 0 8x8 8x8 - I")


def units(size):
    return [int(side) // 4 for side in size.split("x")]


def fitting(block):
    return [t for t in TRANSFORMS if all(a <= b for a, b in zip(units(t), units(block)))]


def quarter(i):
    """A place at which any block may stand in a frame of 256 by 256."""
    return f"{i % 2 * 32} {i // 2 % 2 * 32}"


def size_of(length):
    """A size field that makes the block line so long."""
    return "block 0 0 " + "8" * (length - len("block 0 0  8x8 - I")) + " 8x8 - I"


def past(length):
    """Blocks on either side of so many bytes."""
    yield from ["frame 256 256 400 8 64 0", LEVEL]
    yield from [BLOCK] * ((length - 3500) // (len(BLOCK) + 1))
    yield from [f"block {x} {y} 16x16 16x16 - I" for y in range(0, 64, 4) for x in range(0, 64, 4)]


def layouts():
    for layout, depth, uvtx in (400, 8, "-"), (420, 8, "8x8"), (422, 10, "8x16"), (444, 12, "16x16"):
        blocks = [f"block {x} {y} 16x16 {tx} {uvtx} I" for y in (0, 4) for x, tx in ((0, "16x16"), (4, "4x4"), (8, "8x8"))]
        levels = "0 0" if layout == 400 else "30 40"
        yield f"layout {layout}", script(f"frame 48 32 {layout} {depth} 64 {depth - 8}", f"level 10 20 {levels}", *blocks)
    for depth in 8, 10, 12:
        yield f"depth {depth}", script(f"frame 16 16 420 {depth} 128 7", "level 63 1 2 3", "block 0 0 16x16 8x8 4x4 I")


def sizes():
    blocks = [(b, fitting(b)) for b in BLOCKS]
    yield "all blocks", script("frame 256 256 444 8 64 0", "level 11 12 13 14",
        *[f"block {quarter(i)} {b} {t[i % len(t)]} {t[7 * i % len(t)]} I" for i, (b, t) in enumerate(blocks)])
    yield "all transforms", script("frame 256 256 420 8 128 0", "level 21 22 23 24",
        *[f"block {quarter(i)} 128x128 {t} {t} I" for i, t in enumerate(TRANSFORMS)])
    yield "largest frame", script("frame 256 256 422 8 128 0", "level 32 33 34 35",
        *[f"block {quarter(i)} 128x128 64x64 32x64 I" for i in range(4)])
    yield "every edge", script("frame 256 256 444 8 64 0", "level 63 63 63 63",
        *[f"block {x} {y} 64x64 4x4 4x4 I" for y in range(0, 64, 16) for x in range(0, 64, 16)])


def cases():
    return {
        "example": EXAMPLE,
        "no block": script(FRAME, LEVEL),
        "one block": script(FRAME, LEVEL, BLOCK),
        **dict(layouts()),
        **dict(sizes()),
        "chroma of one block": script("frame 32 16 444 8 64 0", "level 5 6 7 8", "block 0 0 16x16 8x8 - I", "block 4 0 16x16 4x16 16x4 I"),
        "odd sides": script("frame 21 13 420 8 64 0", "level 9 8 7 6", "block 0 0 16x16 16x16 8x8 I", "block 4 0 16x16 8x8 8x8 I"),
        "one sample": script("frame 1 1 420 8 64 0", "level 1 2 3 4", "block 0 0 4x4 4x4 4x4 I"),
        "three by five": script("frame 3 5 444 12 128 0", "level 1 2 3 4", "block 0 0 4x8 4x4 4x8 I"),
        "at w4": script(*SMALL, "block 4 0 4x4 4x4 - I", "block 0 0 4x4 4x4 - I"),
        "at h4": script(*SMALL, "block 0 4 4x4 4x4 - I"),
        "at w4 and h4": script("frame 16 16 420 8 64 0", "level 1 1 2 2", "block 4 4 4x4 4x4 4x4 I"),
        "chroma and no luma at odd w4": script("frame 20 8 420 8 64 0", "level 1 1 2 2", "block 4 0 4x4 4x4 4x4 I", "block 5 0 4x4 4x4 4x4 I", "block 5 1 4x4 4x4 4x4 I"),
        "overlapping": script("frame 32 32 420 8 64 0", "level 9 9 9 9", "block 0 0 32x32 32x32 16x16 I", "block 4 4 16x16 4x4 4x4 I", "block 2 4 8x8 8x8 4x4 I"),
        "missing": script("frame 64 16 400 8 64 0", "level 9 9 0 0", "block 4 0 16x16 8x8 - I", "block 12 0 16x16 16x16 - I"),
        "doubled": script("frame 32 16 422 8 64 0", "level 9 9 3 4", *["block 4 0 16x16 16x16 8x16 I"] * 2),
        "contexts never start again": script("frame 32 144 400 8 64 0", "level 9 9 0 0", "block 0 0 16x16 4x4 - I", "block 0 32 16x16 16x16 - I"),
        "luma levels 0": script("frame 16 16 420 8 64 0", "level 0 0 63 63", "block 0 0 8x8 8x8 4x4 I", "block 2 0 8x8 8x8 4x4 I"),
        "chroma levels 0": script("frame 16 16 420 8 64 0", "level 5 0 0 0", "block 0 0 8x8 8x8 4x4 I", "block 2 0 8x8 8x8 4x4 I"),
        "u level 0": script("frame 16 16 444 8 64 0", "level 5 6 0 7", "block 0 0 8x8 8x8 8x8 I", "block 2 0 8x8 8x8 8x8 I"),
        "1": script("frame 16 8 400 8 64 8", LEVEL),
        "1 before 3 and 4": script("frame 0 0 0 0 0 8"),
        "2, a level of 64": script(COLOUR[0], "level 63 64 0 0"),
        "2, a level of 256": script(COLOUR[0], "level 256 0 0 0"),
        "2, the largest number": script(COLOUR[0], "level 0 0 0 999999999"),
        "2, chroma at 4:0:0": script(FRAME, "level 20 20 0 1"),
        "3": script("frame 16 8 400 9 64 0"),
        "3 before 4": script("frame 16 8 401 11 64 0"),
        "4, layout": script("frame 16 8 411 8 64 0"),
        "4, superblock": script("frame 16 8 400 8 65 0"),
        "4, width 0": script("frame 0 8 400 8 64 0"),
        "4, width 257": script("frame 257 8 400 8 64 0"),
        "4, height 257": script("frame 8 257 400 8 64 0"),
        "4, a pair at 4:0:0": script(FRAME, LEVEL, "block 0 0 8x8 8x8 4x4 I"),
        "4 before 5": script(FRAME, LEVEL, "block 1 0 9x9 9x9 9x9 I"),
        "5, size": script(FRAME, LEVEL, "block 0 0 8x9 8x8 - I"),
        "5, no size at all": script(FRAME, LEVEL, "block 0 0 eight 8x8 - I"),
        "5, size with a zero": script(FRAME, LEVEL, "block 0 0 08x8 8x8 - I"),
        "5, transform": script(FRAME, LEVEL, "block 0 0 8x8 8x8x8 - I"),
        "5, a block's size as transform": script(FRAME, LEVEL, "block 0 0 128x128 128x128 - I"),
        "5, chroma transform": script(*COLOUR, "block 0 0 8x8 8x8 -- I"),
        "5, place": script(FRAME, LEVEL, "block 1 0 8x8 8x8 - I"),
        "5, past w4": script(*SMALL, "block 5 0 4x4 4x4 - I"),
        "5, past h4": script(*SMALL, "block 0 5 4x4 4x4 - I"),
        "5, far away": script(*SMALL, "block 999999999 999999999 4x4 4x4 - I"),
        "5, transform too large": script(FRAME, LEVEL, "block 0 0 8x8 16x16 - I"),
        "5, chroma transform too large": script(*COLOUR, "block 0 0 8x8 8x8 8x8 I"),
        "5, on line 4": script(FRAME, LEVEL, BLOCK, "block 0 0 8x8 x - I"),
        "form: empty input": b"",
        "form: no level line": script(FRAME),
        "form: no level line, no end": FRAME.encode(),
        "form: level first": script(LEVEL, FRAME),
        "form: block first": script(BLOCK),
        "form: block before level": script(FRAME, BLOCK),
        "form: two frames": script(FRAME, FRAME),
        "form: two levels": script(FRAME, LEVEL, LEVEL),
        "form: a late frame": script(FRAME, LEVEL, BLOCK, FRAME),
        "form: another word": script("frames 16 8 400 8 64 0"),
        "form: a capital": script("Frame 16 8 400 8 64 0"),
        "form: a field too few": script("frame 16 8 400 8 64"),
        "form: a field too many": script("frame 16 8 400 8 64 0 0"),
        "form: two spaces": script("frame 16  8 400 8 64 0"),
        "form: a space first": script(" frame 16 8 400 8 64 0"),
        "form: a space last": script("frame 16 8 400 8 64 0 "),
        "form: tabs": script(FRAME.replace(" ", "\t")),
        "form: a sign": script("frame +16 8 400 8 64 0"),
        "form: below 0": script("frame 16 -8 400 8 64 0"),
        "form: hexadecimal": script("frame 0x10 8 400 8 64 0"),
        "form: ten digits": script("frame 0000000016 8 400 8 64 0"),
        "form: an empty number": script(FRAME, "level 20 20 0 "),
        "form: no I": script(FRAME, LEVEL, "block 0 0 8x8 8x8 - P"),
        "form: an empty size": script(FRAME, LEVEL, "block 0 0  8x8 - I"),
        "form: before a number": script("frame 16 8 400 9 65 x8"),
        "form: of a later line": script(FRAME, LEVEL, BLOCK, "block 0 0 8x8 8x8 -"),
        "open: last line without end": EXAMPLE[:-1],
        "open: empty line": script(FRAME, "", LEVEL),
        "open: empty line last": EXAMPLE + b"\n",
        "open: carriage returns": EXAMPLE.replace(b"\n", b"\r\n"),
        "open: carriage return in a size": script(FRAME, LEVEL, "block 0 0 8x8 8x8\r - I"),
        "open: leading zeros": script("frame 000000016 08 400 008 064 00", "level 020 20 0 0", "block 00 0 8x8 8x8 - I", "block 000000002 0 8x8 8x8 - I"),
        "open: NUL": FRAME.encode() + b"\0\n",
        "open: NUL in a size": script(FRAME, LEVEL, "block 0 0 8x8\0 8x8 - I"),
        "open: bytes above 127": FRAME.encode("utf-16"),
        "open: a long size": script(FRAME, LEVEL, size_of(3000)),
        "open: the longest line": script(FRAME, LEVEL, size_of(65535)),
        "open: a line too long": script(FRAME, LEVEL, size_of(65536)),
        "open: a line too long, no end": script(FRAME, LEVEL, size_of(70000))[:-1],
        "open: a long script": script(FRAME, LEVEL, *[BLOCK] * 4000),
        "open: a script longer than its memory": script(*past(131072)),
    }


def parts(script):
    """The lengths of the parts that it is read in."""
    if len(script) <= 4096:
        return 65536, 1, 2, 7, 64
    return [4096 if len(script) < 131072 else 65536]


def framed(script):
    words = [n.to_bytes(4, "little") for n in (*parts(script), len(script))]
    return b"".join(word + words[-1] + script for word in words[:-1])


if __name__ == "__main__":
    write = {"stdin": framed, "stdout": answer}[sys.argv[1]]
    for s in cases().values():
        sys.stdout.buffer.write(write(s))
