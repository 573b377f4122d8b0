#!/usr/bin/env python3
"""The edge listing, written from docs/01-scope.md and not from the code. model.py < SCRIPT prints what SCRIPT lists."""
import sys

BLOCKS = """4x4 4x8 8x4 8x8 8x16 16x8 16x16 16x32 32x16 32x32 32x64 64x32 64x64 64x128 128x64 128x128
    4x16 16x4 8x32 32x8 16x64 64x16""".split()
TRANSFORMS = """4x4 8x8 16x16 32x32 64x64 4x8 8x4 8x16 16x8 16x32 32x16 32x64 64x32
    4x16 16x4 8x32 32x8 16x64 64x16""".split()
FORM = "form"
LONGEST = 65535


class Refused(Exception):
    """The number of a refused line."""


def size(field, names):
    """Width and height in units."""
    name = field.decode("latin-1")
    if name not in names:
        raise Refused(5)
    return [int(side) // 4 for side in name.split("x")]


def numbers(fields):
    for f in fields:
        if not 1 <= len(f) <= 9 or not f.isdigit():
            raise Refused(FORM)
    return [int(f) for f in fields]


class Plane:
    """Edges and context bytes of the luma plane, or of both chroma planes; `ss` is the plane's subsampling."""

    def __init__(self, width, height, ss, widest):
        self.sides = [(side + s) >> s for side, s in zip((width, height), ss)]
        self.ss, self.widest = ss, widest
        self.edges = [{}, {}]
        # beside a column edge stands the left context, by y; beside a row edge the one above, by x
        self.context = [[widest] * self.sides[1], [widest] * self.sides[0]]
        self.levels = [{}, {}]

    def kind(self, units):
        return min(units.bit_length() - 1, self.widest)

    def record(self, place, block, tx, values):
        start = [p >> s for p, s in zip(place, self.ss)]
        seen = [min(side - a, (b + s) >> s) for side, a, b, s in zip(self.sides, start, block, self.ss)]
        if min(seen) < 1:
            return
        for x in range(start[0], start[0] + seen[0]):
            for y in range(start[1], start[1] + seen[1]):
                for levels, value in zip(self.levels, values):
                    levels[x, y] = value
                for d, unit, along in (0, x, y), (1, y, x):
                    step = unit - start[d]
                    if step % tx[d] == 0:
                        own = self.kind(tx[d])
                        beside = own if step else self.context[d][along]
                        self.edges[d].setdefault((x, y), set()).add(min(own, beside))
        for d in 0, 1:
            for along in range(start[1 - d], start[1 - d] + seen[1 - d]):
                self.context[d][along] = self.kind(tx[d])


class Listing:
    def __init__(self):
        self.taken = 0
        self.expected = "frame"

    def frame(self, width, height, layout, depth, superblock, sharpness):
        if sharpness > 7:
            raise Refused(1)
        if depth not in (8, 10, 12):
            raise Refused(3)
        if layout not in (400, 420, 422, 444) or superblock not in (64, 128):
            raise Refused(4)
        if not (1 <= width <= 256 and 1 <= height <= 256):
            raise Refused(4)
        self.grey = layout == 400
        self.units = [(width + 3) // 4, (height + 3) // 4]
        ss = [int(layout != 444), int(layout == 420)]
        self.luma = Plane(*self.units, [0, 0], 2)
        self.chroma = Plane(*self.units, ss, 1)
        self.expected = "level"

    def level(self, *base):
        if max(base) > 63 or self.grey and (base[2] or base[3]):
            raise Refused(2)
        self.base = base if base[0] or base[1] else (0, 0, 0, 0)
        self.expected = "block"

    def block(self, place, block, tx, uvtx):
        if self.grey and uvtx != b"-":
            raise Refused(4)
        block, tx = size(block, BLOCKS), size(tx, TRANSFORMS)
        if any(p % b or p > u or t > b for p, b, u, t in zip(place, block, self.units, tx)):
            raise Refused(5)
        if uvtx != b"-":
            uvtx = size(uvtx, TRANSFORMS)
            if any(t > (b + s) >> s for t, b, s in zip(uvtx, block, self.chroma.ss)):
                raise Refused(5)
            self.chroma.record(place, block, uvtx, self.base[2:])
        self.luma.record(place, block, tx, self.base[:2])

    def line(self, line):
        fields = line.split(b" ")
        word = fields.pop(0).decode("latin-1")
        if len(line) > LONGEST or b"" in fields:
            raise Refused(FORM)
        if len(fields) != {"frame": 6, "level": 4, "block": 6}.get(word):
            raise Refused(FORM)
        if word == "block":
            place = numbers(fields[:2])
            if fields[5] != b"I" or self.expected != word:
                raise Refused(FORM)
            self.block(place, *fields[2:5])
        else:
            fields = numbers(fields)
            if self.expected != word:
                raise Refused(FORM)
            (self.frame if word == "frame" else self.level)(*fields)

    def listed(self):
        planes = [(self.luma, 0)] + ([] if self.grey else [(self.chroma, 0), (self.chroma, 1)])
        for p, (plane, which) in enumerate(planes):
            for d in 0, 1:
                for y in range(plane.sides[1]):
                    for x in range(plane.sides[0]):
                        if (x, y)[d] and (x, y) in plane.edges[d]:
                            level = plane.levels[d if p == 0 else which][x, y]
                            yield p, d, x, y, max(plane.edges[d][x, y]), level

    def answer(self, script):
        lines = script.split(b"\n")
        if not lines[-1]:
            lines.pop()
        for number, line in enumerate(lines, 1):
            try:
                self.line(line)
            except Refused as e:
                return "refused\t%d\t%s\n" % (number, e)
        if self.expected != "block":
            return "refused\t%d\t%s\n" % (len(lines) + 1, FORM)
        edges = list(self.listed())
        rows = ["plane\tpass\tx\ty\tclass\tlevel"] + ["\t".join(map(str, e)) for e in edges]
        return "\n".join(rows + ["edges\t%d\n" % len(edges)])


def answer(script):
    return Listing().answer(script).encode()


if __name__ == "__main__":
    sys.stdout.buffer.write(answer(sys.stdin.buffer.read()))
