"""The loop filter parameters of a frame header, 5.9.11, read from bits and written: from the request's page, not from the code.

Bits are a string of 0 and 1, in the order in which they stand. A place is the number of bits before it."""
from typing import NamedTuple

OUT_OF_BITS, UNWRITABLE = 23, 24
DEFAULT_REFS = (1, 0, 0, 0, -1, 0, -1, -1)
DEFAULT_MODES = (0, 0)


class Given(NamedTuple):
    """What a header's parameters depend on: planes, CodedLossless, allow_intrabc, and the deltas before."""

    planes: int
    lossless: int
    intrabc: int
    refs: tuple
    modes: tuple


class Params(NamedTuple):
    level: tuple
    sharpness: int
    delta_enabled: int
    delta_update: int
    update_ref: tuple
    update_mode: tuple
    ref_delta: tuple
    mode_delta: tuple


NOTHING = Params((0,) * 4, 0, 0, 0, (0,) * 8, (0,) * 2, (0,) * 8, (0,) * 2)
DEFAULTS = NOTHING._replace(ref_delta=DEFAULT_REFS, mode_delta=DEFAULT_MODES)


def is_off(given):
    """Step 0's condition."""
    return given.lossless != 0 or given.intrabc != 0


def has_chroma(given, level):
    """Step 2's condition."""
    return given.planes > 1 and (level[0] != 0 or level[1] != 0)


# ---- bits to parameters


class RunOut(Exception):
    """There is no such bit."""


class Bits:
    """Bits that are taken from the first on."""

    def __init__(self, text):
        self.text, self.taken = text, 0

    def f(self, n):
        end = self.taken + n
        if end > len(self.text):
            raise RunOut
        value = int(self.text[self.taken : end], 2)
        self.taken = end
        return value

    def su7(self):
        value = self.f(7)
        return value - 128 if value >= 64 else value


def parse_deltas(bits, before):
    """Steps 5 and 6: the update bits, and the deltas."""
    update, deltas = [], []
    for delta in before:
        update.append(bits.f(1))
        deltas.append(bits.su7() if update[-1] else delta)
    return tuple(update), tuple(deltas)


def parse(given, bits):
    """The parameters that the bits begin with."""
    if is_off(given):
        return DEFAULTS
    level = (bits.f(6), bits.f(6), 0, 0)
    if has_chroma(given, level):
        level = (level[0], level[1], bits.f(6), bits.f(6))
    sharpness, enabled = bits.f(3), bits.f(1)
    update = bits.f(1) if enabled else 0
    if not update:
        return Params(level, sharpness, enabled, 0, (0,) * 8, (0,) * 2, given.refs, given.modes)
    update_ref, ref_delta = parse_deltas(bits, given.refs)
    update_mode, mode_delta = parse_deltas(bits, given.modes)
    return Params(level, sharpness, enabled, update, update_ref, update_mode, ref_delta, mode_delta)


# ---- parameters to bits

DIGITS = {n: [format(value, f"0{n}b") for value in range(1 << n)] for n in (1, 3, 6, 7)}


def f(n, value):
    """The lowest n bits of a number."""
    return DIGITS[n][value % (1 << n)]


def printed_deltas(update, deltas):
    return "".join(f(1, u) + f(7, d) if u else f(1, u) for u, d in zip(update, deltas))


def printed(given, p):
    """The bits of parameters that can be written."""
    if is_off(given):
        return ""
    text = f(6, p.level[0]) + f(6, p.level[1])
    if has_chroma(given, p.level):
        text += f(6, p.level[2]) + f(6, p.level[3])
    text += f(3, p.sharpness) + f(1, p.delta_enabled)
    if p.delta_enabled:
        text += f(1, p.delta_update)
    if p.delta_update:
        text += printed_deltas(p.update_ref, p.ref_delta) + printed_deltas(p.update_mode, p.mode_delta)
    return text


# ---- number 24: the list, and the question that it answers


def off_conditions(p):
    """In step 0's case."""
    if any(p.level):
        yield "off, a level"
    if p.sharpness:
        yield "off, sharpness"
    if p.delta_enabled:
        yield "off, delta_enabled"
    if p.delta_update:
        yield "off, delta_update"
    if any(p.update_ref + p.update_mode):
        yield "off, an update bit"
    if p.ref_delta != DEFAULT_REFS:
        yield "off, a reference delta"
    if p.mode_delta != DEFAULT_MODES:
        yield "off, a mode delta"


def field_conditions(given, p):
    if max(p.level) > 63:
        yield "a level above 63"
    if (p.level[2] or p.level[3]) and not has_chroma(given, p.level):
        yield "a chroma level without bits"
    if p.sharpness > 7:
        yield "sharpness above 7"
    if p.delta_enabled > 1:
        yield "delta_enabled above 1"
    if p.delta_update > 1:
        yield "delta_update above 1"
    if p.delta_update and not p.delta_enabled:
        yield "delta_update, not enabled"


def delta_conditions(given, p):
    update = p.update_ref + p.update_mode
    if max(update) > 1:
        yield "an update bit above 1"
    if any(update) and not p.delta_update:
        yield "an update bit, no update"
    all_deltas = list(zip(update, p.ref_delta + p.mode_delta, given.refs + given.modes))
    if any(u and not -64 <= delta <= 63 for u, delta, _ in all_deltas):
        yield "a delta sent outside"
    if any(not u and delta != before for u, delta, before in all_deltas):
        yield "a delta kept that differs"


def conditions(given, p):
    """The conditions of 24 that hold, by name."""
    if is_off(given):
        return list(off_conditions(p))
    return [*field_conditions(given, p), *delta_conditions(given, p)]


def is_said(given, p):
    """Whether bits parse to these parameters: their own bits, or none."""
    try:
        return parse(given, Bits(printed(given, p))) == p
    except RunOut:
        return False


# ---- bytes


def bits_of(data):
    return format(int.from_bytes(data, "big"), f"0{8 * len(data)}b") if data else ""


def laid(data, at, text):
    """The bytes with these bits from a place on, as far as there are bytes."""
    if at >= 8 * len(data) or not text:
        return data
    old = bits_of(data)
    new = (old[:at] + text + old[at + len(text) :])[: len(old)]
    return int(new, 2).to_bytes(len(data), "big")


def read(data, at, given):
    """The number, the count of bits and the parameters."""
    bits = Bits(bits_of(data)[at:])
    try:
        params = parse(given, bits)
    except RunOut:
        return OUT_OF_BITS, 0, NOTHING
    return 0, bits.taken, params


def write(data, at, given, p):
    """The number, the count of bits and the bytes afterwards."""
    is_refused = conditions(given, p) != []
    assert is_refused != is_said(given, p), "the list of 24 is not what bits can say"
    if is_refused:
        return UNWRITABLE, 0, data
    text = printed(given, p)
    if text and at + len(text) > 8 * len(data):
        return OUT_OF_BITS, 0, data
    return 0, len(text), laid(data, at, text)
