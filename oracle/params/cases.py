"""Cases from a seed. Every other one has a wanted count of bits, a place in a byte and room to the bit; between them stand
each condition of 24 by itself, several at once, far places, and anything."""
import random

import model
from record import READ, ROOM, WRITE, Case

LARGEST = 2**64 - 1
# Chroma levels, enabled, updated, and how many deltas are sent; OFF has no bits.
OFF = None
SHAPES = [OFF] + [
    (chroma, enabled, update, sent)
    for chroma in (False, True)
    for enabled, update, sent in [(0, 0, 0), (1, 0, 0), *((1, 1, sent) for sent in range(11))]
]


class Chance:
    """Choices from a seed."""

    def __init__(self, seed):
        rng = random.Random(seed)
        self.real, self.bits = rng.random, rng.getrandbits

    def below(self, n):
        return int(self.real() * n)

    def pick(self, *choices):
        return choices[int(self.real() * len(choices))]


# ---- parameters that can be written


def flag(chance):
    return chance.pick(1, 1, 2, 256, 2**31, 2**32 - 1, 1 + chance.bits(31))


def any_delta(chance):
    return chance.pick(0, -1, 1, -64, 63, -65, 64, -128, 127, chance.below(256) - 128)


def sent_delta(chance):
    return chance.pick(0, -1, -64, 63, chance.below(128) - 64, chance.below(128) - 64)


def planes_above_1(chance):
    return chance.pick(2, 3, 3, 3, 256, 2**31, 2**32 - 1, 2 + chance.bits(30))


def luma_levels(chance):
    """Not both 0."""
    one, other = chance.pick(1, 63, 1 + chance.below(63)), chance.pick(0, 1, 63, chance.below(64))
    return chance.pick((one, other), (other, one))


def planes_and_levels(chance, chroma):
    if chroma:
        more = chance.pick(0, 63, chance.below(64)), chance.pick(0, 63, chance.below(64))
        return planes_above_1(chance), luma_levels(chance) + more
    if chance.below(2):
        return chance.pick(0, 1), chance.pick((0, 0), luma_levels(chance), luma_levels(chance)) + (0, 0)
    return planes_above_1(chance), (0, 0, 0, 0)


def updates(chance, sent):
    """Ten update bits, so many of them set."""
    update = [1] * sent + [0] * (10 - sent)
    for last in range(9, 0, -1):
        other = chance.below(last + 1)
        update[last], update[other] = update[other], update[last]
    return tuple(update)


def off_header(chance):
    lossless, intrabc = chance.pick((flag(chance), 0), (0, flag(chance)), (flag(chance), flag(chance)))
    before = tuple(any_delta(chance) for _ in range(10))
    given = model.Given(chance.pick(0, 1, 2, 3, chance.bits(32)), lossless, intrabc, before[:8], before[8:])
    return given, model.DEFAULTS


def header(chance, shape):
    """What is given, and parameters of that shape."""
    if shape is OFF:
        return off_header(chance)
    chroma, enabled, update, sent = shape
    planes, level = planes_and_levels(chance, chroma)
    before = tuple(any_delta(chance) for _ in range(10))
    bits = updates(chance, sent)
    deltas = tuple(sent_delta(chance) if u else b for u, b in zip(bits, before))
    given = model.Given(planes, 0, 0, before[:8], before[8:])
    return given, model.Params(level, chance.below(8), enabled, update, bits[:8], bits[8:], deltas[:8], deltas[8:])


# ---- places and room


def up(bits):
    """Bytes that hold so many bits."""
    return (bits + 7) // 8


def room_more(chance, count, place):
    at = 8 * chance.pick(0, chance.below(40)) + place
    return at, min(ROOM, chance.pick(up(at + count) + 1 + chance.below(9), ROOM))


def room_last_byte(chance, count, place):
    at = 8 * chance.pick(0, chance.below(50)) + place
    return at, up(at + count)


def room_last_bit(chance, count, _):
    return room_last_byte(chance, count, -count % 8)


def room_bit_short(chance, count, _):
    at, lent = room_last_byte(chance, count, (1 - count) % 8)
    return at, max(0, lent - 1)


def room_byte_short(chance, count, place):
    at, lent = room_last_byte(chance, count, place)
    return at, max(0, lent - 1)


def room_short(chance, count, place):
    at, lent = room_last_byte(chance, count, place)
    return at, chance.below(lent + 1)


def room_far(chance, _, place):
    lent = chance.pick(0, 1, ROOM, chance.below(ROOM + 1))
    near, wrapped = 8 * lent + chance.pick(0, place, chance.below(300)), LARGEST - chance.below(400)
    power = (1 << chance.below(65)) - 200 + chance.below(400)
    at = chance.pick(near, wrapped, LARGEST, power, power + 8 * lent, chance.bits(64))
    return min(max(at, 0), LARGEST), lent


ROOMS = (room_more, room_last_byte, room_last_bit, room_bit_short, room_byte_short, room_short)


def data(chance):
    return chance.pick(bytes(ROOM), b"\xff" * ROOM, *[chance.bits(8 * ROOM).to_bytes(ROOM, "big")] * 4)


def case_of(chance, call, given, params, room, place):
    """The parameters' own bits stand at the place of a read, in the bytes that are not lent too."""
    text = model.printed(given, params) if call == READ or not model.conditions(given, params) else " " * 109
    at, lent = room(chance, len(text), place)
    held = data(chance)
    if call == READ:
        held = model.laid(held, at, text)
        params = any_params(chance)
    return Case(call, lent, at, given, params, held)


# ---- faults: each makes a condition of 24 hold


def put(values, at, value):
    return (*values[:at], value, *values[at + 1 :])


def with_delta(p, n, update, delta):
    """Delta n of ten, and its update bit."""
    if n < 8:
        return p._replace(update_ref=put(p.update_ref, n, update), ref_delta=put(p.ref_delta, n, delta))
    return p._replace(update_mode=put(p.update_mode, n - 8, update), mode_delta=put(p.mode_delta, n - 8, delta))


def delta_of(p, n):
    return (p.ref_delta + p.mode_delta)[n]


def one_with(chance, p, is_sent):
    """A delta that is sent, or one that is kept; any if there is none."""
    found = [n for n, u in enumerate(p.update_ref + p.update_mode) if (u != 0) == is_sent]
    return chance.pick(*found) if found else chance.below(10)


def above(chance, most):
    return chance.pick(most + 1, 255, 128, most + 1 + chance.below(255 - most))


def level_set(chance, given, p):
    return p._replace(level=put(p.level, chance.below(4), chance.pick(1, 63, 255)))


def level_above(chance, given, p):
    n = chance.below(4 if model.has_chroma(given, p.level) else 2)
    return p._replace(level=put(p.level, n, above(chance, 63)))


def chroma_level(chance, given, p):
    return p._replace(level=put(p.level, 2 + chance.below(2), chance.pick(1, 63, 1 + chance.below(63))))


def sharpness_set(chance, given, p):
    return p._replace(sharpness=1 + chance.below(7))


def sharpness_above(chance, given, p):
    return p._replace(sharpness=above(chance, 7))


def enabled_set(chance, given, p):
    return p._replace(delta_enabled=1)


def enabled_above(chance, given, p):
    return p._replace(delta_enabled=above(chance, 1))


def update_set(chance, given, p):
    return p._replace(delta_update=1)


def update_above(chance, given, p):
    return p._replace(delta_update=above(chance, 1))


def bit_set(chance, given, p):
    n = chance.below(10)
    return with_delta(p, n, 1, delta_of(p, n) if model.is_off(given) else sent_delta(chance))


def bit_above(chance, given, p):
    n = one_with(chance, p, True)
    return with_delta(p, n, above(chance, 1), delta_of(p, n))


def delta_outside(chance, given, p):
    return with_delta(p, one_with(chance, p, True), 1, chance.pick(-65, 64, -128, 127))


def other_than(chance, value):
    other = chance.pick(value + 1, value - 1, any_delta(chance), -value)
    return other if -128 <= other <= 127 and other != value else (-1 if value == 0 else 0)


def delta_differs(chance, given, p):
    n = one_with(chance, p, False)
    return with_delta(p, n, 0, other_than(chance, delta_of(p, n)))


def ref_differs(chance, given, p):
    n = chance.below(8)
    return p._replace(ref_delta=put(p.ref_delta, n, other_than(chance, p.ref_delta[n])))


def mode_differs(chance, given, p):
    n = chance.below(2)
    return p._replace(mode_delta=put(p.mode_delta, n, other_than(chance, p.mode_delta[n])))


ON = SHAPES[1:]
NOT_ENABLED = [shape for shape in ON if not shape[1]]
ENABLED = [shape for shape in ON if shape[1]]
NOT_UPDATED = [shape for shape in ON if not shape[2]]
UPDATED = [shape for shape in ON if shape[2]]
SENDING = [shape for shape in ON if shape[3]]
KEEPING = [shape for shape in ON if shape[3] < 10]
NO_CHROMA = [shape for shape in ON if not shape[0]]

# The condition's name, the shapes that it can be made of, and how.
FAULTS = [
    ("off, a level", [OFF], level_set),
    ("off, sharpness", [OFF], sharpness_set),
    ("off, delta_enabled", [OFF], enabled_set),
    ("off, delta_update", [OFF], update_set),
    ("off, an update bit", [OFF], bit_set),
    ("off, a reference delta", [OFF], ref_differs),
    ("off, a mode delta", [OFF], mode_differs),
    ("a level above 63", ON, level_above),
    ("a chroma level without bits", NO_CHROMA, chroma_level),
    ("sharpness above 7", ON, sharpness_above),
    ("delta_enabled above 1", ENABLED, enabled_above),
    ("delta_update above 1", UPDATED, update_above),
    ("delta_update, not enabled", NOT_ENABLED, update_set),
    ("an update bit above 1", SENDING, bit_above),
    ("an update bit, no update", NOT_UPDATED, bit_set),
    ("a delta sent outside", SENDING, delta_outside),
    ("a delta kept that differs", KEEPING, delta_differs),
]


# ---- anything


def any_byte(chance):
    return chance.pick(0, 0, 0, 1, 1, 2, 7, 8, 63, 64, 255, chance.below(256))


def any_params(chance):
    v = chance.bits(27 * 8).to_bytes(27, "big")
    deltas = tuple(b - 128 for b in v[17:27])
    return model.Params(tuple(v[0:4]), v[4], v[5], v[6], tuple(v[7:15]), tuple(v[15:17]), deltas[:8], deltas[8:])


def usual_params(chance):
    b = tuple(any_byte(chance) for _ in range(17))
    deltas = tuple(any_delta(chance) for _ in range(10))
    return model.Params(b[0:4], b[4], b[5], b[6], b[7:15], b[15:17], deltas[:8], deltas[8:])


def any_given(chance):
    before = tuple(any_delta(chance) for _ in range(10))
    off = chance.pick(0, 0, 0, flag(chance)), chance.pick(0, 0, 0, flag(chance))
    return model.Given(chance.pick(0, 1, 2, 3, 3, chance.bits(32)), *off, before[:8], before[8:])


# ---- the kinds of cases


def exact_case(chance, m):
    """Of a count, a place in a byte, a call and a room, in turn."""
    given, params = header(chance, SHAPES[m % 27])
    place, call, room = m // 27 % 8, m // 216 % 2, ROOMS[m // 432 % 6]
    return case_of(chance, call, given, params, room, place)


def fault_case(chance, m):
    """Of one condition of 24, with room and without, in turn."""
    _, shapes, make = FAULTS[m % len(FAULTS)]
    given, params = header(chance, chance.pick(*shapes))
    room = room_far if m // len(FAULTS) % 2 else room_more
    return case_of(chance, WRITE, given, make(chance, given, params), room, chance.below(8))


def faults_case(chance, _):
    """Some faults, which may make up for each other."""
    given, params = header(chance, chance.pick(*SHAPES))
    for _ in range(chance.pick(1, 2, 2, 3)):
        params = chance.pick(*FAULTS)[2](chance, given, params)
    room = chance.pick(room_far, *ROOMS)
    return case_of(chance, WRITE, given, params, room, chance.below(8))


def far_case(chance, m):
    given, params = header(chance, SHAPES[m // 2 % 27])
    return case_of(chance, m % 2, given, params, room_far, chance.below(8))


def any_case(chance, m):
    params = chance.pick(any_params, usual_params)(chance)
    room = chance.pick(*ROOMS, room_far)
    at, lent = room(chance, chance.below(110), chance.below(8))
    return Case(m % 2, lent, at, any_given(chance), params, data(chance))


KINDS = (fault_case, any_case, faults_case, far_case)


def case(chance, n):
    """Case n of a run."""
    if n % 2 == 0:
        return exact_case(chance, n // 2)
    return KINDS[n // 2 % 4](chance, n // 8)


TURN = 500  # cases that are made from one seed


def turn(seed, number, count):
    """The first cases of a turn of a run."""
    chance = Chance(f"{seed} {number}")
    return [case(chance, number * TURN + n) for n in range(count)]


def cases(seed, count):
    for number in range(0, (count + TURN - 1) // TURN):
        yield from turn(seed, number, min(TURN, count - number * TURN))
