"""Counts of cases by branch: each case falls into cells, and every cell must be filled."""
import model
from cases import FAULTS
from record import CALLS, READ, WRITE

COUNTS = sorted([0, 16, 17, 28, 29] + [first + 7 * sent for first in (27, 39) for sent in range(11)])
PLACES = range(8)
PLANES = ("0", "1", "2", "3", "more")
LUMA = ("both 0", "columns 0", "rows 0", "none 0")
FLAGS = ("none", "lossless", "intrabc", "both")
ROOMS = ("more", "to the last byte", "to the last bit", "a bit short", "a byte short", "shorter", "outside", "far")
DELTAS = [f"ref {n}" for n in range(8)] + ["mode 0", "mode 1"]
VALUES = (-64, -1, 0, 63)

BITS, NUMBER, FLAG, LEVELS = "bits", "number", "flags", "planes and luma levels"
SHARPNESS, HIGHEST, ROOM, NO_BITS = "sharpness", "level 63, of four", "room", "place with no bits"
LENT, SENT, VALUE, BEFORE = "bytes lent", "delta sent", "delta sent as", "delta before outside -64..63"
WITH_ROOM, WITHOUT = "a condition of 24 alone, inside the bytes", "a condition of 24 alone, outside"


def by_call(cells):
    return [f"{call} {cell}" for call in CALLS for cell in cells]


GROUPS = {
    NUMBER: ["read 0", "read 23", "write 0", "write 23", "write 24"],
    FLAG: by_call(FLAGS),
    LEVELS: by_call([f"{planes}, {luma}" for planes in PLANES for luma in LUMA]),
    SHARPNESS: by_call(range(8)),
    HIGHEST: by_call(range(4)),
    ROOM: by_call(ROOMS),
    NO_BITS: by_call(("inside", "outside", "far")),
    LENT: by_call(("0", "1 to 63", "64")),
    SENT: by_call(DELTAS),
    VALUE: by_call(VALUES),
    BEFORE: by_call(("kept", "sent", "set to the default")),
    WITH_ROOM: [fault[0] for fault in FAULTS],
    WITHOUT: [fault[0] for fault in FAULTS],
}
TABLES = [(BITS, call, count, place) for call in CALLS for count in COUNTS for place in PLACES]
CELLS = TABLES + [(group, cell) for group, cells in GROUPS.items() for cell in cells]


def place_of(case):
    """Where a call with no bits begins."""
    if case.at < 8 * case.lent:
        return "inside"
    return "far" if case.at >= 1 << 32 else "outside"


def room_of(case, count):
    """The room for so many bits."""
    if case.at >= 8 * case.lent:
        return place_of(case)
    spare = 8 * case.lent - case.at - count
    if spare < 0:
        return "a bit short" if spare == -1 else "a byte short" if spare >= -8 else "shorter"
    return "to the last bit" if spare == 0 else "to the last byte" if spare < 8 else "more"


def luma_of(level):
    return LUMA[2 * (level[0] != 0) + (level[1] != 0)]


def flags_of(given):
    return FLAGS[(given.lossless != 0) + 2 * (given.intrabc != 0)]


def off_cells(case, call):
    yield NO_BITS, f"{call} {place_of(case)}"
    if any(not -64 <= delta <= 63 for delta in case.given.refs + case.given.modes):
        yield BEFORE, f"{call} set to the default"


def field_cells(given, call, p):
    yield LEVELS, f"{call} {given.planes if given.planes < 4 else 'more'}, {luma_of(p.level)}"
    yield SHARPNESS, f"{call} {p.sharpness}"
    for n, level in enumerate(p.level):
        if level == 63:
            yield HIGHEST, f"{call} {n}"


def delta_cells(given, call, p):
    before = given.refs + given.modes
    for n, (update, delta) in enumerate(zip(p.update_ref + p.update_mode, p.ref_delta + p.mode_delta)):
        if update:
            yield SENT, f"{call} {DELTAS[n]}"
            if delta in VALUES:
                yield VALUE, f"{call} {delta}"
        if not -64 <= before[n] <= 63:
            yield BEFORE, f"{call} {'sent' if update else 'kept'}"


def accepted_cells(case, call, count, p):
    yield BITS, call, count, case.at % 8
    yield FLAG, f"{call} {flags_of(case.given)}"
    if model.is_off(case.given):
        yield from off_cells(case, call)
        return
    yield ROOM, f"{call} {room_of(case, count)}"
    yield from field_cells(case.given, call, p)
    yield from delta_cells(case.given, call, p)


def bits_wanted(case):
    """How many bits a call asks for that is refused with 23: of a read, with the bytes that are not lent."""
    if case.call == WRITE:
        return len(model.printed(case.given, case.params))
    number, count, _ = model.read(case.data, case.at, case.given)
    return count if number == 0 else 8 * len(case.data)


def short_cells(case, call):
    yield ROOM, f"{call} {room_of(case, bits_wanted(case))}"


def refused_cells(case):
    found = model.conditions(case.given, case.params)
    if len(found) == 1:
        yield WITHOUT if case.at >= 8 * case.lent else WITH_ROOM, found[0]


def cells(case, answer):
    """The cells of a case and its answer."""
    number, count, params, _ = answer
    call = CALLS[case.call]
    yield NUMBER, f"{call} {number}"
    yield LENT, f"{call} {'0' if case.lent == 0 else '64' if case.lent == 64 else '1 to 63'}"
    if number == 0:
        yield from accepted_cells(case, call, count, params if case.call == READ else case.params)
    elif number == model.OUT_OF_BITS:
        yield from short_cells(case, call)
    else:
        yield from refused_cells(case)


def print_table(tally, call):
    print(f"{call}, bits by place in a byte:")
    print("bits " + "".join(f"{place:8}" for place in PLACES))
    for count in COUNTS:
        print(f"{count:4} " + "".join(f"{tally[BITS, call, count, place]:8}" for place in PLACES))


def print_tally(tally):
    for call in CALLS:
        print_table(tally, call)
    for group, names in GROUPS.items():
        print(f"{group}: " + "; ".join(f"{cell} {tally[group, cell]}" for cell in names))


def empty(tally):
    return [" ".join(map(str, cell)) for cell in CELLS if tally[cell] == 0]
