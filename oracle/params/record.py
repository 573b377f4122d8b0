"""Cases and answers as records of bytes: see oracle/FORMATS.md."""
import struct
from typing import NamedTuple

import model

READ, WRITE = 0, 1
CALLS = ("read", "write")
ROOM = 64
HEAD = struct.Struct("<BB2xIIIQ8b2b4BBBB8B2B8b2b3x")
ANSWER = struct.Struct("<BB4BBBB8B2B8b2b3x")
CASE_SIZE, ANSWER_SIZE = HEAD.size + ROOM, ANSWER.size + ROOM


class Case(NamedTuple):
    """A call, so many of 64 bytes lent, a place, and what is given; of a read the parameters are not looked at."""

    call: int
    lent: int
    at: int
    given: model.Given
    params: model.Params
    data: bytes


def flat(p):
    return (
        *p.level,
        p.sharpness,
        p.delta_enabled,
        p.delta_update,
        *p.update_ref,
        *p.update_mode,
        *p.ref_delta,
        *p.mode_delta,
    )


def params_of(v):
    """The parameters of 27 numbers."""
    return model.Params(v[0:4], v[4], v[5], v[6], v[7:15], v[15:17], v[17:25], v[25:27])


def pack(case):
    given = case.given
    flags = given.planes, given.lossless, given.intrabc
    head = HEAD.pack(case.call, case.lent, *flags, case.at, *given.refs, *given.modes, *flat(case.params))
    return head + case.data


def unpack(record):
    call, lent, planes, lossless, intrabc, at, *v = HEAD.unpack(record[: HEAD.size])
    v = tuple(v)
    given = model.Given(planes, lossless, intrabc, v[0:8], v[8:10])
    return Case(call, lent, at, given, params_of(v[10:37]), record[HEAD.size :])


def answer(case):
    """The number, the count, the parameters and the bytes afterwards."""
    lent, rest = case.data[: case.lent], case.data[case.lent :]
    if case.call == READ:
        return *model.read(lent, case.at, case.given), case.data
    number, count, after = model.write(lent, case.at, case.given, case.params)
    return number, count, model.NOTHING, after + rest


def pack_answer(number, count, params, data):
    return ANSWER.pack(number, count, *flat(params)) + data


# ---- in words


def words_of_params(p):
    return (
        f"levels {p.level}, sharpness {p.sharpness}, delta_enabled {p.delta_enabled}, delta_update {p.delta_update},\n"
        f"    update bits {p.update_ref} {p.update_mode}, deltas {p.ref_delta} {p.mode_delta}"
    )


def words_of_answer(case, record):
    """Of a write the parameters only if they are not 0, and bytes only if they have changed."""
    number, count, *v = ANSWER.unpack(record[: ANSWER.size])
    text = f"number {number}, {count} bits"
    if case.call == READ or any(v):
        text += f",\n    {words_of_params(params_of(tuple(v)))}"
    if record[ANSWER.size :] != case.data:
        text += f",\n    bytes {record[ANSWER.size :].hex()}"
    return text


def words(case):
    given = case.given
    lines = [
        f"{CALLS[case.call]} at place {case.at}, {case.lent} bytes lent,"
        f" planes {given.planes}, lossless {given.lossless}, intrabc {given.intrabc}",
        f"    deltas before {given.refs} {given.modes}",
    ]
    if case.call == WRITE:
        lines.append(f"    {words_of_params(case.params)}")
    lines.append(f"    bytes {case.data.hex()}")
    return "\n".join(lines)
