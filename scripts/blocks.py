"""Writes a test as a block of 512 bytes, of edition 1, and parts a suite of both editions, for the scripts."""
import struct

BLOCK, RECORD, RECORDS, INITIAL, FINALS, CHECKED = 512, 16, 32, 16, 288, 508
EDITION, EDITION_AT = 1, 4
# The bytes of a test, by its edition.
LENGTHS = {1: BLOCK, 2: 3 * BLOCK}
FIELDS = ("addr", "data", "ctrl", "rval", "wval")
# Of an AMO; 0 where an event doesn't name them.
OPERATION = ("operation", "operand")


def record(e):
    operation = (e.get(f, 0) for f in OPERATION)
    return struct.pack("<4B5H2B", e["kind"], e["hart"], e["loc"], e["flags"], *(e[f] for f in FIELDS), *operation)


def sealed(b):
    """The block with its check made right."""
    check = sum((i + 1) * v for i, v in enumerate(b[:CHECKED]))
    return bytes(b[:CHECKED]) + struct.pack("<I", check)


def tests(suite):
    """The tests of a suite of good ones."""
    at = 0
    while at < len(suite):
        length = LENGTHS[suite[at + EDITION_AT]]
        yield suite[at:at + length]
        at += length


def block(test):
    """A test has harts, locs, init (values), events, and finals (values by location)."""
    finals = {int(x): v for x, v in test["finals"].items()}
    b = bytearray(BLOCK)
    stated = sum(1 << x for x in finals)
    b[0:9] = struct.pack("<4s5B", b"RVT1", EDITION, test["harts"], test["locs"], len(test["events"]), stated)
    for x, v in enumerate(test["init"]):
        struct.pack_into("<H", b, INITIAL + 2 * x, v)
    for k, e in enumerate(test["events"]):
        b[RECORDS + RECORD * k:RECORDS + RECORD * (k + 1)] = record(e)
    for x, v in finals.items():
        struct.pack_into("<H", b, FINALS + 2 * x, v)
    return sealed(b)
