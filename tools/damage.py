#!/usr/bin/env python3
"""Works out, apart from the code, what damaged bytes of the sample answer.

    tools/damage.py sample    the 255 bytes of the sample
    tools/damage.py show      what program `show` must print for them
    tools/damage.py damage    what program `damage` must print for them

The bytes come from the list of records below and the layout in docs/format.md.
"""
import struct
import sys

HEAD = (7, 0, 1, 6, 9)
INSTRUCTIONS = [
    (0xF4400000, 1), (0xE4400000, 8), (0xDC800000, 8), (0x6C080000, 7),
    (0xB4000000, 6), (0xFC000000, 0), (0xFC000000, 1),
]
LINES = [(8, 2)]
ROWS = [
    (3, 7, 0, 0, 0, 0), (1, 8, 0, 7, 0, 3), (2, 8, 7, 7, 2, 0),
    (0, 0, 0, 0, 0, 0), (0, 0, 0, 0, 0, 0), (0, 0, 0, 0, 0, 0),
]
# part number: tag, payload length, struct format
FORM = {0: (1, 20, "<5I"), 1: (2, 8, "<2I"), 2: (3, 4, "<I"), 3: (4, 8, "<2I"), 4: (5, 21, "<B5I")}
PLACES = 8


def field(part, numbers):
    tag, size, form = FORM[part]
    return struct.pack("<BH", tag, size) + struct.pack(form, *numbers)


def sample():
    data = field(0, HEAD)
    data += b"".join(field(1, i) for i in INSTRUCTIONS)
    data += b"".join(field(3, l) for l in LINES)
    data += b"".join(field(4, r) for r in ROWS)
    return data


def unpack(part, data):
    """The numbers in a field, or None."""
    tag, size, form = FORM[part]
    if len(data) != 3 + size or data[0] != tag or data[1] + 256 * data[2] != size:
        return None
    numbers = struct.unpack(form, data[3:])
    if part == 4:
        kind = numbers[0]
        unused = {0: numbers[1:], 1: (), 2: (), 3: numbers[2:], 4: numbers[1:]}
        if kind not in unused or any(unused[kind]):
            return None
    return numbers


def text(part, numbers):
    if part == 0:
        return "head instructions %d words %d lines %d rows %d bound %d" % numbers
    if part == 1:
        return "instruction %d %d" % numbers
    if part == 2:
        return "word %d" % numbers
    if part == 3:
        return "line cell %d step %d" % numbers
    kind, rest = numbers[0], numbers[1:]
    if kind == 0:
        return "row plain"
    if kind == 3:
        return "row advice %d" % rest[0]
    if kind == 4:
        return "row advice end"
    cell, before, after, origin, following = rest
    source = "line" if kind == 1 else "step"
    return f"row touch cell {cell} before {before} after {after} from {source} {origin} next {following}"


class File:
    """The answers of a file's bytes."""

    def __init__(self, data):
        self.data = data
        self.head = unpack(0, data[:23])
        if self.head is not None:
            counts = self.head[:4]
            if len(data) != 23 + 11 * counts[0] + 7 * counts[1] + 11 * counts[2] + 24 * counts[3]:
                self.head = None

    def answer(self, part, place=0):
        if part == 0:
            return text(0, self.head) if self.head else "refusal 2 part 0 place 0 layer 1"
        if self.head is None or place >= self.head[part - 1]:
            return f"refusal 1 part {part} place {place}"
        start = 23
        for earlier in range(1, part):
            start += (3 + FORM[earlier][1]) * self.head[earlier - 1]
        size = 3 + FORM[part][1]
        numbers = unpack(part, self.data[start + size * place:start + size * (place + 1)])
        if numbers is None:
            return f"refusal 2 part {part} place {place} layer 1"
        return text(part, numbers)


def questions():
    return [(part, place) for part in (1, 2, 3, 4) for place in range(PLACES)]


def report(before, after):
    line = after.answer(0)
    if after.head is None:
        past = sum(after.answer(*q).startswith("refusal 1 ") for q in questions())
        return f"{line}, {past} past"
    for q in questions():
        if after.answer(*q) != before.answer(*q):
            line += ", " + after.answer(*q)
    return line


def show(data):
    file = File(data)
    print(file.answer(0))
    for part in (1, 2, 3, 4):
        for place in range(file.head[part - 1]):
            print(f"{place}: {file.answer(part, place)}")


def damage(data):
    before = File(data)
    for mask in (1, 128):
        for at in range(len(data)):
            after = bytearray(data)
            after[at] ^= mask
            print(f"byte {at} by {mask}: {report(before, File(bytes(after)))}")
    for length in range(len(data)):
        print(f"length {length}: {report(before, File(data[:length]))}")


if __name__ == "__main__":
    wanted = sys.argv[1] if len(sys.argv) > 1 else ""
    if wanted == "sample":
        sys.stdout.buffer.write(sample())
    elif wanted == "show":
        show(sample())
    elif wanted == "damage":
        damage(sample())
    else:
        sys.exit(__doc__)
