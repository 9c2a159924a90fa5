"""Dossiers and their checking, apart from the crates: logs of runs, the byte form, and the receipt.

It follows docs/log.md, docs/format.md and docs/checking.md, shares no table and no code with the crates, and
runs programs on tools/tinyram.py.

    python3 tools/dossiers.py        writes crates/findings/stdin and crates/findings/stdout
"""
import os
import struct

from tinyram import TABLE, Machine, encode

SIZES = {1: 20, 2: 8, 3: 4, 4: 8, 5: 21}


# ---- the log of a run

def log(program, primary, auxiliary, bound):
    """Rows, lines and the answer (or None) of a run of at most `bound` steps."""
    machine = Machine(program, primary, auxiliary)
    rows, first, last = [], {}, {}
    answer = None
    for step in range(1, bound + 1):
        heard = machine.places[1]
        text = machine.program[machine.pc] if machine.pc < len(machine.program) else "answer 1"
        advice = False
        if text.startswith("read"):
            operand = text.split(",")[1].strip()
            value = machine.registers[int(operand[1:])] if operand.startswith("r") else int(operand) % 2**32
            advice = value == 1
        answer = machine.step()
        if advice:
            got = machine.places[1] > heard
            rows.append([3, auxiliary[heard], 0, 0, 0, 0] if got else [4, 0, 0, 0, 0, 0])
        elif machine.touched:
            cell, before, after = machine.touched
            if cell in last:
                rows[last[cell] - 1][5] = step
                rows.append([2, cell, before, after, last[cell], 0])
            else:
                first[cell] = step
                rows.append([1, cell, before, after, 0, 0])
            last[cell] = step
        else:
            rows.append([0, 0, 0, 0, 0, 0])
        if answer is not None:
            break
    lines = sorted(first.items())
    for number, (cell, step) in enumerate(lines):
        rows[step - 1][4] = number
    return rows, [list(line) for line in lines], answer


# ---- the byte form

def field(tag, payload):
    return struct.pack("<BH", tag, len(payload)) + payload


def pack(program, primary, lines, rows, bound):
    out = field(1, struct.pack("<5I", len(program), len(primary), len(lines), len(rows), bound))
    out += b"".join(field(2, struct.pack("<2I", *i)) for i in program)
    out += b"".join(field(3, struct.pack("<I", w)) for w in primary)
    out += b"".join(field(4, struct.pack("<2I", *l)) for l in lines)
    return out + b"".join(field(5, struct.pack("<B5I", *r)) for r in rows)


class Unreadable(Exception):
    """Finding 22: the fault's part, place and layer."""


class Dossier:
    def __init__(self, data):
        self.data, self.head = data, None
        if len(data) >= 23 and data[:3] == b"\x01\x14\x00":
            head = struct.unpack("<5I", data[3:23])
            if len(data) == 23 + 11 * head[0] + 7 * head[1] + 11 * head[2] + 24 * head[3]:
                self.head = head

    def item(self, part, place):
        size = {1: 11, 2: 7, 3: 11, 4: 24}
        at = 23 + sum(size[p] * self.head[p - 1] for p in range(1, part)) + size[part] * place
        raw = self.data[at:at + size[part]]
        tag = part + 1
        if raw[0] != tag or struct.unpack("<H", raw[1:3])[0] != SIZES[tag]:
            raise Unreadable(part, place, 1)
        if part == 4:
            row = list(struct.unpack("<B5I", raw[3:]))
            used = {0: 1, 1: 6, 2: 6, 3: 2, 4: 1}.get(row[0])
            if used is None or any(row[used:]):
                raise Unreadable(part, place, 1)
            return row
        return list(struct.unpack("<%dI" % ((size[part] - 3) // 4), raw[3:]))


# ---- the checking

NAMES = {opcode: (name, form) for name, (opcode, form) in TABLE.items()}


def disassemble(first, second):
    """The text of a well-formed instruction, or None."""
    opcode, immediate, d, s, padding = first >> 27, first >> 26 & 1, first >> 22 & 15, first >> 18 & 15, first & 0x3FFFF
    if opcode not in NAMES or padding or (not immediate and second > 15):
        return None
    name, form = NAMES[opcode]
    if ("d" not in form and d) or ("s" not in form and s):
        return None
    words = {"d": "r%d" % d, "s": "r%d" % s, "A": str(second) if immediate else "r%d" % second}
    return name + " " + ", ".join(words[kind] for kind in form)


class Found(Exception):
    """A finding: its number."""


def need(test, number):
    if not test:
        raise Found(number)


def check_line(d, place, line, former):
    cell, step = line
    need(cell % 4 == 0 and (former is None or cell > former), 24)
    need(1 <= step <= d.head[3], 25)
    row = d.item(4, step - 1)
    need(row[0] == 1 and row[4] == place, 25)


def check_row(d, machine, place, row, ended):
    t, total = place + 1, d.head[3]
    text = machine.program[machine.pc] if machine.pc < len(machine.program) else "answer 1"
    name = text.split()[0]
    operands = [o.strip() for o in text.split(None, 1)[1].split(",")]
    a = operands[TABLE[name][1].index("A")]
    a = machine.registers[int(a[1:])] if a.startswith("r") else int(a) % 2**32
    need(name != "answer" or a == 0, 26)
    need((name == "answer") == (t == total), 27)
    touches, hears = name.startswith(("load", "store")), name == "read" and a == 1
    need(row[0] in ((1, 2) if touches else (3, 4) if hears else (0,)), 28)
    need(not (row[0] == 3 and ended), 29)
    kind, cell, before, after, origin, next_ = row
    if touches:
        need(cell == a // 4 * 4, 30)
        for k in range(4):
            machine.memory[cell + k] = before >> 8 * k & 255
    if hears:
        machine.tapes[1] = [cell] if kind == 3 else []
        machine.places[1] = 0
    machine.step()
    if touches:
        need(after == machine.word(a), 30)
    if kind == 1:
        need(origin < d.head[2], 31)
        need(d.item(3, origin) == [cell, t] and before == 0, 31)
    if kind == 2:
        need(1 <= origin < t, 31)
        from_ = d.item(4, origin - 1)
        need(from_[0] in (1, 2) and from_[1] == cell and from_[3] == before and from_[5] == t, 31)
    if kind in (1, 2) and next_:
        need(t < next_ <= total, 32)
        to = d.item(4, next_ - 1)
        need(to[0] == 2 and to[4] == t, 32)


def verdict(data):
    """The last line of the receipt, all units taken, and the numbers that the lines before it show."""
    d = Dossier(data)
    if d.head is None:
        return "finding 20 0 0", (0, 0, 0, 0)
    length, words, lines, rows, bound = d.head
    shown = (length, words, bound, rows)
    if not (1 <= length <= 4096 and words <= 4096 and 1 <= rows <= 10**6 and 1 <= bound <= 10**6 and rows <= bound and lines <= rows):
        return "finding 21 0 0", shown
    program, primary, former, machine, ended = [], [], None, None, False
    for part, count in ((1, length), (2, words), (3, lines), (4, rows)):
        for place in range(count):
            try:
                item = d.item(part, place)
                if part == 1:
                    text = disassemble(*item)
                    need(text is not None, 23)
                    program.append(text)
                elif part == 2:
                    primary.append(item[0])
                elif part == 3:
                    check_line(d, place, item, former)
                    former = item[0]
                else:
                    machine = machine or Machine(program, primary, [])
                    check_row(d, machine, place, item, ended)
                    ended = ended or item[0] == 4
            except Found as found:
                return "finding %d %d %d" % (found.args[0], part, place), shown
            except Unreadable as fault:
                return "finding 22 %d %d fault %d %d %d" % (part, place, *fault.args), shown
    return "accepted", shown


def receipt(data):
    last, (length, words, bound, rows) = verdict(data)
    return "TinyRAM hv 32 16\nprogram %d primary %d bound %d\nsteps %d\n%s\n" % (length, words, bound, rows, last)


# ---- the cases

SAMPLE = ["read r1, 1", "store.w 8, r1", "load.b r2, 8", "cmpe r2, 7", "cnjmp 6", "answer 0", "answer 1"]
# two cells, the higher first, advice past its end, a primary word, a step that leaves the program untaken
LONGER = ["read r1, 0", "store.w 12, r1", "read r2, 1", "store.b 9, r2", "read r3, 1", "read r4, 1",
          "load.w r5, 12", "add r5, r5, 1", "store.w 12, r5", "load.w r6, 8", "answer 0"]
HALTS = ["mov r1, 3", "answer r1"]
LEAVES = ["jmp 9"]


def cases():
    sample = dict(program=[encode(t) for t in SAMPLE], primary=[], bound=9)
    sample["rows"], sample["lines"], _ = log(SAMPLE, [], [7], 9)
    longer = dict(program=[encode(t) for t in LONGER], primary=[5], bound=20)
    longer["rows"], longer["lines"], _ = log(LONGER, [5], [300], 20)

    def made(base, **changes):
        d = {k: [list(x) if isinstance(x, (list, tuple)) else x for x in v] if isinstance(v, list) else v for k, v in base.items()}
        d.update(changes)
        return pack([tuple(i) for i in d["program"]], d["primary"], d["lines"], d["rows"], d["bound"])

    def at(base, part, place, index, value):
        changed = [list(x) for x in base[part]]
        changed[place][index] = value
        return made(base, **{part: changed})

    yield "the sample", made(sample)
    yield "a longer log", made(longer)
    yield "no bytes", b""
    yield "a byte too few", made(sample)[:-1]
    yield "a byte too many", made(sample) + b"\0"
    yield "another tag of the head", b"\x02" + made(sample)[1:]
    yield "no instruction", made(sample, program=[])
    yield "bound 0", made(sample, bound=0)
    yield "a bound below the rows", made(sample, bound=5)
    yield "a bound of 1000001", made(sample, bound=1000001)
    yield "a bound of 1000000", made(sample, bound=1000000)
    yield "no row", made(sample, rows=[], lines=[])
    yield "more lines than rows", made(sample, lines=[[4 * k, 2] for k in range(7)])
    yield "4096 instructions", made(sample, program=sample["program"] + [encode("answer 1")] * 4089)
    yield "4097 instructions", made(sample, program=sample["program"] + [encode("answer 1")] * 4090)
    yield "an unreadable instruction", made(sample)[:23] + b"\x09" + made(sample)[24:]
    yield "an unreadable word", made(longer)[:23 + 11 * 11] + b"\x07" + made(longer)[23 + 11 * 11 + 1:]
    yield "an unreadable line", made(sample)[:23 + 77] + b"\x05" + made(sample)[23 + 78:]
    rows = 23 + 77 + 11
    yield "an unreadable row", made(sample)[:rows + 24 * 3] + b"\x06" + made(sample)[rows + 24 * 3 + 1:]
    yield "a line's row is unreadable", made(sample)[:rows + 24] + b"\x06" + made(sample)[rows + 25:]
    yield "the next row is unreadable", made(sample)[:rows + 48] + b"\x06" + made(sample)[rows + 49:]
    yield "a row of kind 5", at(sample, "rows", 4, 0, 5)
    yield "a plain row with a cell", at(sample, "rows", 4, 1, 1)
    yield "padding in an instruction", made(sample, program=[(0xF4400001, 1)] + sample["program"][1:])
    yield "an opcode that is none", made(sample, program=sample["program"][:6] + [(0xBC000000, 0)])
    yield "a line's cell is no multiple of 4", at(sample, "lines", 0, 0, 9)
    yield "lines that fall", made(longer, lines=longer["lines"][::-1])
    yield "a line twice", made(longer, lines=[longer["lines"][0]] * 2)
    yield "a line's step 0", at(sample, "lines", 0, 1, 0)
    yield "a line's step past the rows", at(sample, "lines", 0, 1, 7)
    yield "a line's step 3", at(sample, "lines", 0, 1, 3)
    yield "a line's step 4", at(sample, "lines", 0, 1, 4)
    yield "a touch from another line", at(longer, "rows", 1, 4, 0)
    halts = dict(program=[encode(t) for t in HALTS], primary=[], bound=2, rows=[[0] * 6] * 2, lines=[])
    yield "an answer 3", made(halts)
    leaves = dict(program=[encode(t) for t in LEAVES], primary=[], bound=2, rows=[[0] * 6] * 2, lines=[])
    yield "a program that is left", made(leaves)
    yield "rows after the answer", made(sample, rows=sample["rows"] + [[0] * 6])
    yield "no answer", made(sample, rows=sample["rows"][:5])
    yield "a plain row for a touch", at(longer, "rows", 6, 0, 0)[:0] + made(longer, rows=[[0] * 6 if k == 6 else r for k, r in enumerate(longer["rows"])])
    yield "a touch for a plain row", made(sample, rows=sample["rows"][:3] + [[2, 8, 7, 7, 3, 0]] + sample["rows"][4:])
    yield "an advice word for a plain row", made(sample, rows=sample["rows"][:3] + [[3, 7, 0, 0, 0, 0]] + sample["rows"][4:])
    yield "an advice word after an advice end", made(longer, rows=longer["rows"][:5] + [[3, 1, 0, 0, 0, 0]] + longer["rows"][6:])
    yield "another advice word", at(sample, "rows", 0, 1, 8)
    yield "an advice end for the word", made(sample, rows=[[4, 0, 0, 0, 0, 0]] + sample["rows"][1:])
    yield "a touch of another cell", at(sample, "rows", 2, 1, 12)
    yield "another after-value", at(sample, "rows", 1, 3, 8)
    yield "another before-value", at(sample, "rows", 2, 2, 6)
    yield "both values of a load", made(sample, rows=sample["rows"][:2] + [[2, 8, 263, 263, 2, 0]] + sample["rows"][3:])
    yield "a first touch that finds 1", at(longer, "rows", 1, 2, 1)
    yield "an origin past the lines", at(longer, "rows", 3, 4, 2)
    yield "an origin 0", at(sample, "rows", 2, 4, 0)
    yield "an origin that is the row itself", at(sample, "rows", 2, 4, 3)
    yield "an origin that is no touch", at(sample, "rows", 2, 4, 1)
    yield "row 2's next 0", at(sample, "rows", 1, 5, 0)
    yield "a next before the row", at(sample, "rows", 1, 5, 1)
    yield "a next past the rows", at(sample, "rows", 1, 5, 7)
    yield "a next that is no touch", at(sample, "rows", 1, 5, 4)
    yield "a next after the last touch", at(sample, "rows", 2, 5, 4)
    yield "a next of the largest word", at(sample, "rows", 2, 5, 2**32 - 1)


def main():
    folder = os.path.join(os.path.dirname(__file__), "..", "crates", "findings")
    reached = set()
    with open(os.path.join(folder, "stdin"), "w") as given, open(os.path.join(folder, "stdout"), "w") as told:
        for name, data in cases():
            last = verdict(data)[0]
            reached.add(last.split()[1] if last.startswith("finding") else last)
            given.write("%s: %s\n" % (name, data.hex()))
            told.write("%s: %s\n" % (name, last))
    assert reached == {str(n) for n in range(20, 33)} | {"accepted"}, sorted(reached)


if __name__ == "__main__":
    main()
