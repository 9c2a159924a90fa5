"""Tables of single steps for crate `machine_cases`, with what TinyRAM's text says of each.

    python3 tools/cases.py        writes crates/machine_cases/src/*.rt

Every case starts at pc 5 with r1 = x, r2 = y, r3 = 99, all other registers 0, a flag and four primary words read.
`got` is what the outside gives: the cell's value, or the tape's next word.
"""
import os

from tinyram import Machine, encode

MAX = 2**32 - 1
MIN = 2**31  # the lowest signed word

# text, x, y, flag, got
GROUPS = {
    "bits": [
        ("and r3, r1, r2", 0xF0F0, 0xFF00, 1, None), ("and r3, r1, r2", 0xF0F0, 0x0F0F, 0, None),
        ("and r3, r1, 4294967295", MAX, 0, 1, None), ("and r3, r1, r1", 0, 0, 0, None),
        ("or r3, r1, r2", 0xF0F0, 0x0F0F, 1, None), ("or r3, r1, 0", 0, 0, 0, None),
        ("or r3, r1, 2147483648", 1, 0, 0, None), ("or r3, r2, r1", MAX, MAX, 1, None),
        ("xor r3, r1, r2", 0xFFFF, 0x00FF, 1, None), ("xor r3, r1, r1", 77, 0, 0, None),
        ("xor r3, r1, 4294967295", 0, 0, 0, None), ("xor r3, r2, 5", 0, 5, 0, None),
        ("not r3, r1", 0, 0, 1, None), ("not r3, 4294967295", 0, 0, 0, None),
        ("not r3, 1", 0, 0, 0, None), ("not r3, r2", 0, MIN, 1, None),
    ],
    "integers": [
        ("add r3, r1, r2", 2, 3, 1, None), ("add r3, r1, 1", MAX, 0, 0, None),
        ("add r3, r1, r2", MIN, MIN, 0, None), ("add r3, r1, 1", MAX - 1, 0, 1, None),
        ("sub r3, r1, r2", 5, 3, 1, None), ("sub r3, r1, 1", 0, 0, 0, None),
        ("sub r3, r1, r2", 3, 3, 1, None), ("sub r3, r1, 4294967295", 0, 0, 0, None),
        ("mull r3, r1, r2", 65535, 65537, 1, None), ("mull r3, r1, r2", 65536, 65536, 0, None),
        ("mull r3, r1, 4294967295", MAX, 0, 0, None), ("mull r3, r1, 0", MAX, 0, 1, None),
        ("umulh r3, r1, r2", 65536, 65536, 0, None), ("umulh r3, r1, r2", 65535, 65537, 1, None),
        ("umulh r3, r1, 4294967295", MAX, 0, 0, None), ("umulh r3, r1, 2", MIN, 0, 0, None),
        ("smulh r3, r1, 1", MAX, 0, 1, None), ("smulh r3, r1, r1", MIN, 0, 0, None),
        ("smulh r3, r1, r2", MIN, MAX, 0, None), ("smulh r3, r1, 1", MIN, 0, 1, None),
        ("smulh r3, r1, r2", 0, MAX, 1, None), ("smulh r3, r1, 3", MIN, 0, 0, None),
        ("smulh r3, r1, r2", 65536, 32768, 0, None), ("smulh r3, r1, r2", MIN, 2147483647, 0, None),
        ("udiv r3, r1, r2", 17, 5, 1, None), ("udiv r3, r1, r2", 17, 0, 0, None),
        ("udiv r3, r1, 1", MAX, 0, 1, None), ("udiv r3, r1, 4294967295", MAX - 1, 0, 1, None),
        ("umod r3, r1, r2", 17, 5, 1, None), ("umod r3, r1, 0", 17, 0, 0, None),
        ("umod r3, r1, 1", MAX, 0, 1, None), ("umod r3, r1, 4294967295", MAX - 1, 0, 0, None),
    ],
    "shifts": [
        ("shl r3, r1, 1", MIN + 1, 0, 0, None), ("shl r3, r1, 32", MIN + 1, 0, 0, None),
        ("shl r3, r1, 31", 3, 0, 1, None), ("shl r3, r1, r2", 1, MAX, 1, None),
        ("shl r3, r1, 0", MIN, 0, 0, None), ("shl r3, r1, 33", 1, 0, 1, None),
        ("shr r3, r1, 1", 3, 0, 0, None), ("shr r3, r1, 32", MAX, 0, 0, None),
        ("shr r3, r1, 31", MIN, 0, 1, None), ("shr r3, r1, r2", MIN, MAX, 1, None),
        ("shr r3, r1, 0", 7, 0, 0, None), ("shr r3, r1, 33", 2, 0, 1, None),
    ],
    "compares": [
        ("cmpe r1, r2", 7, 7, 0, None), ("cmpe r1, r2", 7, 8, 1, None), ("cmpe r1, -1", MAX, 0, 0, None),
        ("cmpa r1, r2", 8, 7, 0, None), ("cmpa r1, r2", 7, 7, 1, None), ("cmpa r1, 1", MAX, 0, 0, None),
        ("cmpae r1, r2", 7, 7, 0, None), ("cmpae r1, r2", 6, 7, 1, None), ("cmpae r1, 0", MIN, 0, 0, None),
        ("cmpg r1, 1", MAX, 0, 1, None), ("cmpg r1, r2", 1, MAX, 0, None), ("cmpg r1, r2", MIN, MIN, 1, None),
        ("cmpg r1, r2", 2147483647, MIN, 0, None),
        ("cmpge r1, r2", MIN, MIN, 0, None), ("cmpge r1, 0", MAX, 0, 1, None), ("cmpge r1, r2", 0, MIN, 0, None),
    ],
    "moves": [
        ("mov r3, r1", 5, 0, 1, None), ("mov r3, 4294967295", 0, 0, 0, None), ("mov r3, r3", 0, 0, 1, None),
        ("cmov r3, r1", 5, 0, 1, None), ("cmov r3, r1", 5, 0, 0, None), ("cmov r3, 0", 5, 0, 1, None),
    ],
    "jumps": [
        ("jmp 2", 0, 0, 0, None), ("jmp r1", MAX, 0, 1, None), ("jmp 5", 0, 0, 1, None),
        ("cjmp 2", 0, 0, 1, None), ("cjmp 2", 0, 0, 0, None), ("cjmp r1", 4096, 0, 1, None),
        ("cnjmp 2", 0, 0, 1, None), ("cnjmp 2", 0, 0, 0, None), ("cnjmp r1", 0, 0, 0, None),
        ("answer 0", 0, 0, 1, None), ("answer r1", MAX, 0, 0, None), ("answer 1", 0, 0, 0, None),
    ],
    "memory": [
        ("store.b 9, r1", 171, 0, 0, 287454020), ("store.b 8, r1", 0x1FF, 0, 1, 0),
        ("store.b r2, r1", 1, MAX, 0, MAX), ("store.b 10, r1", 0, 0, 0, MAX),
        ("load.b r3, 8", 0, 0, 1, 0x11223344), ("load.b r3, 11", 0, 0, 0, 0x11223344),
        ("load.b r3, r1", 9, 0, 0, 0x1122FF44), ("load.b r3, 4294967295", 0, 0, 0, 0x80000000),
        ("store.w 8, r1", 0x01020304, 0, 1, 5), ("store.w 11, r1", MAX, 0, 0, 0),
        ("store.w r2, r1", 0, MAX, 0, MAX), ("store.w r1, r1", 6, 0, 0, 1),
        ("load.w r3, 8", 0, 0, 1, 0x11223344), ("load.w r3, 10", 0, 0, 0, MAX),
        ("load.w r3, r1", MAX, 0, 0, 7), ("load.w r3, 0", 0, 0, 0, 0),
    ],
    "tapes": [
        ("read r3, 0", 0, 0, 1, 7), ("read r3, 0", 0, 0, 0, None), ("read r3, r1", 0, 0, 1, MAX),
        ("read r3, 1", 0, 0, 1, 7), ("read r3, 1", 0, 0, 0, None), ("read r3, r1", 1, 0, 1, 0),
        ("read r3, 2", 0, 0, 0, None), ("read r3, r1", MAX, 0, 0, None),
    ],
}

TITLES = {
    "bits": "Bit operations: the flag says that the result is 0.",
    "integers": "Sums, products and quotients: the flag tells overflow, a borrow or a division by 0.",
    "shifts": "Shifts: a count of 32 or more leaves nothing; the flag is the bit that would leave first.",
    "compares": "Comparisons: only the flag changes.",
    "moves": "Moves: the flag stays.",
    "jumps": "Jumps and answers: only the pc changes, and an answer leaves it too.",
    "memory": "Loads and stores of bytes and words.",
    "tapes": "Reads of the primary tape, the auxiliary tape and a tape that is not there.",
}


def case(text, x, y, flag, got):
    first, second = encode(text)
    name = text.split()[0]
    machine = Machine(["answer 1"] * 5 + [text], [0] * 4, [])
    machine.pc, machine.flag = 5, flag
    machine.registers[1:4] = [x, y, 99]
    machine.places[0] = 4
    address = [o.strip() for o in text.split(None, 1)[1].split(",")]
    a = address[0] if name.startswith(("store", "answer")) else address[-1]
    a = machine.registers[int(a[1:])] if a.startswith("r") else int(a) % 2**32
    asks = "Nothing"
    if name.startswith(("store", "load")):
        for k in range(4):
            machine.memory[a // 4 * 4 + k] = got >> (8 * k) & 255
    elif name == "read" and got is not None:
        machine.tapes[a].append(got)
    answer = machine.step()
    if machine.touched:
        asks = "Cell(%d)" % machine.touched[0]
    elif name == "read" and a < 2:
        asks = ["Primary", "Advice"][a]
    elif answer is not None:
        asks = "Halt(%d)" % answer
    leaves = machine.touched[2] if machine.touched else (got or 0)
    unchanged = [0, x, y] + [0] * 12
    assert machine.registers[:3] + machine.registers[4:] == unchanged, text
    h = "%08X" % first
    fields = [
        ("text", '"%s"' % text), ("first", "0x%s_%s" % (h[:4], h[4:])), ("second", second), ("x", x), ("y", y),
        ("flag", "true" if flag else "false"), ("got", "None" if got is None else "Some(%d)" % got),
        ("asks", "Demand::" + asks), ("leaves", leaves), ("result", machine.registers[3]),
        ("flag_after", "true" if machine.flag else "false"), ("pc_after", machine.pc), ("place_after", machine.places[0]),
    ]
    return "    Case {\n" + "".join("        %s: %s,\n" % f for f in fields) + "    },\n"


def main():
    folder = os.path.join(os.path.dirname(__file__), "..", "crates", "machine_cases", "src")
    for name, cases in GROUPS.items():
        with open(os.path.join(folder, name + ".rt"), "w") as out:
            out.write("// %s\n// Made by tools/cases.py.\n" % TITLES[name])
            out.write("use crate::case::Case;\nuse machine::step::Demand;\n\n")
            out.write("pub const CASES: [Case; %d] = [\n" % len(cases))
            out.write("".join(case(*c) for c in cases))
            out.write("];\n")


main()
