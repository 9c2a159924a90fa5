"""The logs of the built-in programs and the steps of the fitting program, as program `yazkilt` is to print them.

    python3 tools/fitting.py > crates/yazkilt/stdout
    python3 tools/fitting.py words        the program's instructions as two words each
"""
import sys

from dossiers import SAMPLE, log, pack, receipt
from tinyram import TABLE, Machine, encode

# A gain in 8.8 fixed point and a limit, then the target words. Each measured word is scaled by the gain; the
# errors are summed in cell 16 and counted in the byte at 20; the mean error is held to the limit.
PROGRAM = """
read r1, 0
read r2, 0
read r3, 0
cjmp 19
read r4, 1
cjmp 18
mull r5, r4, r1
shr r5, r5, 8
sub r6, r3, r5
cnjmp 11
sub r6, r5, r3
load.w r7, 16
add r7, r7, r6
store.w 16, r7
load.b r8, 20
add r8, r8, 1
store.b 20, r8
jmp 2
answer 2
load.w r7, 16
load.b r8, 20
udiv r9, r7, r8
cjmp 18
cmpae r2, r9
cnjmp 26
answer 0
answer 1
""".strip().split("\n")
PRIMARY = [320, 3, 1000, 2000, 3000]
AUXILIARY = [801, 1597, 2403]


def main():
    if sys.argv[1:] == ["words"]:
        for text in PROGRAM:
            print("%08x %08x ; %s" % (*encode(text), text))
        return
    print("the sample:")
    show_log(SAMPLE, [], [7], 9)
    trace()
    print("its log:")
    show_log(PROGRAM, PRIMARY, AUXILIARY, 1000)


def show_log(program, primary, auxiliary, bound):
    rows, lines, answer = log(program, primary, auxiliary, bound)
    ending = "out of steps" if answer is None else "answered %d in step %d" % (answer, len(rows))
    print("%s cells %d" % (ending, len(lines)))
    for row in rows:
        print("row %d %d %d %d %d %d" % tuple(row))
    for cell, first in lines:
        touches = [step for step, row in enumerate(rows, 1) if row[0] in (1, 2) and row[1] == cell]
        print("cell %d %d %d %d" % (cell, first, touches[-1], rows[touches[-1] - 1][3]))
    data = pack([encode(text) for text in program], primary, lines, rows, bound)
    print("dossier %d bytes" % len(data))
    print("what tables and bytes both mean:\n%s" % receipt(data), end="")


def trace():
    machine = Machine(PROGRAM, PRIMARY, AUXILIARY)
    print("program %d primary %d auxiliary %d" % (len(PROGRAM), len(PRIMARY), len(AUXILIARY)))
    for step in range(1, 1001):
        pc = machine.pc
        text = PROGRAM[pc] if pc < len(PROGRAM) else "answer 1"
        answer = machine.step()
        line = "step %d pc %d: %s" % (step, pc, text)
        if answer is not None:
            print(line)
            print("answered %d in step %d" % (answer, step))
            return
        if "d" in TABLE[text.split()[0]][1] and not text.startswith("store"):
            register = int(text.split()[1].rstrip(",")[1:])
            line += " | r%d = %d" % (register, machine.registers[register])
        if machine.touched:
            line += " | cell %d: %d to %d" % machine.touched
        line += " | flag %d" % machine.flag
        print(line)
    print("out of steps")


main()
