"""Runs of small programs for crate `runner_cases`, with their logs worked out by the interpreter of tinyram.py.

    python3 tools/runs.py        writes crates/runner_cases/src/runs.rt
"""
import os

from tinyram import Machine, encode

# name, what it shows, program, primary words, auxiliary words, bound
RUNS = [
    ("sample", "An auxiliary word is stored, loaded again and compared.",
     ["read r1, 1", "store.w 8, r1", "load.b r2, 8", "cmpe r2, 7", "cnjmp 6", "answer 0", "answer 1"], [], [7], 9),
    ("sample_refuses", "The same on another word.",
     ["read r1, 1", "store.w 8, r1", "load.b r2, 8", "cmpe r2, 7", "cnjmp 6", "answer 0", "answer 1"], [], [8], 9),
    ("out_of_steps", "No step within the bound answers; the last one touches a cell.",
     ["store.w 4, r1", "add r1, r1, 1", "jmp 0"], [], [], 10),
    ("just_in_time", "The answer comes in the last step of the bound.",
     ["mov r1, 5", "answer r1"], [], [], 2),
    ("one_step_short", "The same with one step less.",
     ["mov r1, 5", "answer r1"], [], [], 1),
    ("leaves_the_program", "Past the program stands `answer 1`.",
     ["mov r1, 3", "jmp 4000"], [], [], 8),
    ("bytes_and_words", "Bytes and words overlap in two cells, and an address counts down to its cell.",
     ["mov r1, 287454020", "store.w 10, r1", "mov r2, 171", "store.b 9, r2", "load.b r3, 11", "load.w r4, 9",
      "store.b 12, r3", "store.w 15, r4", "load.b r5, 13", "answer r5"], [], [], 24),
    ("cells_fall", "Cells are touched from the highest down, and again from the lowest up.",
     ["store.w 4294967292, r1", "store.w 400, r1", "store.w 40, r1", "store.w 0, r1", "load.w r2, 3", "load.w r2, 41",
      "load.w r2, 402", "load.w r2, 4294967295", "answer 0"], [], [], 20),
    ("tapes", "Both tapes are read past their ends, and a third tape is empty.",
     ["read r1, 0", "read r2, 1", "read r3, 0", "read r4, 1", "read r5, 1", "read r6, 2", "store.w r1, r2",
      "answer r2"], [36], [5, 6], 24),
]


def log(program, primary, auxiliary, bound):
    machine = Machine(program, primary, auxiliary)
    rows, cells, ending = [], {}, None
    for step in range(1, bound + 1):
        reads = machine.places[1]
        text = machine.program[machine.pc] if machine.pc < len(machine.program) else "answer 1"
        tape = None
        if text.startswith("read"):
            operand = text.split(",")[1].strip()
            tape = machine.registers[int(operand[1:])] if operand.startswith("r") else int(operand)
        answer = machine.step()
        if machine.touched:
            cell, before, after = machine.touched
            first = cell not in cells
            origin = None if first else cells[cell][1]
            rows.append(["FromLine" if first else "FromStep", cell, before, after, origin, 0])
            if not first:
                rows[origin - 1][5] = step
            cells[cell] = [step if first else cells[cell][0], step, after]
        elif tape == 1:
            word = machine.tapes[1][reads] if machine.places[1] > reads else None
            rows.append(["AdviceEnd"] if word is None else ["Advice", word])
        else:
            rows.append(["Plain"])
        if answer is not None:
            ending = (answer, step)
            break
    lines = sorted(cells)
    for row in rows:
        if row[0] == "FromLine":
            row[4] = lines.index(row[1])
    return rows, [(c, *cells[c]) for c in lines], ending


def row_text(row):
    if row[0] in ("FromLine", "FromStep"):
        names = ("cell", "before", "after", "origin", "next")
        return "Row::%s(Touch { %s })" % (row[0], ", ".join("%s: %d" % pair for pair in zip(names, row[1:])))
    return "Row::%s%s" % (row[0], "(%d)" % row[1] if len(row) > 1 else "")


def test_text(name, why, program, primary, auxiliary, bound):
    rows, cells, ending = log(program, primary, auxiliary, bound)
    out = ["// " + why, "#[test]", "fn %s(rt: HostRuntime) {" % name, "    let program = ["]
    for text in program:
        first, second = encode(text)
        out += ["        // " + text, "        Instruction { first: %d, second: %d }," % (first, second)]
    out += ["    ];", "    let rows = [%s];" % ", ".join(row_text(row) for row in rows)]
    answer = "Some(Answered { value: %d, step: %d })" % ending if ending else "None"
    entries = ", ".join("CellEntry { cell: %d, first: %d, last: %d, value: %d }" % entry for entry in cells)
    out += ["    let cells = [%s];" % entries,
            "    let job = Job { program: &program, primary: &%s, auxiliary: &%s, bound: %d };" % (primary, auxiliary, bound),
            "    let run = Run { answer: %s, cells: %d };" % (answer, len(cells)),
            "    let log = Log { run, rows: &rows, cells: &cells };",
            "    check_run(&rt, rt.alloc(), job, log);", "}"]
    return "\n".join(out)


HEAD = """// Runs and their logs.
// Made by tools/runs.py.
use crate::check::{Log, check_run};
use dossier::record::{Row, Touch};
use encoding::instruction::Instruction;
use index::entry::CellEntry;
use runner::ending::{Answered, Run};
use runner::job::Job;

"""

if __name__ == "__main__":
    here = os.path.dirname(os.path.abspath(__file__))
    with open(os.path.join(here, "../crates/runner_cases/src/runs.rt"), "w") as out:
        out.write(HEAD + "\n\n".join(test_text(*run) for run in RUNS) + "\n")
