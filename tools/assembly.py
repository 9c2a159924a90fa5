"""Tables of texts for crate `assembler_cases`, with what the rules of docs/assembly.md say of each.

    python3 tools/assembly.py        writes crates/assembler_cases/src/{good,bad,refused,programs}.rt

The assembler here works by regular expressions on whole lines and shares no code with the crates.
"""
import os
import re

from tinyram import TABLE, encode

HEADER = "; TinyRAM V=2.000 M=hv W=32 K=16"
REGISTER = re.compile(r"r([0-9]|1[0-5])")
INTEGER = re.compile(r"-?[0-9]{1,10}")
LABEL = re.compile(r"_[0-9a-zA-Z_]+")


class Unreadable(Exception):
    pass


def operand(text, kind):
    if REGISTER.fullmatch(text):
        return text
    if kind == "A" and (INTEGER.fullmatch(text) or LABEL.fullmatch(text)):
        return text
    raise Unreadable


def read(line):
    """The label of a line or None, and its instruction as (mnemonic, operands) or None."""
    line = line.split(";")[0]
    label, rest = re.fullmatch(r"[ \t]*(?:(_[0-9a-zA-Z_]+):)?[ \t]*(.*?)[ \t]*", line, re.S).groups()
    if not rest:
        return label, None
    parts = re.fullmatch(r"([a-z.]+)[ \t]+(.*)", rest, re.S)
    if not parts or parts.group(1) not in TABLE:
        raise Unreadable
    mnemonic = parts.group(1)
    operands = [o.strip(" \t") for o in parts.group(2).split(",")]
    form = TABLE[mnemonic][1]
    if len(operands) != len(form):
        raise Unreadable
    return label, (mnemonic, [operand(o, kind) for o, kind in zip(operands, form)])


def assemble(text, size):
    """(number, value, program): a refusal, or 0 with the length."""
    lines = re.split(r"\r\n|\r|\n", text)
    if lines[0] != HEADER:
        return 9, 1, []
    labels, statements = {}, []
    for number, line in enumerate(lines[1:], 2):
        try:
            label, statement = read(line)
        except Unreadable:
            return 10, number, []
        if label is not None:
            if label in labels:
                return 11, number, []
            if len(labels) == 256:
                return 13, number, []
            labels[label] = len(statements)
        if statement is not None:
            if len(statements) == 4096:
                return 13, number, []
            statements.append((number, statement))
    program = []
    for number, (mnemonic, operands) in statements:
        if any(o.startswith("_") and o not in labels for o in operands):
            return 12, number, []
        resolved = [str(labels[o]) if o.startswith("_") else o for o in operands]
        program.append(encode(mnemonic + " " + ", ".join(resolved)))
    if len(program) > size:
        return 14, len(program), []
    return 0, len(program), program


# single lines that can be read, each with one instruction
GOOD = [
    "and r1, r2, r3", "or r1, r2, 3", "xor r15, r0, 255", "not r4, r5", "add r3, r7, 1234", "sub r1, r1, -1",
    "mull r2, r3, r4", "umulh r2, r3, 65536", "smulh r2, r3, -5", "udiv r8, r9, 10", "umod r8, r9, r10",
    "shl r1, r2, 31", "shr r1, r2, r14", "cmpe r2, 7", "cmpa r2, r7", "cmpae r15, 0", "cmpg r2, -1", "cmpge r0, r0",
    "mov r9, 2147483648", "cmov r9, r8", "jmp 2", "cjmp 7", "cnjmp r6", "store.b 9, r1", "store.w r2, r3",
    "load.b r2, 8", "load.w r2, r3", "read r1, 1", "answer 0",
    "\tanswer\t0", "  answer  0  ", "answer 0;", "answer 0 ; all ; of : it, is _a comment", "answer 0;\u00e9\u00a0\t",
    "_a:answer 0", "_a: answer 0", " _a:\tanswer _a", "_A9_:answer 0", "__:answer 0", "_0:answer 0",
    "add r1,r2,3", "add r1 ,r2 , 3", "add r1\t,\tr2\t,\t3 ;", "add  r10,r11,r12",
    "answer -0", "answer 00", "answer 0000000007", "answer 4294967295", "answer 4294967296", "answer 9999999999",
    "answer -9999999999", "answer -1", "answer -4294967296", "answer -4294967297", "answer 0000000000",
    "_x: add r1, r1, _x", "_x: store.w _x, r1", "_x: cmpe r3, _x", "_x: mov r2, _x", "_x: jmp _x",
]

# single lines that cannot be read
BAD = [
    "answer", "answer ", "answer ;0", "answer-1", "answer,0", "answer0", "answer_a", "jmp_a", "answer 0 0", "answer 0,",
    "answer ,0", "answer 0, 0", "answer 0 answer 0", "Answer 0", "ANSWER 0", "answer: 0", "nop", "nop 1", "store r1, 2",
    "store.x 1, r1", "store. 1, r1", "_a answer 0", "_a : answer 0", "_a", "_:", "_", "_: answer 0", "a: answer 0",
    "a:", "1: answer 0", "_a: _b: answer 0", "_a::", "_a:;", "_a-b:", "_a.b: answer 0", "_\u00e9: answer 0", ":",
    ",", "-", "_a: :", "answer _", "answer _a-", "answer _a.b", "answer _a:", "answer --1", "answer -", "answer - 1",
    "answer +1", "answer 0x10", "answer 1a", "answer 1.", "answer 1_0", "answer 10000000000", "answer 00000000000",
    "answer -10000000000", "answer -00000000001", "answer r16", "answer r00", "answer r01", "answer r015", "answer r1_",
    "answer r100", "answer R1", "answer r-1", "answer r", "answer r 1", "add r1, r2", "add r1, r2, r3, r4",
    "add r1 r2, 3", "add r1, 2, r3", "add 1, r2, r3", "add r1, _a, 3", "add r16, r2, 3", "add r1, r00, 3",
    "add r1,, r2, 3", "add r1; r2, 3", "not r1", "not 1, r1", "mov 1, r1", "cmpe 5, r1", "cmpe r1", "load.w 5, r1",
    "load.b _a, r1", "store.w r1, 5", "store.b r1, _a", "store.w r1", "store.w 5 r1", "read 1, r1", "read r1",
    "jmp r1, r2", "jmp", "\u000banswer 0", "\u000canswer 0", "\u0000", "answer\u00a00", "\u00a0", "answer 0\u00a0",
    "answer \u0660", "answer 0 // no", "# no", "\ufeff", "answer 0\u0000",
]
BAD.remove("_a:;")

LINE = HEADER + "\n"
# whole texts
TEXTS = [
    "", "\n", " ", HEADER, HEADER + "\n", HEADER + "\r", HEADER + "\r\n", HEADER + " ", " " + HEADER, HEADER + ";",
    HEADER + " ; a comment", HEADER + "\u00a0", "\ufeff" + HEADER, "\n" + HEADER, HEADER.lower(), HEADER[:-1],
    HEADER.replace("32", "16"), HEADER.replace("hv", "vn"), HEADER.replace("2.000", "1.000"), "answer 0", HEADER + "\t\n",
    HEADER + "answer 0", HEADER + "\u000banswer 0",
    # line ends
    HEADER + "\ranswer 0", HEADER + "\r\nanswer 0\r\n", HEADER + "\n\ranswer", HEADER + "\r\r\nanswer", HEADER + "\r\n\nanswer",
    HEADER + "\n\n\n\nanswer", HEADER + "\n\r\n\ranswer", LINE + "answer 0\ranswer 1\nanswer 2\r\nanswer 3",
    LINE + "; a comment\ranswer 9", LINE + "; caf\u00e9 \u00a0 \u000b\nanswer 1 ; \ufeff\n", LINE + "\t \n  ; x\n;\n",
    # labels
    LINE + "jmp _end\n_end:", LINE + "_end:", LINE + "_a:\n_b:\n\n_c: answer _a\n_d: answer _d\nanswer _e\n_e: ; the end",
    LINE + "answer _b\n_a: answer _a\n_b:answer _b", LINE + "_a:\n_A:\nanswer _A", LINE + "_a:\n_a:", LINE + "_a:\nanswer 0\n_a: answer 1",
    LINE + "_a: answer _a\n_aa: answer _aa\n", LINE + "_a:\n_a: nop", LINE + "_a:\n_a: answer 0\nnop", LINE + "nop\n_a:\n_a:",
    LINE + "answer _c\n_a:\n_a:", LINE + "answer 1\nanswer _c\nanswer _d", LINE + "answer _c\n\n\nanswer", LINE + "answer _A\n_a:",
    # the size of the table
    LINE + "answer 1\nanswer 2\nanswer 3", LINE + "answer 1\nanswer 2\nanswer 3\nanswer 4\nanswer 5", LINE + "jmp 0\n" * 9,
    LINE + "answer 1\nanswer 2\nanswer 3\nanswer 4\nanswer _c", LINE + "answer 1\nanswer 2\nanswer 3\nanswer 4\nanswer 5\n_a:\n_a:",
    # a whole program
    LINE + "\tread r1, 1\n\tstore.w 8, r1\n\tcnjmp _no ; if there was none\n\tanswer 0\n_no:\n",
]
SIZE = 4
OLD = (0xA5A5A5A5, 0x5A5A5A5A)


def quoted(text):
    out = ""
    for c in text:
        code = ord(c)
        if c in '"\\':
            out += "\\" + c
        elif c in "\n\r\t":
            out += {"\n": "\\n", "\r": "\\r", "\t": "\\t"}[c]
        elif 32 <= code < 127:
            out += c
        else:
            out += "\\u{%x}" % code
    return '"' + out + '"'


def write(name, head, kind, rows):
    here = os.path.join(os.path.dirname(os.path.abspath(__file__)), "..", "crates", "assembler_cases", "src", name)
    with open(here, "w") as out:
        out.write("// %s Written by tools/assembly.py.\n" % head)
        out.write("pub const CASES: [%s; %d] = [\n" % (kind, len(rows)))
        for row in rows:
            out.write("    %s,\n" % row)
        out.write("];\n")


def main():
    rows = []
    for line in GOOD:
        number, value, program = assemble(LINE + line, SIZE)
        assert (number, value) == (0, 1), line
        rows.append("(%s, (0x%X, %d))" % (quoted(line), program[0][0], program[0][1]))
    write("good.rt", "Lines with one instruction, and its two words.", "(&str, (u32, u32))", rows)
    rows = []
    for line in BAD:
        assert assemble(LINE + line, SIZE) == (10, 2, []), line
        rows.append(quoted(line))
    write("bad.rt", "Lines that cannot be read.", "&str", rows)
    refused, programs = [], []
    for text in TEXTS:
        number, value, program = assemble(text, SIZE)
        if number:
            refused.append("(%s, %d, %d)" % (quoted(text), number, value))
        else:
            table = program + [OLD] * (SIZE - len(program))
            words = ", ".join("(0x%X, %d)" % pair for pair in table)
            programs.append("(%s, %d, [%s])" % (quoted(text), value, words))
    write("refused.rt", "Texts that are refused, with the refusal's number and value.", "(&str, u8, usize)", refused)
    write("programs.rt", "Texts, the lengths of their programs, and the table of 4 entries after.",
          "(&str, usize, [(u32, u32); 4])", programs)


main()
