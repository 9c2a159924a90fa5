"""TinyRAM v2.000, Harvard variant, words of 32 bits, 16 registers: an interpreter.

Written from TinyRAM's own text and docs/machine.md, apart from the crates: it shares no table and no code with
them, works on Python's unbounded integers, and keeps memory as single bytes, not as cells. What it prints is
what the crates are compared with.
"""

W = 32
SIZE = 1 << W

# mnemonic: (opcode, operands in the order in which the text has them)
# d: register in the destination field, s: register in the source field, A: register or immediate
TABLE = {
    "and": (0b00000, "dsA"), "or": (0b00001, "dsA"), "xor": (0b00010, "dsA"), "not": (0b00011, "dA"),
    "add": (0b00100, "dsA"), "sub": (0b00101, "dsA"), "mull": (0b00110, "dsA"), "umulh": (0b00111, "dsA"),
    "smulh": (0b01000, "dsA"), "udiv": (0b01001, "dsA"), "umod": (0b01010, "dsA"), "shl": (0b01011, "dsA"),
    "shr": (0b01100, "dsA"), "cmpe": (0b01101, "sA"), "cmpa": (0b01110, "sA"), "cmpae": (0b01111, "sA"),
    "cmpg": (0b10000, "sA"), "cmpge": (0b10001, "sA"), "mov": (0b10010, "dA"), "cmov": (0b10011, "dA"),
    "jmp": (0b10100, "A"), "cjmp": (0b10101, "A"), "cnjmp": (0b10110, "A"),
    "store.b": (0b11010, "Ad"), "load.b": (0b11011, "dA"), "store.w": (0b11100, "Ad"), "load.w": (0b11101, "dA"),
    "read": (0b11110, "dA"), "answer": (0b11111, "A"),
}


def encode(text):
    """The two words of one instruction, as 'add r3, r7, 1234'."""
    mnemonic, rest = text.split(None, 1)
    opcode, form = TABLE[mnemonic]
    fields = {"d": 0, "s": 0}
    immediate = second = 0
    operands = [o.strip() for o in rest.split(",")]
    assert len(operands) == len(form), text
    for kind, operand in zip(form, operands):
        if kind == "A":
            immediate = 0 if operand.startswith("r") else 1
            second = int(operand[1:]) if operand.startswith("r") else int(operand) % SIZE
        else:
            fields[kind] = int(operand[1:])
    return (opcode << 27 | immediate << 26 | fields["d"] << 22 | fields["s"] << 18, second)


def signed(word):
    return word - SIZE if word >> (W - 1) else word


class Machine:
    def __init__(self, program, primary, auxiliary):
        self.program = [text.strip() for text in program]
        self.tapes = {0: list(primary), 1: list(auxiliary)}
        self.pc = 0
        self.registers = [0] * 16
        self.flag = 0
        self.places = {0: 0, 1: 0}
        self.memory = {}
        self.touched = None

    def byte(self, address):
        return self.memory.get(address, 0)

    def word(self, address):
        base = address // 4 * 4
        return sum(self.byte(base + k) << (8 * k) for k in range(4))

    def step(self):
        """One step. Gives the answer if the machine halts, else None; `touched` is (cell, before, after) or None."""
        text = self.program[self.pc] if self.pc < len(self.program) else "answer 1"
        name, rest = text.split(None, 1)
        operands = [o.strip() for o in rest.split(",")]
        form = TABLE[name][1]
        i = j = a = None
        for kind, operand in zip(form, operands):
            if kind == "A":
                a = self.registers[int(operand[1:])] if operand.startswith("r") else int(operand) % SIZE
            elif kind == "d":
                i = int(operand[1:])
            else:
                j = int(operand[1:])
        self.touched = None
        if name == "answer":
            return a
        following = (self.pc + 1) % SIZE
        x = self.registers[j] if j is not None else None
        result = None
        if name in ("and", "or", "xor", "not"):
            bits = {"and": lambda: x & a, "or": lambda: x | a, "xor": lambda: x ^ a, "not": lambda: a ^ (SIZE - 1)}
            result = bits[name]()
            self.flag = int(result == 0)
        elif name == "add":
            total = x + a
            result, self.flag = total % SIZE, total >> W
        elif name == "sub":
            total = x + SIZE - a
            result, self.flag = total % SIZE, 1 - (total >> W)
        elif name in ("mull", "umulh"):
            product = x * a
            result = product % SIZE if name == "mull" else product >> W
            self.flag = int(not 0 <= product < SIZE)
        elif name == "smulh":
            product = signed(x) * signed(a)
            result = (int(product < 0) << (W - 1)) | (abs(product) >> W)
            self.flag = int(not -(SIZE // 2) <= product < SIZE // 2)
        elif name in ("udiv", "umod"):
            self.flag = int(a == 0)
            result = 0 if a == 0 else (x // a if name == "udiv" else x % a)
        elif name == "shl":
            result = 0 if a >= W else (x << a) % SIZE
            self.flag = x >> (W - 1)
        elif name == "shr":
            result = 0 if a >= W else x >> a
            self.flag = x & 1
        elif name == "cmpe":
            self.flag = int(x == a)
        elif name == "cmpa":
            self.flag = int(x > a)
        elif name == "cmpae":
            self.flag = int(x >= a)
        elif name == "cmpg":
            self.flag = int(signed(x) > signed(a))
        elif name == "cmpge":
            self.flag = int(signed(x) >= signed(a))
        elif name == "mov":
            result = a
        elif name == "cmov":
            result = a if self.flag else self.registers[i]
        elif name == "jmp":
            following = a
        elif name == "cjmp":
            following = a if self.flag else following
        elif name == "cnjmp":
            following = following if self.flag else a
        elif name.startswith(("store", "load")):
            cell, before = a // 4 * 4, self.word(a)
            if name == "store.b":
                self.memory[a] = self.registers[i] % 256
            elif name == "store.w":
                for k in range(4):
                    self.memory[cell + k] = self.registers[i] >> (8 * k) & 255
            else:
                result = self.byte(a) if name == "load.b" else before
            self.touched = (cell, before, self.word(a))
        elif name == "read":
            tape = self.tapes.get(a, [])
            place = self.places.get(a, 0)
            if place < len(tape):
                result, self.flag = tape[place], 0
                self.places[a] = place + 1
            else:
                result, self.flag = 0, 1
        if result is not None:
            self.registers[i] = result
        self.pc = following
        return None
