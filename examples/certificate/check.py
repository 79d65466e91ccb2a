#!/usr/bin/env python3
"""Checks what `rvcollide exhibit` prints: a race as a plain list of hart steps.

usage: check.py IMAGE HARTS [CERTIFICATE]

IMAGE is the guest, a static ELF32 file; HARTS is the number of harts that it ran on; CERTIFICATE is the text of
`exhibit`, by default the standard input:

    first ACCESS
    second ACCESS
    steps HART HART ..

It starts the guest anew and lets these harts make these steps, one instruction each. The certificate holds where every
step can be made, the last two make the accesses `first` and `second`, by different harts, their bytes overlap, and at
least one of them writes: the two stand side by side, with nothing between them. Then the status is 0, else 1.

Nothing here is taken from rvcollide. Instructions are those of the RISC-V Unprivileged ISA manual (RV32I, M and A), the
file is the System V ABI's (ELF32), and docs/MACHINE.md says how a hart starts, prints and exits.
"""
import collections
import struct
import sys

WORD = 0xFFFFFFFF
STACKS, STACK = 0xC0000000, 0x10000
READ, WRITE, EXECUTE = 4, 2, 1


class Refused(Exception):
    """The certificate doesn't hold, or a file isn't what it should be."""


class Trap(Exception):
    """An instruction that can't be executed. It changes nothing but that its hart stops."""


def signed(number, bits=32):
    """The number that the low bits stand for in two's complement."""
    number &= (1 << bits) - 1
    return number - (1 << bits) if number >> (bits - 1) else number


class Memory:
    """Regions of bytes, each with its permissions. An access is aligned, and lies wholly in one of them."""

    def __init__(self, regions):
        self.regions = [(start, bytearray(contents), permissions) for start, contents, permissions in regions]

    def place(self, address, size, need):
        """The bytes of the region that holds the access, and where in them it begins."""
        for start, contents, permissions in self.regions:
            if start <= address and address + size <= start + len(contents) and permissions & need == need:
                if address % size == 0:
                    return contents, address - start
        raise Trap

    def load(self, address, size, need):
        contents, at = self.place(address, size, need)
        return int.from_bytes(contents[at:at + size], "little")

    def store(self, address, size, need, value):
        contents, at = self.place(address, size, need)
        contents[at:at + size] = (value & (1 << 8 * size) - 1).to_bytes(size, "little")


class Hart:
    def __init__(self, number, harts, entry):
        self.pc = entry
        self.registers = [0] * 32
        self.registers[10], self.registers[11] = number, harts
        self.registers[2] = STACKS + (number + 1) * STACK
        self.reserved = None
        self.runs = True

    def __getitem__(self, register):
        return self.registers[register]

    def __setitem__(self, register, value):
        if register:
            self.registers[register] = value & WORD


def image(path):
    """The entry and the loaded segments, each (address, bytes, permissions)."""
    with open(path, "rb") as file:
        data = file.read()
    if data[:7] != b"\x7fELF\x01\x01\x01" or len(data) < 52:
        raise Refused(f"{path} is no ELF32 file of little-endian words")
    kind, machine, _, entry, table, _, _, _, size, count = struct.unpack_from("<HHIIIIIHHH", data, 16)
    if (kind, machine) != (2, 243):
        raise Refused(f"{path} is no static program for RISC-V")
    headers = [struct.unpack_from("<8I", data, table + number * size) for number in range(count)]
    return entry, [(address, data[offset:offset + held] + bytes(length - held), permissions)
                   for kind, offset, address, _, held, length, permissions, _ in headers if kind == 1 and length]


class Access(collections.namedtuple("Access", "pc kind first size")):
    """What an instruction did to memory: `first` is its first byte's address."""

    def text(self):
        return f"pc {self.pc:08x} {self.kind} {self.first:08x} {self.size}"

    def meets(self, other):
        overlap = self.first < other.first + other.size and other.first < self.first + self.size
        return overlap and (self.kind, other.kind) != ("load", "load")


def arithmetic(funct3, left, right, other):
    """OP and OP-IMM. `other` is bit 30: SUB for ADD, and the arithmetic shift for the logical one."""
    amount = right & 31
    if other and funct3 not in (0, 5):
        raise Trap
    return [left - right if other else left + right, left << amount, signed(left) < signed(right), left < right,
            left ^ right, signed(left) >> amount if other else left >> amount, left | right, left & right][funct3]


def multiplied(funct3, left, right):
    """The M extension. Division rounds toward zero; by zero it gives all ones, and the dividend remains."""
    if funct3 < 4:
        product = (signed(left) if funct3 in (1, 2) else left) * (signed(right) if funct3 == 1 else right)
        return product >> 32 if funct3 else product
    wants_rest = funct3 in (6, 7)
    dividend, divisor = (left, right) if funct3 & 1 else (signed(left), signed(right))
    if divisor == 0:
        return dividend if wants_rest else WORD
    quotient = abs(dividend) // abs(divisor) * (-1 if (dividend < 0) != (divisor < 0) else 1)
    return dividend - quotient * divisor if wants_rest else quotient


COMBINED = {  # what an AMO stores, by funct5
    0b00000: lambda old, operand: old + operand,
    0b00001: lambda old, operand: operand,
    0b00100: lambda old, operand: old ^ operand,
    0b01000: lambda old, operand: old | operand,
    0b01100: lambda old, operand: old & operand,
    0b10000: lambda old, operand: min(old, operand, key=signed),
    0b10100: lambda old, operand: max(old, operand, key=signed),
    0b11000: min, 0b11100: max,
}


class Machine:
    def __init__(self, path, harts):
        entry, segments = image(path)
        stacks = [(STACKS + number * STACK, bytes(STACK), READ | WRITE) for number in range(harts)]
        self.memory = Memory(segments + stacks)
        self.harts = [Hart(number, harts, entry) for number in range(harts)]

    def step(self, number):
        """One instruction of a running hart: its access, or None where it makes none."""
        hart = self.harts[number]
        try:
            access, hart.pc = self.execute(hart, self.memory.load(hart.pc, 4, EXECUTE))
        except Trap:
            hart.runs = False
            return None
        for other in self.harts:  # a write ends what the other harts have reserved there
            reserved = other.reserved is not None and Access(0, "load", other.reserved, 4)
            if access and reserved and other is not hart and access.meets(reserved):
                other.reserved = None
        return access

    def execute(self, hart, word):
        """The access of the instruction, or None, and the next pc."""
        opcode, rd, funct3 = word & 0x7F, word >> 7 & 31, word >> 12 & 7
        rs1, rs2, funct7 = word >> 15 & 31, word >> 20 & 31, word >> 25
        left, right, pc = hart[rs1], hart[rs2], hart.pc
        immediate, following = signed(word >> 20, 12), pc + 4 & WORD
        if opcode == 0x37:  # LUI
            hart[rd] = word & 0xFFFFF000
        elif opcode == 0x17:  # AUIPC
            hart[rd] = pc + (word & 0xFFFFF000)
        elif opcode == 0x6F:  # JAL
            distance = signed(word >> 31, 1) << 20 | word & 0xFF000 | (word >> 20 & 1) << 11 | (word >> 21 & 0x3FF) << 1
            return None, self.jump(hart, rd, pc + distance)
        elif opcode == 0x67 and funct3 == 0:  # JALR
            return None, self.jump(hart, rd, (left + immediate) & ~1)
        elif opcode == 0x63:
            return None, self.branch(word, funct3, left, right, pc)
        elif opcode == 0x03 and funct3 in (0, 1, 2, 4, 5):
            return self.load(hart, rd, funct3, (left + immediate) & WORD), following
        elif opcode == 0x23 and funct3 in (0, 1, 2):
            address, size = left + signed(funct7 << 5 | rd, 12) & WORD, 1 << funct3
            self.memory.store(address, size, WRITE, right)
            return Access(pc, "store", address, size), following
        elif opcode == 0x13 and (funct3 not in (1, 5) or funct7 in (0, funct3 // 5 * 0x20)):
            is_shift = funct3 in (1, 5)
            hart[rd] = arithmetic(funct3, left, rs2 if is_shift else immediate & WORD, is_shift and funct7 == 0x20)
        elif opcode == 0x33 and funct7 in (0, 0x20):
            hart[rd] = arithmetic(funct3, left, right, funct7 == 0x20)
        elif opcode == 0x33 and funct7 == 1:
            hart[rd] = multiplied(funct3, left, right)
        elif opcode == 0x0F and funct3 == 0:  # FENCE: all steps stand in one order
            pass
        elif opcode == 0x2F and funct3 == 2:
            return self.atomic(hart, word, rd, left, right), following
        elif word == 0x73:  # ECALL
            return None, self.call(hart, following)
        else:
            raise Trap  # EBREAK, and what is no instruction
        return None, following

    def jump(self, hart, rd, target):
        if target % 4:
            raise Trap
        hart[rd] = hart.pc + 4
        return target & WORD

    def branch(self, word, funct3, left, right, pc):
        if funct3 in (2, 3):
            raise Trap
        taken = [left == right, None, signed(left) < signed(right), left < right][funct3 >> 1]
        if taken == bool(funct3 & 1):
            return pc + 4 & WORD
        distance = signed(word >> 31, 1) << 12 | (word >> 7 & 1) << 11 | (word >> 25 & 63) << 5 | (word >> 8 & 15) << 1
        if distance % 4:
            raise Trap
        return pc + distance & WORD

    def load(self, hart, rd, funct3, address):
        size = 1 << (funct3 & 3)
        value = self.memory.load(address, size, READ)
        hart[rd] = value if funct3 & 4 else signed(value, 8 * size)
        return Access(hart.pc, "load", address, size)

    def atomic(self, hart, word, rd, address, operand):
        funct5 = word >> 27
        if funct5 == 0b00010:  # LR
            if word >> 20 & 31:
                raise Trap
            hart[rd] = self.memory.load(address, 4, READ)
            hart.reserved = address
            return Access(hart.pc, "load", address, 4)
        if funct5 == 0b00011:  # SC: it is tested for its store also where it fails
            self.memory.place(address, 4, WRITE)
            succeeds, hart.reserved = hart.reserved == address, None
            hart[rd] = 0 if succeeds else 1
            if not succeeds:
                return None
            self.memory.store(address, 4, WRITE, operand)
            return Access(hart.pc, "store", address, 4)
        if funct5 not in COMBINED:
            raise Trap
        old = self.memory.load(address, 4, READ | WRITE)
        self.memory.store(address, 4, READ | WRITE, COMBINED[funct5](old, operand))
        hart[rd] = old
        return Access(hart.pc, "both", address, 4)

    def call(self, hart, following):
        if hart[17] == 1:  # print the low byte of x10
            return following
        if hart[17] != 93:
            raise Trap
        hart.runs = False
        return hart.pc


def certificate(text):
    """The texts of the two accesses and the list of harts."""
    lines = text.splitlines()
    if [it.split(" ", 1)[0] for it in lines] != ["first", "second", "steps"]:
        raise Refused("a certificate has three lines: first, second, steps")
    words = lines[2].split()[1:]
    if not all(it.isdecimal() for it in words):
        raise Refused("a step is the number of a hart")
    return lines[0][len("first "):], lines[1][len("second "):], [int(it) for it in words]


def check(machine, first, second, steps):
    """What the certificate shows, or the reason why it doesn't hold."""
    if len(steps) < 2:
        raise Refused("there are fewer than two steps")
    accesses = []
    for at, number in enumerate(steps):
        if number >= len(machine.harts) or not machine.harts[number].runs:
            raise Refused(f"step {at}: hart {number} doesn't run")
        accesses.append(machine.step(number))
    for name, wanted, found in ("first", first, accesses[-2]), ("second", second, accesses[-1]):
        if found is None or found.text() != wanted:
            raise Refused(f"{name} should be `{wanted}`, and the step makes `{found.text() if found else 'no access'}`")
    if steps[-2] == steps[-1]:
        raise Refused(f"both accesses are hart {steps[-1]}'s")
    if not accesses[-2].meets(accesses[-1]):
        raise Refused("the two accesses don't conflict")
    return f"holds: after {len(steps) - 2} steps hart {steps[-2]} and then hart {steps[-1]} make them, side by side"


def main(words):
    if len(words) not in (2, 3) or words[1] not in [str(it) for it in range(1, 17)]:
        sys.exit("usage: check.py IMAGE HARTS [CERTIFICATE]")
    try:
        with open(words[2]) if len(words) == 3 else sys.stdin as file:
            first, second, steps = certificate(file.read())
        print(check(Machine(words[0], int(words[1])), first, second, steps))
    except (Refused, OSError, struct.error, UnicodeDecodeError) as why:
        sys.exit(f"doesn't hold: {why}")


if __name__ == "__main__":
    main(sys.argv[1:])
