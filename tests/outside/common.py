"""What the outside witnesses share: drawn instructions, images, and programs that may not be installed."""
import pathlib
import shutil
import struct
import subprocess
import sys

TOP = pathlib.Path(__file__).resolve().parent.parent.parent
PROGRAM = TOP / "crates/rvcollide/out/rvcollide"
CODE, DATA = 0x10000, 0x20000
DATA_BYTES = 4096

# The instructions by their encodings (The RISC-V Instruction Set Manual, volume I, chapter "RV32/64G Instruction Set Listings"):
# the word without its operands, and the shape of these.
R, I, S, B, U, J, SHIFT, AMO, LR, FENCE, ALONE = "R", "I", "S", "B", "U", "J", "shift", "amo", "lr", "fence", "alone"
INSTRUCTIONS = {
    "lui": (0x37, U), "auipc": (0x17, U), "jal": (0x6F, J), "jalr": (0x67, I),
    "beq": (0x63, B), "bne": (0x1063, B), "blt": (0x4063, B), "bge": (0x5063, B), "bltu": (0x6063, B), "bgeu": (0x7063, B),
    "lb": (0x03, I), "lh": (0x1003, I), "lw": (0x2003, I), "lbu": (0x4003, I), "lhu": (0x5003, I),
    "sb": (0x23, S), "sh": (0x1023, S), "sw": (0x2023, S),
    "addi": (0x13, I), "slti": (0x2013, I), "sltiu": (0x3013, I), "xori": (0x4013, I), "ori": (0x6013, I), "andi": (0x7013, I),
    "slli": (0x1013, SHIFT), "srli": (0x5013, SHIFT), "srai": (0x40005013, SHIFT),
    "add": (0x33, R), "sub": (0x40000033, R), "sll": (0x1033, R), "slt": (0x2033, R), "sltu": (0x3033, R), "xor": (0x4033, R),
    "srl": (0x5033, R), "sra": (0x40005033, R), "or": (0x6033, R), "and": (0x7033, R),
    "mul": (0x02000033, R), "mulh": (0x02001033, R), "mulhsu": (0x02002033, R), "mulhu": (0x02003033, R),
    "div": (0x02004033, R), "divu": (0x02005033, R), "rem": (0x02006033, R), "remu": (0x02007033, R),
    "fence": (0x0F, FENCE), "ecall": (0x73, ALONE), "ebreak": (0x100073, ALONE),
    "lr.w": (0x1000202F, LR), "sc.w": (0x1800202F, AMO), "amoswap.w": (0x0800202F, AMO), "amoadd.w": (0x0000202F, AMO),
    "amoxor.w": (0x2000202F, AMO), "amoand.w": (0x6000202F, AMO), "amoor.w": (0x4000202F, AMO), "amomin.w": (0x8000202F, AMO),
    "amomax.w": (0xA000202F, AMO), "amominu.w": (0xC000202F, AMO), "amomaxu.w": (0xE000202F, AMO),
}


def word_of(name, rd=0, rs1=0, rs2=0, imm=0):
    """The word of an instruction. The immediate is the operand's as the assembler's text has it, of U the 20 bits."""
    word, shape = INSTRUCTIONS[name]
    if shape in (R, AMO, LR):
        word |= rd << 7 | rs1 << 15 | (0 if shape == LR else rs2 << 20) | (imm & 3) << 25 * (shape != R)
    elif shape == I:
        word |= rd << 7 | rs1 << 15 | (imm & 0xFFF) << 20
    elif shape == SHIFT:
        word |= rd << 7 | rs1 << 15 | (imm & 31) << 20
    elif shape == S:
        word |= rs1 << 15 | rs2 << 20 | (imm & 31) << 7 | (imm >> 5 & 127) << 25
    elif shape == B:
        word |= rs1 << 15 | rs2 << 20 | (imm >> 11 & 1) << 7 | (imm >> 1 & 15) << 8 | (imm >> 5 & 63) << 25 | (imm >> 12 & 1) << 31
    elif shape == U:
        word |= rd << 7 | (imm & 0xFFFFF) << 12
    elif shape == J:
        word |= rd << 7 | (imm >> 12 & 255) << 12 | (imm >> 11 & 1) << 20 | (imm >> 1 & 1023) << 21 | (imm >> 20 & 1) << 31
    elif shape == FENCE:
        word |= (imm & 255) << 20
    return word & 0xFFFFFFFF


def drawn_word(draw):
    """A word: mostly an instruction with drawn operands, now and then with a bit of it turned, or any word at all."""
    if draw.randrange(8) == 0:
        return draw.randrange(1 << 32)
    word = word_of(draw.choice(list(INSTRUCTIONS)), draw.randrange(32), draw.randrange(32), draw.randrange(32),
                   draw.randrange(1 << 21))
    return word ^ (1 << draw.randrange(32)) if draw.randrange(8) == 0 else word


def bytes_of(words):
    return struct.pack(f"<{len(words)}I", *words)


def image_of(code, data=b""):
    """An ELF32 file of code at CODE and 4,096 bytes of data at DATA."""
    header = struct.pack("<16sHHIIIIIHHHHHH", b"\x7fELF\x01\x01\x01", 2, 243, 1, CODE, 52, 0, 0, 52, 32, 2, 0, 0, 0)
    # Each segment's place in the file is its address modulo a page, as Linux wants it.
    segments = struct.pack("<8I", 1, 0x1000, CODE, CODE, len(code), len(code), 5, 0x1000)
    after = 0x1000 + (len(code) + 0xFFF) // 0x1000 * 0x1000
    segments += struct.pack("<8I", 1, after, DATA, DATA, len(data), DATA_BYTES, 6, 0x1000)
    return (header + segments).ljust(0x1000, b"\0") + code.ljust(after - 0x1000, b"\0") + data


def found(*names):
    """The path of the first of the programs that is here."""
    return next((path for path in map(shutil.which, names) if path), None)


def skipped_without(path, name, package):
    """Ends where the witness is not installed, and says how it is."""
    if not path:
        print(f"skipped: there is no {name} (Debian: apt-get install {package})")
        sys.exit(0)


def output_of(words, **given):
    done = subprocess.run([str(word) for word in words], capture_output=True, **given)
    if done.returncode:
        sys.exit(f"{' '.join(map(str, words))}: status {done.returncode}: {done.stderr[:500]!r}")
    return done.stdout


def ended(passed, differences):
    for difference in differences[:20]:
        print(f"FAILED: {difference}")
    print(f"{passed} passed, {len(differences)} failed")
    sys.exit(1 if differences else 0)
