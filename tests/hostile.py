"""Files that cost whoever goes over them again for each of something far more than their bytes: a function makes each, always the same.

An image has two harts that race at one word, or at many, and symbols of which a loader keeps all or none.
"""
import array
import struct

import built

# The most bytes of an input.
MOST = 67_108_864

# `lui x6,0x20`; `again: sw x10,0(x6)`, `lw x5,0(x6)`, `j again`; and the word that is stored and loaded.
CODE = struct.pack("<4I", 0x00020337, 0x00A32023, 0x00032283, 0xFF9FF06F)
RACING = [(0x10000, CODE, len(CODE), 5), (0x20000, bytes(4096), 4096, 6)]


def table_of(names, value=0x20000, size=4, kind=1):
    """The entries of symbols of one place, whose names begin at these offsets of the strings."""
    words = array.array("I", bytes(16 * len(names)))
    words[0::4] = array.array("I", names)
    for place, word in (1, value), (2, size), (3, kind | 0xFFF1 << 16):
        words[place::4] = array.array("I", [word]) * len(names)
    return words.tobytes()


def image_named(names, strings, **symbol):
    """An image of two harts that race, with a symbol for each of these offsets."""
    return built.image_with(RACING, table_of(names, **symbol), strings)


# ---- names that are dropped

def dropped(count, length):
    """Each symbol has the same name of bytes that are no text."""
    return image_named([1] * count, b"\0" + b"\xff" * length + b"\0")


def overlapping(count, length):
    """Each name begins one byte after the one before, and none is text."""
    return image_named(range(1, count + 1), b"\0" + b"\xff" * max(length, count) + b"\0")


def halved(count, length):
    """Each name begins one byte after the one before, at a character or inside it, and all end within one."""
    characters = max(length, count) // 2
    return image_named(range(1, count + 1), b"\0" + "é".encode() * characters + b"\xc3\0")


def cut_characters(count, length):
    """The same with characters of four bytes, of which each lacks its last."""
    return image_named(range(1, count + 1), b"\0" + b"\xf0\x9f\x92" * (max(length, count) // 3 + 1) + b"\0")


# ---- names that are kept

LETTERS = b"abcdefghijklmnopqrstuvwxyzABCDEFGHIJKLMNOPQRSTUVWXYZ"


def alike(count, **symbol):
    """Symbols of one name."""
    return image_named([1] * count, b"\0w\0", **symbol)


def distinct(count):
    """Symbols of as many names, each of four letters, from the last on."""
    names = bytearray(5 * count + 1)
    for digit in range(4):
        period = b"".join(bytes([letter]) * len(LETTERS) ** digit for letter in LETTERS)
        names[4 - digit :: 5] = (period * (count // len(period) + 1))[:count]
    return image_named(range(5 * count - 4, 0, -5), bytes(names))


def last_of(count):
    """The last of these names."""
    return bytes(LETTERS[(count - 1) // len(LETTERS) ** digit % len(LETTERS)] for digit in (3, 2, 1, 0))


def nested(length):
    """Symbols whose names are what is left of one text from each of its bytes on."""
    return image_named(range(1, length + 1), b"\0" + b"a" * length + b"\0")


def one(name):
    """The word has this name, or none."""
    return built.image_of(RACING, [(name, 0x20000, 4, 1)] if name else [])


def long_names(code, data):
    """The code and the word have these names."""
    return built.image_of(RACING, [(code, 0x10000, len(CODE), 2), (data, 0x20000, 4, 1)])


def cut(name):
    """A name as lines for people show it: its first 200 bytes, to a character's edge."""
    front = name.encode()[:200].decode(errors="ignore")
    return shown(front) + (".." if front != name else "")


def shown(name):
    """A name whose bytes are escaped that are no visible ASCII."""
    return "".join(chr(byte) if 33 <= byte <= 126 and byte != 92 else "\\\\" if byte == 92 else f"\\x{byte:02x}" for byte in name.encode())


# ---- images that are refused

def unended(count, length):
    """No name ends, since no byte of the strings is zero."""
    return image_named(range(count, 0, -1), b"a" * (length + count))


def meeting(count):
    """Segments of which each has a byte of the one before."""
    page = CODE + bytes(4096 - len(CODE))
    return built.image_of([(0x10000 + 4095 * place, page, 4096, 7) for place in range(count)])


# ---- images that race at many places

def source_of(sites):
    """A source in which one hart stores at so many sites what the other loads at as many."""
    stores, loads = "sw a0, (t1)\n" * sites, "lw t0, (t1)\n" * sites
    return f"lui t1, 0x20\nbne a0, zero, loads\nstores:\n{stores}j stores\nloads:\n{loads}j loads\n.data\n.zero 4096\n"


def code_of(image):
    """The bytes of the first segment of a file that `asm` made."""
    offset, _, _, size = struct.unpack_from("<4I", image, 56)
    return image[offset : offset + size]


def segments_end(image):
    """Where the bytes of the segments end of such a file."""
    return max(offset + size for at in (52, 84) for offset, _, _, size in [struct.unpack_from("<4I", image, at + 4)])


def beside(code, offsets, strings):
    """This code beside symbols whose names begin at these offsets of the strings, and none of which lies at an address that is told."""
    return built.image_with([(0x10000, code, len(code), 5), RACING[1]], table_of(offsets, value=0x30000), strings)


def beside_distinct(code, symbols):
    """This code beside so many symbols, `name0` and on."""
    names = [b"name%d" % place for place in range(symbols)]
    offsets, at = [], 1
    for name in names:
        offsets.append(at)
        at += len(name) + 1
    return beside(code, offsets, b"\0" + b"\0".join(names) + b"\0")


def beside_alike(code, symbols):
    """This code beside so many symbols of one name, `w`."""
    return beside(code, [1] * symbols, b"\0w\0")


def listed(lines, symbols):
    """A list of races that are to be ignored, by the last of these symbols, from the last on."""
    return "".join(f"name{symbols - 1 - place % symbols} *\n" for place in range(lines))
