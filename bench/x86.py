"""x86.py: the functions of an archive of x86-64 code, read from its bytes: sections, symbols, relocations, and the instructions of a function one after the other.
It needs no disassembler, so that it reads the same on every machine; tests/stack holds it to objdump's if that reads x86-64 code. It knows the opcodes that a compiler
takes for integers and SSE2; another one, or another kind of file, is Trouble."""
import collections
import struct

RSP = 4
ELF, X86_64 = b"\x7fELF\x02\x01", 62  # how a file of 64 bits starts, lowest byte first; its machine
FILE_HEAD, SECTION_HEAD = struct.Struct("<16sHHIQQQIHHHHHH"), struct.Struct("<IIQQQQIIQQ")
SYMBOL, RELOCATION = struct.Struct("<IBBHQQ"), struct.Struct("<QQq")
SYMBOLS, RELOCATIONS, CODE = 2, 4, 0x4  # two kinds of sections; the flag of one that is executed
RELATIVE = (2, 4)  # the kinds of relocations that are four bytes and count from their own place: R_X86_64_PC32 and R_X86_64_PLT32
ARCHIVE, MEMBER = b"!<arch>\n", struct.Struct("16s32s10s2s")
OWN = ("/", "//")  # members that are the archive's own: its index, its long names

Section = collections.namedtuple("Section", "name kind flags data link info")
Symbol = collections.namedtuple("Symbol", "name section value")  # section: its number, 0 if it is in another file
Relocation = collections.namedtuple("Relocation", "place kind symbol addend")
# An instruction. reg, rm: the registers or part of an opcode that it has in these fields, rm None if that is an address; base, offset: of that address;
# value: the number that it ends with; names: the general registers that it names, not those of an address.
Instruction = collections.namedtuple("Instruction", "start end opcode wide reg rm base offset value names")


class Trouble(Exception):
    """What cannot be read, or is not as it has to be."""


class Object:
    """An object file: its sections, its symbols, and for each section's number the relocations."""

    def __init__(self, data):
        start, _, machine, _, _, _, heads, _, _, _, _, size, count, names = FILE_HEAD.unpack_from(data)
        if not start.startswith(ELF) or machine != X86_64:
            raise Trouble("not an object of x86-64 code")
        self.sections = []
        for at in range(heads, heads + size * count, size):
            name, kind, flags, _, place, length, link, info, _, _ = SECTION_HEAD.unpack_from(data, at)
            self.sections.append(Section(name, kind, flags, data[place : place + length], link, info))
        self.sections = [section._replace(name=text(self.sections[names].data, section.name)) for section in self.sections]
        self.symbols, self.relocations = [], collections.defaultdict(list)
        for section in self.sections:
            if section.kind == SYMBOLS:
                strings = self.sections[section.link].data
                self.symbols = [Symbol(text(strings, name), home, value) for name, _, _, home, value, _ in SYMBOL.iter_unpack(section.data)]
        for section in self.sections:
            if section.kind == RELOCATIONS:
                rows = RELOCATION.iter_unpack(section.data)
                self.relocations[section.info] = [Relocation(place, what & 0xFFFFFFFF, self.symbols[what >> 32], addend) for place, what, addend in rows]

    def is_code(self, number):
        return 0 < number < len(self.sections) and bool(self.sections[number].flags & CODE)


def text(data, at):
    return data[at : data.index(0, at)].decode()


def objects(path):
    """The object files of an archive, or the one that the file is."""
    with open(path, "rb") as file:
        data = file.read()
    if not data.startswith(ARCHIVE):
        return [Object(data)]
    found, at = [], len(ARCHIVE)
    while at < len(data):
        name, _, size, _ = MEMBER.unpack_from(data, at)
        start, end = at + MEMBER.size, at + MEMBER.size + int(size)
        if name.decode().strip() not in OWN:
            found.append(Object(data[start:end]))
        at = end + end % 2
    return found


# What stands after each opcode, sixteen of them in a word.
# -        nothing; b, d: a number of one byte, of four; j: the four bytes of a jump
# o, p, q  nothing, one byte, four bytes (eight if it is wide); the opcode's last three bits are a register
# r        a byte with the fields reg and rm, and the rest of an address: both name general registers; g: only rm does; w: only reg does; v: none does
# R G W V  the same, and a number of one byte; L, H: as r and g, and a number of four bytes; t, T: as G and H if the operation is a test, else as g
# .        not known, or a prefix: 40 to 4f extend the registers, and of the others those in PREFIXES are known.
ONE = (
    "rrrrbd..rrrrbd..", "rrrrbd..rrrrbd..", "rrrrbd..rrrrbd..", "rrrrbd..rrrrbd..",  # from 00
    "................", "oooooooooooooooo", "...r....dLbR....", "bbbbbbbbbbbbbbbb",  # from 40
    "GH.Grrrrrrrr.r..", "oooooooo--......", "....--..bd--....", "ppppppppqqqqqqqq",  # from 80
    "GG.-..GH....-...", "gggg............", "........jj.b....", "......tT......gg",  # from c0
)
TWO = (  # after ESCAPE
    "...........-....", "vvvvvvvv......gg", "........vvgvwwvv", "................",  # from 00
    "rrrrrrrrrrrrrrrr", "wvvvvvvvvvvvvvvv", "vvvvvvvvvvvvvvgv", "VVVVvvv.......gv",  # from 40
    "jjjjjjjjjjjjjjjj", "gggggggggggggggg", "..-rRr.....rRr.r", "rr.r..rrr.Grrrrr",  # from 80
    "rrVrGWV.oooooooo", "vvvvvvvwvvvvvvvv", "vvvvvvvvvvvvvvvv", "vvvvvvvvvvvvvvv.",  # from c0
)
PREFIXES, SHORT, ESCAPE = (0x2E, 0x66, 0xF2, 0xF3), 0x66, 0x0F  # SHORT: numbers of four bytes have two
WIDENS_BYTE, MOVES_VECTOR = (0x0FB6, 0x0FBE), (0xF3, 0x0F7E)  # MOVES_VECTOR: with this prefix the opcode has no general register
FIELDS, ONE_BYTE, FOUR_BYTES, IN_OPCODE = "rgwvRGWVLHtT", "bpRGWV", "djqLH", "opq"
NAMES_REG, NAMES_RM = "rwRWL", "rgRGLHtT"
TESTS = {"t": "G", "T": "H"}


def number(code, at, size):
    if at + size > len(code):
        raise IndexError
    return int.from_bytes(code[at : at + size], "little", signed=True)


def address(code, at, mod, low, extended):
    """The base of the address that follows the two fields, its offset, and where it ends. A base of None is the place of the next instruction, or no base."""
    base = low
    if low == 4:
        base, at = code[at] & 7, at + 1
    if mod == 0 and base == 5:
        return None, number(code, at, 4), at + 4
    size = (0, 1, 4)[mod]
    return base + extended, number(code, at, size), at + size


def named(form, opcode, extended, reg, rm):
    """The general registers that the two fields name; in an operation on bytes without an extension 4 is not rsp but ah."""
    of_bytes = not extended and opcode % 2 == 0 and opcode < 0x100
    from_byte = of_bytes or not extended and opcode in WIDENS_BYTE
    names_reg = form in NAMES_REG and not (of_bytes and reg == RSP)
    names_rm = form in NAMES_RM and not (from_byte and rm == RSP)
    return ({reg} if names_reg else set()) | ({rm} if names_rm and rm is not None else set())


def decoded(code, start):
    """The instruction at a place."""
    at = start
    while code[at] in PREFIXES:
        at += 1
    short = SHORT in code[start:at]
    extension = code[at] if code[at] >> 4 == 4 else 0
    at += extension > 0
    wide, high_reg, high_rm = bool(extension & 8), (extension & 4) << 1, (extension & 1) << 3
    opcode, rows = code[at], ONE
    if opcode == ESCAPE:
        at += 1
        opcode, rows = (ESCAPE << 8) + code[at], TWO
    form, at = rows[code[at] >> 4][code[at] & 15], at + 1
    if opcode == MOVES_VECTOR[1] and MOVES_VECTOR[0] in code[start:at]:
        form = "v"
    if form == "." or form == "j" and short:
        raise Trouble("an opcode that is not known: %s" % code[start : at + 4].hex(" "))
    reg = rm = base = None
    offset, names = 0, {(opcode & 7) + high_rm} if form in IN_OPCODE else set()
    if form in FIELDS:
        fields, at = code[at], at + 1
        reg = (fields >> 3 & 7) + high_reg
        if fields >> 6 == 3:
            rm = (fields & 7) + high_rm
        else:
            base, offset, at = address(code, at, fields >> 6, fields & 7, high_rm)
        names = named(form, opcode, extension, reg, rm)
    if form in TESTS:
        form = TESTS[form] if reg & 7 < 2 else "g"
    size = 1 if form in ONE_BYTE else 0
    if form in FOUR_BYTES:
        size = 8 if form == "q" and wide else 2 if short else 4
    return Instruction(start, at + size, opcode, wide, reg, rm, base, offset, number(code, at, size), names)


def instructions(code):
    """All instructions of a function by their place."""
    found, at = {}, 0
    try:
        while at < len(code):
            found[at] = decoded(code, at)
            at = found[at].end
    except IndexError:
        raise Trouble("the last instruction is cut") from None
    return found
