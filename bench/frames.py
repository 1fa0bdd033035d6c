"""frames.py: the most stack that a function of the proved library can take on any path through its code, read off the code itself: a painted stack (harness/stack.c) sees only
the paths that were taken. Shared by tests/stack and bench/tables.py.

The height of the stack is followed from a function's first instruction along every branch: by push, pop, and add or sub of a number. At a call the callee's most is added; at a jump
into another function too, which uses the return address that is there already. A function that has an address below its stack pointer is given the whole red zone. So the answer is
exact but for the red zone, for what OUTSIDE assumes, and for paths that no input takes. It counts what painting counts: from the caller's stack pointer before the call,
with the return address, without words that the caller passes on the stack.

It is Trouble, and there is no answer,
- if functions call each other in a circle, or one calls a function outside its archive that is not in OUTSIDE;
- if a call goes through a register or memory, or code takes the address of a function;
- if a jump goes through anything but a register, or a word of the stack, that holds on every way a place that one jump table leads to: the address of the table and one of its entries,
  four bytes, added. Address and place may be copied on the way. Every entry of the table must lie in that function, and the jump may go to each;
- if a place is reached with two heights, a function is left with another height than it began with, it has code that nothing leads to, or anything names rsp as a register, but for
  add and sub of a number and for copying it;
- if an instruction or a relocation is of a kind that is not known."""
import collections
import os
import re

import x86
from x86 import RSP, Trouble

HEADER = os.path.join(os.path.dirname(os.path.dirname(os.path.abspath(__file__))), "include", "gdt.h")
# What the compiler may call of the C library by itself, to copy, fill and compare. It is not in the archives: that each takes at most this much, with its return address, is an
# assumption. Painted, glibc's memset takes the return address alone. What the loader takes to bind a name at its first call is not counted (docs/BENCH.md).
OUTSIDE = ("memcpy", "memmove", "memset", "memcmp", "bcmp")
OUTSIDE_MOST = 256
WORD = 8  # bytes of a return address, and of what is pushed
RED_ZONE = 128  # bytes below the stack pointer that a function may use
CALL, JUMP, RETURN, TRAPS, PADDING = 0xE8, (0xE9, 0xEB), 0xC3, (0xCC, 0x0F0B), (0x90, 0xCC, 0x0F1F)
LOADS_ENTRY, ADDS_REGISTER, COPIES, COPIES_WORD, TO_RM = 0x63, (0x01, 0x03), 0x89, (0x89, 0x8B), (0x01, 0x89)
ADDRESS, ENTRY, PLACE = "address", "entry", "place"
PRODUCTS, LOST_BY_PRODUCT = (0x98, 0x99, 0xF6, 0xF7), {0, 2}  # products, quotients and wider numbers are made in rax and rdx
LOST_BY_CALL = {0, 1, 2, 6, 7, 8, 9, 10, 11}  # registers that a callee may change
WITH_NUMBER, ADDS, SUBTRACTS = (0x81, 0x83), 0, 5  # opcodes, and what they do by their field reg
GROUP, THROUGH, JUMPS, PUSHES = 0xFF, (2, 3, 4, 5), 4, 6  # an opcode, and what it does by its field reg: THROUGH are calls and jumps
PUSH, POP, PUSHES_NUMBER = 0x50 >> 3, 0x58 >> 3, (0x68, 0x6A)  # the last three bits are a register

Most = collections.namedtuple("Most", "bytes path")  # path: the functions on the way, each with its height at the call of the next one, the last with its own most
Call = collections.namedtuple("Call", "height symbol to")  # height: what is in use before the callee's return address


def exported():
    """The functions that the header declares, each with its symbol in the archives: the name itself, if the header says no other."""
    with open(HEADER) as file:
        text = file.read()
    others = dict(re.findall(r"^#define (gdt_\w+) (gdt_\w+)$", text, re.M))
    return {name: others.get(name, name) for name in re.findall(r"^\w.*[ *](gdt_[a-z0-9_]+)\(", text, re.M)}


def is_branch(instruction):
    """Whether it is a call, a jump, or a branch on a condition (70 to 7f, 0f 80 to 0f 8f), to a place that stands in it."""
    return instruction.opcode in (CALL, *JUMP) or instruction.opcode >> 4 in (0x7, 0xF8)


def pushed(instruction):
    """The bytes by which the stack grows."""
    opcode, reg = instruction.opcode, instruction.reg
    if RSP not in instruction.names:
        pushes = opcode >> 3 == PUSH or opcode in PUSHES_NUMBER or opcode == GROUP and reg & 7 == PUSHES
        return WORD if pushes else -WORD if opcode >> 3 == POP else 0
    if opcode in WITH_NUMBER and instruction.wide and reg in (ADDS, SUBTRACTS):
        return instruction.value if reg == SUBTRACTS else -instruction.value
    if opcode == COPIES and instruction.rm != RSP:
        return 0
    raise Trouble("rsp is changed or asked in a way that is not understood, at %#x" % instruction.start)


def operand(instruction, height):
    """What the field rm names: a register by its number, or a word of the stack by its height; None if it is neither."""
    if instruction.rm is not None:
        return instruction.rm
    return "word", height - instruction.offset if instruction.base == RSP else None


class Function:
    """A function: a section of code of an object file, which holds one function. It takes down the most that the function itself uses, and each call with its height."""

    def __init__(self, of, number):
        self.of, self.number = of, number
        self.code = x86.instructions(of.sections[number].data)
        self.targets, self.named, tables = {}, {}, collections.defaultdict(set)  # of relocated calls and jumps; for an instruction that names data where they are
        self.most, self.calls = 0, []
        self.relocate()
        for section, start in self.named.values():
            tables[section].add(start)
        self.leads = collections.defaultdict(list)  # for each table the places that it leads to
        for section, starts in tables.items():
            self.read_table(section, starts)
        self.follow()

    def relocate(self):
        """Where each relocated call and jump goes, and where the data start that are named."""
        at = {place: instruction for instruction in self.code.values() for place in range(instruction.start, instruction.end)}
        for place, kind, symbol, addend in self.of.relocations[self.number]:
            if kind not in x86.RELATIVE:
                raise Trouble("a relocation of kind %d at %#x" % (kind, place))
            instruction = at[place]
            to = symbol.value + addend + instruction.end - place
            if is_branch(instruction):
                self.targets[instruction.start] = symbol, to
            elif symbol.section == 0 or self.of.is_code(symbol.section):
                raise Trouble("the address of %s is taken at %#x" % (symbol.name or "code", place))
            else:
                self.named[instruction.start] = symbol.section, to

    def read_table(self, section, starts):
        """Takes down where the tables in a section of data lead. An entry is the distance from the start of its table."""
        for place, kind, symbol, addend in self.of.relocations[section]:
            start = max((start for start in starts if start <= place), default=None)
            if kind not in x86.RELATIVE or symbol.section != self.number or start is None:
                raise Trouble("data lead elsewhere: %s at %#x" % (self.of.sections[section].name, place))
            self.leads[section, start].append(symbol.value + addend - (place - start))

    def held(self, instruction, height, holding):
        """What is held after an instruction, if `holding` is held before it. A fact is what, where and of which table: ADDRESS, the table's own; ENTRY, one of its entries, with the register that
        the entry's address started from; PLACE, the sum of these two. Where is a register or a word of the stack."""
        opcode, reg, rm = instruction.opcode, instruction.reg, operand(instruction, height)
        if opcode == GROUP and reg & 7 in THROUGH:
            return holding
        to, source = (rm, reg) if opcode in TO_RM else (reg, rm)
        gone = instruction.names | {rm} | (LOST_BY_CALL if opcode == CALL else LOST_BY_PRODUCT if opcode in PRODUCTS else set())
        kept = {fact for fact in holding if not gone & {fact[1], fact[-1]}}
        if instruction.start in self.named:
            kept.add((ADDRESS, reg, self.named[instruction.start]))
        elif opcode == LOADS_ENTRY:
            kept |= {(ENTRY, reg, table, where) for what, where, table, *_ in holding if (what, where) == (ADDRESS, instruction.base)}
        elif opcode in ADDS_REGISTER:
            kept |= {(PLACE, to, fact[2]) for fact in holding if fact[0] == ENTRY and {fact[1], fact[3]} == {to, source}}
        elif opcode in COPIES_WORD and instruction.wide:
            kept |= {(fact[0], where, fact[2]) for fact in holding if fact[0] != ENTRY and fact[1] == source for where in (to, source)}
        return frozenset(kept)

    def follow(self):
        """Goes along every branch with the height at each instruction, and with what holds the place that a table leads to."""
        heights, holders, ways = {}, {}, [(0, WORD, frozenset())]
        while ways:
            place, height, holding = ways.pop()
            if heights.get(place, height) != height:
                raise Trouble("%#x is reached with %d and with %d bytes of stack" % (place, heights[place], height))
            if place in heights and holders[place] <= holding:
                continue
            if place not in self.code:
                raise Trouble("no instruction starts at %#x, to which code leads" % place)
            heights[place], holders[place] = height, holders.get(place, holding) & holding
            instruction = self.code[place]
            after = height + pushed(instruction)
            below = RED_ZONE if instruction.base == RSP and instruction.offset < 0 else 0
            self.most = max(self.most, after + below)
            holding = self.held(instruction, height, holders[place])
            ways += [(way, after, holding) for way in self.ways(instruction, height, holders[place])]
        for place, instruction in self.code.items():
            if place not in heights and instruction.opcode not in PADDING:
                raise Trouble("nothing leads to the code at %#x" % place)

    def ways(self, instruction, height, holding):
        """Where code goes on after an instruction. A call is taken down, and so is a jump into another function."""
        opcode, place = instruction.opcode, instruction.start
        if opcode in TRAPS:
            return []
        if (opcode == RETURN or place in self.targets and opcode != CALL) and height != WORD:
            raise Trouble("the function is left at %#x with %d bytes of stack" % (place, height))
        if opcode == RETURN:
            return []
        if opcode == GROUP and instruction.reg & 7 in THROUGH:
            tables = {fact[2] for fact in holding if fact[:2] == (PLACE, operand(instruction, height))}
            if instruction.reg & 7 != JUMPS or len(tables) != 1:
                raise Trouble("a call or jump through a register or memory at %#x" % place)
            return self.leads[tables.pop()]
        after = [] if opcode in JUMP else [instruction.end]
        if not is_branch(instruction):
            return after
        if place in self.targets:
            self.calls.append(Call(height if opcode == CALL else height - WORD, *self.targets[place]))
            return after
        if opcode == CALL:
            raise Trouble("a call into its own code at %#x" % place)
        return [instruction.end + instruction.value, *after]


class Library:
    """The functions of some archives."""

    def __init__(self, files):
        self.objects = [found for file in files for found in x86.objects(file)]
        self.found = {}

    def largest(self, name):
        """The Most of an exported function."""
        homes = [(of, symbol.section) for of in self.objects for symbol in of.symbols if symbol.name == name and of.is_code(symbol.section) and symbol.value == 0]
        if len(homes) != 1:
            raise Trouble("%s starts a section of code in %d archives" % (name, len(homes)))
        return self.most(*homes[0], ())

    def most(self, of, number, above):
        """The Most of a function to which the functions `above` lead."""
        key, name = (of, number), of.sections[number].name.removeprefix(".text.")
        if key in above:
            raise Trouble("%s: functions call each other in a circle" % name)
        if key not in self.found:
            try:
                function = Function(of, number)
            except Trouble as trouble:
                raise Trouble("%s: %s" % (name, trouble)) from None
            found = [Most(function.most, [(name, function.most)])]
            for call in function.calls:
                called = self.called(of, call, (*above, key))
                found.append(Most(call.height + called.bytes, [(name, call.height), *called.path]))
            self.found[key] = max(found, key=lambda most: most.bytes)
        return self.found[key]

    def called(self, of, call, above):
        name = call.symbol.name
        if call.symbol.section == 0 and name in OUTSIDE:
            return Most(OUTSIDE_MOST, [(name, OUTSIDE_MOST)])
        if not of.is_code(call.symbol.section) or call.to != 0:
            raise Trouble("%s is called, which starts no section of code in the archive" % (name or "code"))
        return self.most(of, call.symbol.section, above)
