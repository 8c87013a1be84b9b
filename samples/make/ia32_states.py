"""states.i386: registers, memory and flags behind every op of the profile, for chosen ones before it.

For each case the program takes two words of memory, the flags and the six registers from a table, runs the case's
ops, and stores the registers, the two words, and a byte for each of CF, ZF, SF and OF behind one another. The two
words lie on both sides of a border at which two segments touch, and many operands in memory lie over it. At its end
the program writes all that was stored to file 1.

Flags that the SDM leaves undefined after an op are stored as 0. So is what bsr leaves of 0: the case's next op
overwrites it.
"""

import itertools
from dataclasses import dataclass
from typing import Callable, Iterator, Union

import ia32
from draws import WORD, Draws
from elf import EXECUTE, I386, READ, WRITE, Segment, elf, headers_size
from ia32 import BYTE_REGISTERS, CONDITIONS, EAX, EBX, ECX, EDI, EDX, ESI, REGISTERS, Abs, Base, Operand, Pair, Reg

CODE = 0x08048000
# The segment with the table ends at this address, and the one with what is stored begins at it.
BORDER = 0x08100000
MEMORY = BORDER - 4
STORED = BORDER + 8

# CF, ZF, SF, OF. No sum or difference is 0 and negative.
Flags = tuple[int, int, int, int]
FLAGS: list[Flags] = [(c, z, s, o) for c in (0, 1) for z, s in ((0, 0), (0, 1), (1, 0)) for o in (0, 1)]

ALL = "czso"


@dataclass(frozen=True)
class Case:
    """Ops, or what makes them of their address, what stands before them, and which flags are defined behind."""

    ops: Union[bytes, Callable[[int], bytes]]
    registers: dict[int, int]
    memory: tuple[int, int]
    flags: Flags
    defined: str

    def at(self, address: int) -> bytes:
        return self.ops if isinstance(self.ops, bytes) else self.ops(address)


class Cases:
    """Draws cases."""

    def __init__(self, seed: int) -> None:
        self.draws = Draws(seed)
        self.list: list[Case] = []

    def add(
        self,
        ops: Union[bytes, Callable[[int], bytes]],
        registers: dict[int, int] = {},
        memory: Union[tuple[int, int], None] = None,
        flags: Union[Flags, None] = None,
        defined: str = ALL,
    ) -> None:
        """What isn't given is drawn."""
        drawn = {register: self.draws.word() for register in REGISTERS}
        self.list.append(
            Case(
                ops,
                {**drawn, **registers},
                memory or (self.draws.any_word(), self.draws.any_word()),
                flags or self.draws.among(FLAGS),
                defined,
            )
        )

    def register(self, *others: int) -> int:
        return self.draws.among([register for register in REGISTERS if register not in others])

    def memory(self, form: str, place: int, *kept: int) -> tuple[Operand, dict[int, int]]:
        """An operand of this form at a place of the two words, and what its registers must hold. Registers that
        are to be kept get no number from it."""
        address = MEMORY + place
        base, index = self.register(*kept), self.register(*kept)
        if form == "abs":
            return Abs(address), {}
        held = {base: self.draws.word()}
        if form == "base":
            return Base(base, address - held[base]), held
        held.setdefault(index, self.draws.word())
        scale = self.draws.below(4)
        return Pair(base, index, scale, address - held[base] - (held[index] << scale)), held

    def operands(self, wide: int, each: int, *kept: int) -> Iterator[tuple[Operand, dict[int, int]]]:
        """Operands in memory of each form, `each` of them, over places at which `wide` bytes lie in the two words."""
        for form in ("abs", "base", "pair"):
            for _ in range(each):
                yield self.memory(form, self.draws.below(9 - wide), *kept)


def memory_with(place: int, value: int, draws: Draws) -> tuple[int, int]:
    """The two words with one that is given at a place of them."""
    both = draws.any_word() | draws.any_word() << 32
    both = both & ~(WORD << 8 * place) | value << 8 * place
    return both & WORD, both >> 32


def alu_cases(cases: Cases) -> None:
    draws = cases.draws
    bounds = list(itertools.product((0, 1, 0x7FFFFFFF, 0x80000000, WORD), (0, 1, 0x80000000, WORD)))
    for op in ia32.ALU:
        # Those that read CF get it both ways.
        carries = (0, 1) if op in ("adc", "sbb") else (draws.below(2),)
        for carry, (first, second) in itertools.product(carries, bounds):
            to = cases.register()
            source = cases.register(to)
            flags = draws.among([flags for flags in FLAGS if flags[0] == carry])
            cases.add(ia32.alu_to(op, Reg(to), source), {to: first, source: second}, flags=flags)
        for _ in range(6):
            to, source = cases.register(), cases.register()
            first, second = draws.pair()
            cases.add(ia32.alu_to(op, Reg(to), source), {source: second, to: first})
        for operand, held in cases.operands(4, 3):
            cases.add(ia32.alu_to(op, operand, cases.register()), held)
        for operand, held in cases.operands(4, 3):
            cases.add(ia32.alu_from(op, cases.register(), operand), held)
        for _ in range(4):
            to = cases.register()
            first, second = draws.pair()
            cases.add(ia32.alu_immediate(op, Reg(to), second), {to: first})
        for operand, held in cases.operands(4, 2):
            cases.add(ia32.alu_immediate(op, operand, draws.word()), held)


def test_cases(cases: Cases) -> None:
    draws = cases.draws
    for _ in range(8):
        first, second = draws.pair()
        a, b = cases.register(), cases.register()
        cases.add(ia32.test(Reg(a), b), {a: first, b: second})
        a = cases.register()
        cases.add(ia32.test_immediate(Reg(a), second), {a: first})
    for operand, held in cases.operands(4, 2):
        cases.add(ia32.test(operand, cases.register()), held)
    for operand, held in cases.operands(4, 2):
        cases.add(ia32.test_immediate(operand, draws.word()), held)


def unary_cases(cases: Cases) -> None:
    """not and neg; mul and imul of one operand, which define CF and OF alone."""
    for op in ("not", "neg"):
        for value in (0, 1, 0x80000000, 0x7FFFFFFF, WORD, cases.draws.any_word()):
            register = cases.register()
            cases.add(ia32.unary(op, Reg(register)), {register: value})
        for operand, held in cases.operands(4, 2):
            cases.add(ia32.unary(op, operand), held)
    for op in ("mul", "imul1"):
        for value in (0, 1, 2, 0x8000, 0x10000, 0x80000000, 0x7FFFFFFF, WORD, WORD - 1):
            register = cases.register(EAX)
            cases.add(ia32.unary(op, Reg(register)), {register: value}, defined="co")
        cases.add(ia32.unary(op, Reg(EAX)), {EAX: 0x8001}, defined="co")
        for factor in (0x7FFF, 0xFFFF8000, 0x10000):
            cases.add(ia32.unary(op, Reg(EBX)), {EAX: 0x10000, EBX: factor}, defined="co")
        for operand, held in cases.operands(4, 2):
            cases.add(ia32.unary(op, operand), held, defined="co")
    for _ in range(10):
        to, source = cases.register(), cases.register()
        cases.add(ia32.imul(to, Reg(source)), defined="co")
    for first, second in (
        (0x7FFFFFFF, 1),
        (0x8000, 0xFFFF),
        (0x8000, 0xFFFF0000),
        (0x80000000, WORD),
        (0x10000, 0x8000),
    ):
        cases.add(ia32.imul(ESI, Reg(EDX)), {ESI: first, EDX: second}, defined="co")
    for operand, held in cases.operands(4, 3):
        cases.add(ia32.imul(cases.register(), operand), held, defined="co")


def signed(value: int) -> int:
    return (value ^ 0x80000000) - 0x80000000


def dividends(draws: Draws, op: str, divisor: int, count: int) -> list[int]:
    """Numbers of 64 bits whose quotient by the divisor fits, the least and the greatest of them among them."""
    divisor = signed(divisor) if op == "idiv" else divisor
    least, most = (-0x80000000, 0x7FFFFFFF) if op == "idiv" else (0, WORD)
    found = []
    for quotient in (least, most, 0, *(draws.below(most - least + 1) + least for _ in range(count))):
        rest = draws.among((0, abs(divisor) - 1, draws.below(abs(divisor))))
        # The remainder has the dividend's sign.
        negative = (quotient < 0) != (divisor < 0) if quotient else op == "idiv" and draws.below(2) == 1
        found.append(quotient * divisor + (-rest if negative else rest))
    return found


def division_cases(cases: Cases) -> None:
    """Divisions that don't fault; all flags are undefined behind them."""
    draws = cases.draws
    for op in ("div", "idiv"):
        for divisor in (1, 2, 10, 0x7FFFFFFF, 0x80000000, WORD, WORD - 1, draws.any_word() | 1):
            for dividend in dividends(draws, op, divisor, 1):
                halves = {EAX: dividend & WORD, EDX: dividend >> 32 & WORD}
                register = cases.register(EAX, EDX)
                cases.add(ia32.unary(op, Reg(register)), {**halves, register: divisor}, defined="")
        for form in ("abs", "base", "pair"):
            divisor = draws.any_word() | 1
            for dividend in dividends(draws, op, divisor, 0)[:2]:
                place = draws.below(5)
                operand, held = cases.memory(form, place, EAX, EDX)
                halves = {EAX: dividend & WORD, EDX: dividend >> 32 & WORD}
                cases.add(ia32.unary(op, operand), {**halves, **held}, memory_with(place, divisor, draws), defined="")
    # By the dividend's own halves.
    cases.add(ia32.unary("div", Reg(EAX)), {EAX: 0x90000001, EDX: 0x12345678}, defined="")
    cases.add(ia32.unary("idiv", Reg(EAX)), {EAX: 0xFFFFFFF5, EDX: WORD}, defined="")
    cases.add(ia32.unary("idiv", Reg(EDX)), {EAX: 0x80000001, EDX: WORD}, defined="")


def mov_cases(cases: Cases) -> None:
    draws = cases.draws
    for _ in range(12):
        cases.add(ia32.mov_to(Reg(cases.register()), cases.register()))
    for register in REGISTERS:
        cases.add(ia32.mov_immediate(register, draws.word()))
    for operand, held in cases.operands(4, 4):
        cases.add(ia32.mov_to(operand, cases.register()), held)
    for operand, held in cases.operands(4, 4):
        cases.add(ia32.mov_from(cases.register(), operand), held)
    for operand, held in cases.operands(4, 2):
        cases.add(ia32.mov_to_immediate(operand, draws.word()), held)
    for register in REGISTERS:
        for operand, held in cases.operands(2, 1):
            cases.add(ia32.mov_half_to(operand, register), held)
    for register in BYTE_REGISTERS:
        for operand, held in cases.operands(1, 1):
            cases.add(ia32.mov_byte_to(operand, register), held)
        for operand, held in cases.operands(1, 1):
            cases.add(ia32.mov_byte_from(register, operand), held)


def shift_defined(count: int) -> str:
    """OF is undefined for counts above 1."""
    return ALL if count % 32 < 2 else "czs"


def shift_cases(cases: Cases) -> None:
    """Shifts and rotates. A count is taken modulo 32, and a count of 0 leaves the flags as they are."""
    draws = cases.draws
    for op in ia32.SHIFT:
        for count in (0, 1, 1, 1, 2, 8, 16, 31):
            to = cases.register()
            value = draws.among((0, 1, 0x80000000, 0xC0000000, 0x40000000, draws.any_word()))
            cases.add(ia32.shift(op, Reg(to), count), {to: value}, defined=shift_defined(count))
        for count in (0, 1, 1, 17, 31, 32, 33, 64, 255):
            to = cases.register(ECX)
            high = draws.any_word() & 0xFFFFFF00
            cases.add(ia32.shift_by_cl(op, Reg(to)), {ECX: high | count}, defined=shift_defined(count))
        for count in (0xA5A5A501, 0x80000004, 0x12345620):
            cases.add(ia32.shift_by_cl(op, Reg(ECX)), {ECX: count}, defined=shift_defined(count))
        for number, (operand, held) in enumerate(cases.operands(4, 3)):
            count = (0, 1, 5)[number % 3]
            cases.add(ia32.shift(op, operand, count), held, defined=shift_defined(count))
        for number, (operand, held) in enumerate(cases.operands(4, 3, ECX)):
            count = (32, 1, 29)[number % 3]
            cases.add(ia32.shift_by_cl(op, operand), {**held, ECX: 0xFFFFFF00 | count}, defined=shift_defined(count))


def lea_cases(cases: Cases) -> None:
    """Each base; each base with each index, under each scale in one case, into registers that neither is."""
    for base in REGISTERS:
        cases.add(ia32.lea(cases.register(), Base(base, cases.draws.word())))
        for index in REGISTERS:
            free = [register for register in REGISTERS if register not in (base, index)]
            ops = (ia32.lea(free[scale], Pair(base, index, scale, cases.draws.word())) for scale in range(4))
            cases.add(b"".join(ops))


def extend_cases(cases: Cases) -> None:
    for op in ia32.EXTEND:
        byte = op.endswith("8")
        for source in BYTE_REGISTERS if byte else REGISTERS:
            for value in (0x1234567F, 0xFFFF8180, 0x00007FFF, 0xABCD8000):
                cases.add(ia32.extend(op, cases.register(), Reg(source)), {source: value})
        for operand, held in cases.operands(1 if byte else 2, 3):
            cases.add(ia32.extend(op, cases.register(), operand), held)


def register_cases(cases: Cases) -> None:
    """bswap, cdq, and bsr, which defines ZF alone, and its result only where the operand isn't 0."""
    draws = cases.draws
    for register in REGISTERS:
        cases.add(ia32.bswap(register))
        cases.add(ia32.bswap(register) + ia32.bswap(register), {register: 0x01020384})
    for value in (0, 1, 0x7FFFFFFF, 0x80000000, WORD):
        cases.add(ia32.CDQ, {EAX: value})
    for value in (1, 2, 3, 0x80, 0xFFFF, 0x7FFFFFFF, 0x80000000, WORD, draws.any_word()):
        to, source = cases.register(), cases.register()
        cases.add(ia32.bsr(to, Reg(source)), {source: value}, defined="z")
    cases.add(ia32.bsr(EDX, Reg(EBX)) + ia32.mov_immediate(EDX, 5), {EBX: 0}, defined="z")
    cases.add(ia32.bsr(EDI, Reg(EDI)) + ia32.mov_immediate(EDI, 6), {EDI: 0}, defined="z")
    for form in ("abs", "base", "pair"):
        for value in (0, 1 << draws.below(32), draws.any_word() >> draws.below(31) | 1):
            place = draws.below(5)
            operand, held = cases.memory(form, place)
            to = cases.register()
            ops = ia32.bsr(to, operand) + (b"" if value else ia32.mov_immediate(to, 7))
            cases.add(ops, held, memory_with(place, value, draws), defined="z")


def condition_cases(cases: Cases) -> None:
    """setcc, cmovcc and jcc of each condition under all flags."""
    draws = cases.draws
    for condition in CONDITIONS:
        for flags in FLAGS:
            cases.add(ia32.setcc(condition, Reg(draws.among(BYTE_REGISTERS))), flags=flags)
            to = cases.register()
            cases.add(ia32.cmovcc(condition, to, Reg(cases.register(to))), flags=flags)
            skipped = ia32.mov_immediate(cases.register(), draws.word())
            cases.add(ia32.jcc(condition, len(skipped)) + skipped, flags=flags)
        for operand, held in cases.operands(1, 2):
            cases.add(ia32.setcc(condition, operand), held)
        for operand, held in cases.operands(4, 2):
            cases.add(ia32.cmovcc(condition, cases.register(), operand), held)


def jump_cases(cases: Cases) -> None:
    """Jumps forward and backward, also a loop; jumps to what an operand holds."""
    one, two = ia32.mov_immediate(EAX, 1), ia32.mov_immediate(ECX, 2)
    long = len(ia32.jmp(0))
    cases.add(ia32.jmp(len(one)) + one)
    # Over one, which is followed by a jump over two and over the jump back, to that jump back.
    back = -(len(one) + long + len(two) + long)
    cases.add(ia32.jmp(len(one) + long + len(two)) + one + ia32.jmp(len(two) + long) + two + ia32.jmp(back))
    # ecx falls to 0, and ebx gets as many times 3.
    body = ia32.alu_immediate("add", Reg(EBX), 3) + ia32.alu_immediate("sub", Reg(ECX), 1)
    cases.add(body + ia32.jcc("ne", -(len(body) + len(ia32.jcc("ne", 0)))), {ECX: 1000})
    for register in REGISTERS:

        def by_register(address: int, register: int = register) -> bytes:
            jump = ia32.jmp_operand(Reg(register))
            behind = address + len(ia32.mov_immediate(register, 0)) + len(jump) + len(two)
            return ia32.mov_immediate(register, behind) + jump + two

        cases.add(by_register)
    for operand, held in cases.operands(4, 2):

        def by_memory(address: int, operand: Operand = operand) -> bytes:
            jump = ia32.jmp_operand(operand)
            behind = address + len(ia32.mov_to_immediate(operand, 0)) + len(jump) + len(one)
            return ia32.mov_to_immediate(operand, behind) + jump + one

        cases.add(by_memory, held)


def all_cases() -> list[Case]:
    cases = Cases(12)
    for part in (
        alu_cases,
        test_cases,
        unary_cases,
        division_cases,
        mov_cases,
        shift_cases,
        lea_cases,
        extend_cases,
        register_cases,
        condition_cases,
        jump_cases,
    ):
        part(cases)
    return cases.list


# A row of the table: where the case's ops stand, the mask of defined flags, a word that test gives ZF and SF, one
# whose turn by 1 gives CF and OF, the two words of memory, and the registers.
ROW = 48
OPS, MASK, TESTED, TURNED, FIRST_WORD = 0, 4, 8, 12, 16
REGISTERS_AT = 24
# What is stored: the registers, the two words, and the flags.
KEPT = 36


def row(case: Case, address: int) -> bytes:
    carry, zero, sign, overflow = case.flags
    mask = sum(0xFF << 8 * place for place, flag in enumerate("czso") if flag in case.defined)
    tested = 0 if zero else 0x80000000 if sign else 1
    # rol by 1 puts the top bit in CF, and OF tells whether it differs from the new top bit.
    turned = carry << 31 | (carry ^ overflow) << 30
    values = (address, mask, tested, turned, *case.memory, *(case.registers[register] for register in REGISTERS))
    return b"".join(ia32.dword(value) for value in values)


class Places:
    """Where the program keeps what it needs between the cases: before the table, in the segment's first bytes."""

    def __init__(self, at: int, cases: int) -> None:
        self.row, self.kept, self.turned, self.ops, self.flags = (at + 4 * place for place in range(5))
        self.registers = at + 20
        self.size = 44
        self.table = at + self.size
        self.end = self.table + ROW * cases

    def data(self) -> bytes:
        return ia32.dword(self.table) + ia32.dword(STORED) + bytes(self.size - 8)


def put_before(code: ia32.Code, places: Places) -> None:
    """Takes a row's memory, flags and registers, and goes to its ops. mov leaves the flags as they are."""
    code.put(ia32.mov_from(ESI, Abs(places.row)))
    for place in (0, 4):
        code.put(ia32.mov_from(EAX, Base(ESI, FIRST_WORD + place)), ia32.mov_to(Abs(MEMORY + place), EAX))
    code.put(ia32.mov_from(EAX, Base(ESI, OPS)), ia32.mov_to(Abs(places.ops), EAX))
    code.put(ia32.mov_from(EAX, Base(ESI, TURNED)), ia32.mov_to(Abs(places.turned), EAX))
    code.put(ia32.mov_from(EAX, Base(ESI, TESTED)), ia32.test(Reg(EAX), EAX), ia32.shift("rol", Abs(places.turned), 1))
    for place, register in enumerate(REGISTERS):
        if register != ESI:
            code.put(ia32.mov_from(register, Base(ESI, REGISTERS_AT + 4 * place)))
    code.put(ia32.mov_from(ESI, Base(ESI, REGISTERS_AT + 4 * REGISTERS.index(ESI))))
    code.put(ia32.jmp_operand(Abs(places.ops)))


def put_behind(code: ia32.Code, places: Places, before: int) -> None:
    """Stores what a case left, and goes to the next row, if there is one."""
    for place, register in enumerate(REGISTERS):
        code.put(ia32.mov_to(Abs(places.registers + 4 * place), register))
    for place, condition in enumerate(("b", "e", "s", "l")):
        code.put(ia32.setcc(condition, Abs(places.flags + place)))
    # less: SF differs from OF, so OF is where SF and less differ.
    code.put(ia32.mov_byte_from(EAX, Abs(places.flags + 2)), ia32.mov_byte_from(ECX, Abs(places.flags + 3)))
    code.put(ia32.alu_to("xor", Reg(EAX), ECX), ia32.mov_byte_to(Abs(places.flags + 3), EAX))
    code.put(ia32.mov_from(ESI, Abs(places.row)), ia32.mov_from(EDI, Abs(places.kept)))
    for place in range(6):
        code.put(ia32.mov_from(EAX, Abs(places.registers + 4 * place)), ia32.mov_to(Base(EDI, 4 * place), EAX))
    for place in (0, 4):
        code.put(ia32.mov_from(EAX, Abs(MEMORY + place)), ia32.mov_to(Base(EDI, 24 + place), EAX))
    code.put(ia32.mov_from(EAX, Abs(places.flags)), ia32.alu_from("and", EAX, Base(ESI, MASK)))
    code.put(ia32.mov_to(Base(EDI, 32), EAX))
    code.put(ia32.alu_immediate("add", Abs(places.kept), KEPT), ia32.alu_immediate("add", Abs(places.row), ROW))
    code.put(ia32.alu_immediate("cmp", Abs(places.row), places.end))
    code.jump_if("ne", before)


def put_calls(code: ia32.Code, kept: int) -> int:
    """Calls of each kind; eax behind each is stored. Gives the bytes that were stored in all."""
    calls = (
        (ia32.SYS_READ, 0, STORED + kept, 4),
        (ia32.SYS_WRITE, 1, STORED, 0),
        (ia32.SYS_READ, 77, STORED, 4),
        (ia32.SYS_WRITE, 77, STORED, 4),
        (ia32.SYS_CLOSE, 77, 0, 0),
        (ia32.SYS_CLOSE, 0, 0, 0),
    )
    for call in calls:
        code.call(*call)
        code.put(ia32.mov_to(Abs(STORED + kept), EAX))
        kept += 4
    code.call(ia32.SYS_WRITE, 1, STORED, kept)
    return kept


def code_of(cases: list[Case], places: Places) -> tuple[ia32.Code, list[int], int]:
    """The code, where each case's ops stand, and how many bytes are stored."""
    code = ia32.Code(CODE + headers_size(3))
    put_before(code, places)
    behind = code.here
    put_behind(code, places, code.at)
    kept = put_calls(code, KEPT * len(cases))
    # 281, if as many bytes were written.
    code.put(ia32.alu_immediate("sub", Reg(EAX), kept - 281), ia32.mov_to(Reg(EBX), EAX))
    code.put(ia32.mov_immediate(EAX, ia32.EXIT_GROUP), ia32.INT80)
    addresses = []
    for case in cases:
        addresses.append(code.here)
        code.put(case.at(code.here))
        code.jump(behind)
    return code, addresses, kept


def states() -> bytes:
    cases = all_cases()
    size = Places(0, len(cases)).end + 4
    places = Places(BORDER - size, len(cases))
    code, addresses, kept = code_of(cases, places)
    table = b"".join(row(case, address) for case, address in zip(cases, addresses))
    return elf(
        I386,
        code.at,
        [
            Segment(code.at, bytes(code.bytes), READ | EXECUTE),
            Segment(BORDER - size, places.data() + table + bytes(4), READ | WRITE),
            Segment(BORDER, bytes(8), READ | WRITE, kept + 8),
        ],
    )
