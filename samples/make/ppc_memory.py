"""memory.ppc: loads and stores of every row, aligned and not, and over borders of segments that touch.

Each load stores what it left in rD and rA behind one another, each store what it left in rA and 16 bytes of
memory about the border. At its end the program writes these and the memory itself to file 1.

low.ppc: the same rows without index and with rA = 0, so that the displacement alone is the address. Its memory is
low enough to be reached so.
"""

import itertools

import ppc
from draws import WORD, Draws
from elf import EXECUTE, POWERPC, READ, WRITE, Segment, elf, headers_size

CODE = 0x10000000
# Two borders at which segments touch: one that may not be written and one that may, and two that may.
LOAD_BORDER = 0x10201000
STORE_BORDER = 0x10301000
REACH = 64
OUTPUT = 0x10400000
OUTPUT_SIZE = 0x4000
LOW_CODE, LOW_DATA, LOW_OUTPUT = 0x2000, 0x5000, 0x6000

STORED = 1

WIDTH = {"w": 4, "h": 2, "b": 1}


def width(name: str) -> int:
    """The bytes that a load or store moves: its name tells them by the letter behind l or st."""
    return WIDTH[name.removeprefix("st").removeprefix("l")[0]]


def pattern(seed: int, size: int) -> bytes:
    """Bytes of which about half have the highest bit."""
    draws = Draws(seed)
    return bytes(draws.below(256) for _ in range(size))


def begin(code: ppc.Code, output: int) -> None:
    """Every register gets a number of its own, since a loader may leave some in them."""
    for register in range(32):
        code.load_word(register, 0x01010101 * register ^ 0xA0B0C0D0)
    code.load_word(STORED, output - 4)


def put_keep(code: ppc.Code, *registers: int) -> None:
    """Stores these registers behind what was stored."""
    code.put(*(ppc.stwu(register, 4, STORED) for register in registers))


def registers_of(draws: Draws, count: int) -> list[int]:
    """Different registers above those that the program itself uses."""
    free = list(range(3, 32))
    return [free.pop(draws.below(len(free))) for _ in range(count)]


def put_access(code: ppc.Code, draws: Draws, name: str, d: int, a: int, b: int, address: int) -> None:
    """One load or store of rD or rS at an address, by rA and the displacement or rB."""
    displaced = {**ppc.LOAD, **ppc.LOAD_UPDATE, **ppc.STORE, **ppc.STORE_UPDATE}
    if name in displaced:
        displacement = draws.among((0, 1, -1, 32767, -32768, draws.below(65536) - 32768))
        code.load_word(a, address - displacement & WORD)
        code.put(ppc.d_form(displaced[name], d, a, displacement))
        return
    numbers = {
        **ppc.LOAD_INDEXED,
        **ppc.LOAD_INDEXED_UPDATE,
        **ppc.STORE_INDEXED,
        **ppc.STORE_INDEXED_UPDATE,
    }
    index = draws.among((0, 4, -4 & WORD, 0x80000000, draws.any_word()))
    code.load_word(b, address if a == 0 else index)
    if a:
        code.load_word(a, address - index & WORD)
    code.put(ppc.x_form(numbers[name], d, a, b))


def places(border: int, wide: int) -> list[int]:
    """Addresses below the border at each alignment, over it, and at it."""
    return [border - 16 + offset for offset in range(4)] + [border - short for short in range(wide - 1, -1, -1)]


def put_loads(code: ppc.Code, draws: Draws) -> None:
    """Each load at each place; then with rA = 0 where that has a meaning, with rD = rA, rD = rB and rA = rB, and
    of the program's own code."""
    names = (*ppc.LOAD, *ppc.LOAD_UPDATE, *ppc.LOAD_INDEXED, *ppc.LOAD_INDEXED_UPDATE)
    for name in names:
        for address in places(LOAD_BORDER, width(name)):
            d, a, b = registers_of(draws, 3)
            put_access(code, draws, name, d, a, b, address)
            put_keep(code, d, a)
    for name in ppc.LOAD:
        put_access(code, draws, name, 9, 9, 0, LOAD_BORDER - 5)
        put_keep(code, 9)
    for name, number in ppc.LOAD_INDEXED.items():
        put_access(code, draws, name, 10, 0, 11, LOAD_BORDER - 7)
        put_keep(code, 10)
        put_access(code, draws, name, 12, 12, 13, LOAD_BORDER - 9)
        put_keep(code, 12)
        put_access(code, draws, name, 15, 14, 15, LOAD_BORDER - 10)
        put_keep(code, 15)
        code.load_word(16, LOAD_BORDER // 2 - 4 | 0x80000000)
        code.put(ppc.x_form(number, 17, 16, 16))
        put_keep(code, 17)
    for name in (*ppc.LOAD, *ppc.LOAD_INDEXED):
        put_access(code, draws, name, 18, 19, 20, code.at + 2)
        put_keep(code, 18)


def put_show(code: ppc.Code) -> None:
    """A routine: stores the 16 bytes about the border at which stores are tried."""
    code.mark("show")
    code.load_word(2, STORE_BORDER - 8)
    for place in range(4):
        code.put(ppc.d_form(ppc.LOAD["lwz"], 0, 2, 4 * place))
        put_keep(code, 0)
    code.put(ppc.BLR)


def put_stores(code: ppc.Code, draws: Draws) -> None:
    """Each store at each place, from a register with another number each time; then with rA = 0 where that has a
    meaning, and with update from rA itself, which stores its old value."""
    names = (*ppc.STORE, *ppc.STORE_UPDATE, *ppc.STORE_INDEXED, *ppc.STORE_INDEXED_UPDATE)
    for name in names:
        for address in places(STORE_BORDER, width(name)):
            s, a, b = registers_of(draws, 3)
            code.load_word(s, draws.any_word())
            put_access(code, draws, name, s, a, b, address + 8 if address < STORE_BORDER - 8 else address)
            put_keep(code, a)
            code.branch("show", link=1)
    for name in ppc.STORE_INDEXED:
        code.load_word(21, draws.any_word())
        put_access(code, draws, name, 21, 0, 22, STORE_BORDER - 1 - width(name))
        code.branch("show", link=1)
    for name in (*ppc.STORE_UPDATE, *ppc.STORE_INDEXED_UPDATE):
        put_access(code, draws, name, 23, 23, 24, STORE_BORDER + 3)
        put_keep(code, 23)
        code.branch("show", link=1)


def put_multiples(code: ppc.Code) -> None:
    """lmw and stmw of few registers and of many, aligned and not, within a segment and over a border."""
    for first, offset in ((31, -8), (31, -3), (30, -4), (29, -7), (25, -9), (20, -25), (20, -24), (11, -62), (3, -64)):
        code.load_word(2, LOAD_BORDER + offset + 100)
        code.put(ppc.d_form(ppc.MULTIPLE["lmw"], first, 2, -100))
        code.put(ppc.d_form(ppc.MULTIPLE["stmw"], first, STORED, 4), ppc.addi(STORED, STORED, 4 * (32 - first)))
    for first, offset in ((31, -8), (31, -3), (30, -4), (29, -7), (25, -9), (20, -25), (20, -24), (3, -63), (0, -64)):
        code.load_word(2, STORE_BORDER + offset - 200)
        code.put(ppc.d_form(ppc.MULTIPLE["stmw"], first, 2, 200))
        code.branch("show", link=1)


def memory() -> bytes:
    draws = Draws(2)
    code = ppc.Code(CODE + headers_size(6))
    begin(code, OUTPUT)
    code.branch("begin")
    put_show(code)
    code.mark("begin")
    put_loads(code, draws)
    put_stores(code, draws)
    put_multiples(code)
    code.write_up_to(1, OUTPUT, STORED)
    for border in (LOAD_BORDER, STORE_BORDER):
        code.call(ppc.SYS_WRITE, 1, border - REACH, 2 * REACH)
    code.call(ppc.EXIT_GROUP, 22)
    return elf(
        POWERPC,
        code.at,
        [
            Segment(code.at, code.data(), READ | EXECUTE),
            Segment(LOAD_BORDER - REACH, pattern(3, REACH), READ),
            Segment(LOAD_BORDER, pattern(4, REACH), READ | WRITE),
            Segment(STORE_BORDER - REACH, pattern(5, REACH), READ | WRITE),
            Segment(STORE_BORDER, pattern(6, REACH), READ | WRITE),
            Segment(OUTPUT, b"", READ | WRITE, OUTPUT_SIZE),
        ],
    )


def put_low_access(code: ppc.Code, draws: Draws) -> None:
    """Each load and store without index, with rA = 0, at each alignment. r0 isn't 0."""
    for place, opcode in enumerate({**ppc.STORE, **ppc.LOAD}.values()):
        for offset in range(4):
            (register,) = registers_of(draws, 1)
            code.put(ppc.d_form(opcode, register, 0, LOW_DATA + 4 * place + offset))
            put_keep(code, register)
    code.put(ppc.d_form(ppc.MULTIPLE["stmw"], 27, 0, LOW_DATA + 33))
    code.put(ppc.d_form(ppc.MULTIPLE["lmw"], 29, 0, LOW_DATA + 35))
    put_keep(code, 29, 30, 31)


def absolute_branch(kind: str, target: int, link: int) -> int:
    """b, a bc that is always taken, or one that is taken where CR0's EQ is set."""
    if kind == "b":
        return ppc.i_form(target, 1, link)
    return ppc.b_form(20 if kind == "always" else 12, 2, target, 1, link)


def put_absolute_branches(code: ppc.Code) -> None:
    """Branches to absolute addresses, which these must be low enough to name: over a word, and back to it."""
    cases = itertools.product((0, 1), ("b", "always", "equal"), (0x20000000, 0))
    for link, kind, cr in cases:
        code.load_word(6, cr)
        code.put(ppc.mtcrf(255, 6), ppc.li(7, 1))
        code.put(absolute_branch(kind, code.here + 8, link), ppc.li(7, 2))
        code.put(ppc.mfspr(ppc.LR, 8))
        put_keep(code, 7, 8)
        # Over two words, back to them, and over the way back.
        code.put(ppc.i_form(12), ppc.li(7, 3), ppc.i_form(12))
        code.put(absolute_branch(kind, code.here - 8, link), ppc.li(7, 4))
        code.put(ppc.mfspr(ppc.LR, 8))
        put_keep(code, 7, 8)


def low() -> bytes:
    draws = Draws(7)
    code = ppc.Code(LOW_CODE + headers_size(3))
    begin(code, LOW_OUTPUT)
    code.put(ppc.mtspr(ppc.LR, 31))
    put_low_access(code, draws)
    put_absolute_branches(code)
    code.write_up_to(1, LOW_OUTPUT, STORED)
    code.call(ppc.SYS_WRITE, 1, LOW_DATA, REACH)
    code.call(ppc.EXIT, 23)
    return elf(
        POWERPC,
        code.at,
        [
            Segment(code.at, code.data(), READ | EXECUTE),
            Segment(LOW_DATA, pattern(8, REACH), READ | WRITE),
            Segment(LOW_OUTPUT, b"", READ | WRITE, 0x1000),
        ],
    )
