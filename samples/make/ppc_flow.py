"""flow.ppc: branches, calls, loops, traps that aren't met, and what moves and combines fields of CR.

Each branch that is tried stores whether it was taken, LR and CTR; each other word stores CR, or a count. At its end
the program writes all that was stored to file 1.
"""

import ppc
from draws import WORD, Draws
from elf import EXECUTE, POWERPC, READ, WRITE, Segment, elf, headers_size

# Low enough for a branch to an absolute address.
CODE = 0x01000000
OUTPUT = 0x01800000
OUTPUT_SIZE = 0x8000

STORED = 1
TAKEN, LINK, COUNT = 6, 7, 8
ONES, ZERO = 20, 21

# The bits of BO: 16 is set where the condition isn't asked, 8 is the value that it is to have, 4 is set where CTR
# isn't counted, 2 is set where the count is to end at 0. Bit 1 is a hint, as are bits without another meaning.
NO_CONDITION, NO_COUNT = 16, 4
ALWAYS = NO_CONDITION | NO_COUNT


def put_keep(code: ppc.Code, *registers: int) -> None:
    code.put(*(ppc.stwu(register, 4, STORED) for register in registers))


def put_keep_cr(code: ppc.Code) -> None:
    code.put(ppc.mfcr(3))
    put_keep(code, 3)


def put_routines(code: ppc.Code) -> None:
    """keep stores whether a branch was taken, LR and CTR; double and factorial are called by the part on calls."""
    code.mark("keep")
    put_keep(code, TAKEN, LINK, COUNT)
    code.put(ppc.BLR)
    code.mark("double")
    code.put(ppc.x_form(ppc.ARITHMETIC["add"], 3, 3, 3), ppc.BLR)
    # The factorial of r3, by a call of itself, with a stack that r2 names.
    code.mark("factorial")
    code.put(ppc.d_form(ppc.COMPARE_IMMEDIATE["cmpli"], 0, 3, 2), ppc.li(4, 1))
    # bltlr
    code.put(ppc.xl_form(ppc.TO_LR, 12, 0, 0))
    code.put(ppc.mfspr(ppc.LR, 5), ppc.stwu(5, -4, 2), ppc.stwu(3, -4, 2), ppc.addi(3, 3, -1))
    code.branch("factorial", link=1)
    code.put(ppc.d_form(ppc.LOAD["lwz"], 3, 2, 0), ppc.d_form(ppc.LOAD["lwz"], 5, 2, 4), ppc.addi(2, 2, 8))
    code.put(ppc.x_form(ppc.ARITHMETIC["mullw"], 4, 4, 3), ppc.mtspr(ppc.LR, 5), ppc.BLR)


def put_condition(code: ppc.Code, bi: int, holds: bool) -> None:
    """CR with this one bit alone, or with every other one."""
    value = 0x80000000 >> bi
    code.load_word(3, value if holds else ~value & WORD)
    code.put(ppc.mtcrf(255, 3))


def put_tried(code: ppc.Code, branch: str, bo: int, bi: int, count: int, link: int, low_bits: int) -> None:
    """One branch over one word. For bclr and bcctr the two low bits of the address are such."""
    code.put(ppc.li(4, count), ppc.mtspr(ppc.CTR, 4), ppc.mtspr(ppc.LR, ONES), ppc.li(TAKEN, 1))
    if branch == "bc":
        code.put(ppc.b_form(bo, bi, 8, 0, link))
    else:
        special, number = (ppc.LR, ppc.TO_LR) if branch == "bclr" else (ppc.CTR, ppc.TO_CTR)
        code.load_word(5, code.here + 20 | low_bits)
        code.put(ppc.mtspr(special, 5), ppc.xl_form(number, bo, bi, 0, link))
    code.put(ppc.li(TAKEN, 0))
    code.put(ppc.mfspr(ppc.LR, LINK), ppc.mfspr(ppc.CTR, COUNT))
    code.branch("keep", link=1)


def put_branches(code: ppc.Code) -> None:
    """bc, bclr and bcctr under every BO, where the condition holds and where it doesn't, with CTR at 0, 1 and 2
    where it is counted, with LK and without. bcctr can't count."""
    draws = Draws(9)
    for branch in ("bc", "bclr", "bcctr"):
        for bo in range(32):
            if branch == "bcctr" and not bo & NO_COUNT:
                continue
            for holds in (True, False):
                for count in (1,) if bo & NO_COUNT else (0, 1, 2):
                    for link in (0, 1):
                        bi = draws.below(32)
                        put_condition(code, bi, holds)
                        put_tried(code, branch, bo, bi, count, link, draws.below(4))


def put_jumps(code: ppc.Code) -> None:
    """b and bl, forward and backward, to relative and to absolute addresses, and bcl to the next word."""
    for link in (0, 1):
        for absolute in (0, 1):
            code.put(ppc.mtspr(ppc.LR, ONES), ppc.li(TAKEN, 0), ppc.mfspr(ppc.CTR, COUNT))
            base = code.here if absolute else 0
            # Over two words, with LR kept; back to the first of them; and on.
            code.put(ppc.i_form(base + 12 if absolute else 12, absolute, link))
            code.put(ppc.addi(TAKEN, TAKEN, 1), ppc.i_form(20))
            code.put(ppc.addi(TAKEN, TAKEN, 2), ppc.mfspr(ppc.LR, LINK), ppc.stwu(LINK, 4, STORED))
            code.put(ppc.i_form(base + 4 if absolute else -20, absolute, link))
            code.put(ppc.mfspr(ppc.LR, LINK))
            code.branch("keep", link=1)
    code.put(ppc.li(TAKEN, 7), ppc.b_form(20, 31, 4, 0, 1), ppc.mfspr(ppc.LR, LINK))
    code.branch("keep", link=1)


def put_loops(code: ppc.Code) -> None:
    """A loop in a loop, both counted by CTR, and one that a comparison ends."""
    code.put(ppc.li(3, 0), ppc.li(4, 5))
    code.mark("outer")
    code.put(ppc.mtspr(ppc.CTR, 4))
    code.mark("inner")
    code.put(ppc.x_form(ppc.ARITHMETIC["add"], 3, 3, 4))
    code.branch_if(16, 0, "inner")
    put_keep(code, 3)
    code.put(ppc.addi(4, 4, -1), ppc.d_form(ppc.COMPARE_IMMEDIATE["cmpi"], 6 << 2, 4, 0))
    code.branch_if(4, 26, "outer")
    # 27 by the rule of 3 n + 1: 111 turns to 1.
    code.put(ppc.li(3, 27), ppc.li(4, 0))
    code.mark("collatz")
    code.put(ppc.addi(4, 4, 1), ppc.d_form(ppc.LOGIC_IMMEDIATE["andi."], 3, 5, 1))
    code.branch_if(12, 2, "even")
    code.put(ppc.d_form(ppc.ADD_IMMEDIATE["mulli"], 3, 3, 3), ppc.addi(3, 3, 1))
    code.branch("turned")
    code.mark("even")
    code.put(ppc.srawi(3, 3, 1))
    code.mark("turned")
    code.put(ppc.d_form(ppc.COMPARE_IMMEDIATE["cmpi"], 1 << 2, 3, 1))
    code.branch_if(4, 6, "collatz")
    put_keep(code, 3, 4)


def put_calls(code: ppc.Code) -> None:
    """Calls by bl, by bcctrl through a table of addresses, and by bclrl back and forth between two places."""
    code.load_word(2, OUTPUT + OUTPUT_SIZE)
    for number in range(1, 13):
        code.put(ppc.li(3, number))
        code.branch("factorial", link=1)
        put_keep(code, 3, 4)
    for name in ("double", "factorial"):
        code.load_word(5, code.marks[name])
        code.put(ppc.mtspr(ppc.CTR, 5), ppc.li(3, 10), ppc.xl_form(ppc.TO_CTR, 20, 0, 0, 1))
        put_keep(code, 3, 4)
    # Three exchanges: each bclrl leads to where the last one stood, and leaves its own place behind.
    exchange = ppc.xl_form(ppc.TO_LR, 20, 0, 0, 1)
    code.branch("partner", link=1)
    for number in (1, 2, 3):
        code.put(ppc.li(3, number))
        put_keep(code, 3)
        code.put(exchange)
    code.branch("exchanged")
    code.mark("partner")
    for number in (11, 12, 13):
        code.put(exchange, ppc.li(3, number))
        put_keep(code, 3)
    code.put(exchange)
    code.mark("exchanged")
    code.put(ppc.mfspr(ppc.LR, 3))
    put_keep(code, 3)


def put_traps(code: ppc.Code) -> None:
    """tw and twi under each TO that names no comparison that holds of the operands."""
    pairs = ((1, 2), (2, 1), (3, 3), (WORD, 1), (1, WORD), (0x80000000, 0x7FFF), (0x7FFF, 0x80000000), (WORD, WORD - 1))
    code.put(ppc.li(5, 0))
    for first, second in pairs:
        code.load_word(3, first)
        code.load_word(4, second)
        signed_less = (first ^ 0x80000000) < (second ^ 0x80000000)
        held = 4 if first == second else (16 if signed_less else 8) | (2 if first < second else 1)
        as_immediate = (second & 0xFFFF ^ 0x8000) - 0x8000 & WORD == second
        for to in range(32):
            if to & held == 0:
                code.put(ppc.tw(to, 3, 4), ppc.addi(5, 5, 1))
                if as_immediate:
                    code.put(ppc.twi(to, 3, second), ppc.addi(5, 5, 1))
        put_keep(code, 5)


def put_fields(code: ppc.Code) -> None:
    """mcrf of each field to each, mtcrf under each mask, and logic of bits of CR, also of bits that are the same."""
    draws = Draws(10)
    code.load_word(9, 0x01234567)
    code.load_word(10, 0x89ABCDEF)
    for to in range(8):
        for field in range(8):
            code.put(ppc.mtcrf(255, 9 + draws.below(2)), ppc.mcrf(to, field))
            put_keep_cr(code)
    for fields in range(256):
        code.put(ppc.mtcrf(255, ONES if fields % 2 else ZERO), ppc.mtcrf(fields, 9 + draws.below(2)))
        put_keep_cr(code)
    for number in ppc.CR_LOGIC.values():
        for count in range(12):
            d, a, b = draws.below(32), draws.below(32), draws.below(32)
            d, a, b = ((d, a, b), (d, a, a), (d, d, b), (d, a, d))[count % 4]
            code.load_word(3, draws.any_word())
            code.put(ppc.mtcrf(255, 3), ppc.xl_form(number, d, a, b))
            put_keep_cr(code)


def flow() -> bytes:
    code = ppc.Code(CODE + headers_size(2))
    code.load_word(STORED, OUTPUT - 4)
    code.load_word(ONES, WORD)
    code.load_word(ZERO, 0)
    code.branch("begin")
    put_routines(code)
    code.mark("begin")
    put_branches(code)
    put_jumps(code)
    put_loops(code)
    put_calls(code)
    put_traps(code)
    put_fields(code)
    code.write_up_to(1, OUTPUT, STORED)
    code.call(ppc.EXIT_GROUP, 24)
    return elf(
        POWERPC,
        code.at,
        [Segment(code.at, code.data(), READ | EXECUTE), Segment(OUTPUT, b"", READ | WRITE, OUTPUT_SIZE)],
    )
