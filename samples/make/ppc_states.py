"""states.ppc: the registers behind single words, for chosen registers before them.

For each vector the program loads CR, XER, r3, r4, r5, CTR and LR from a table, runs one word, and stores r3, r4,
r5, CR, XER, LR and CTR behind one another. Then it runs words that name every register, and stores all of them. At
its end it writes all that was stored to file 1.
"""

from dataclasses import dataclass
from pathlib import Path

import ppc
from draws import WORD, Draws
from elf import EXECUTE, POWERPC, READ, WRITE, Segment, elf, headers_size

CODE, DATA, OUTPUT = 0x10000000, 0x10200000, 0x10400000

# r0 holds this during each word, to be read as an operand.
CONSTANT = 0xC3A50FF1

# Vectors of each row, besides those of ppc_states.txt.
DRAWN = 6

TABLE, STORED, SCRATCH, OTHER = 1, 2, 6, 7


@dataclass(frozen=True)
class Vector:
    """A word, and the registers before it."""

    word: int
    r3: int
    r4: int
    r5: int
    cr: int
    xer: int
    lr: int
    ctr: int

    def row(self) -> bytes:
        """In the order in which the program loads them."""
        values = (self.cr, self.xer, self.r3, self.r4, self.r5, self.ctr, self.lr)
        return b"".join(value.to_bytes(4, "big") for value in values)


def stored_vectors() -> list[Vector]:
    """Those of ppc_states.txt."""
    lines = (Path(__file__).parent / "ppc_states.txt").read_text().splitlines()
    return [Vector(*(int(field, 16) for field in line.split())) for line in lines if line[0] != "#"]


def drawn(draws: Draws, word: int, r: dict[int, int]) -> Vector:
    """A vector whose other registers are drawn."""
    xer = draws.any_word() & ppc.XER_BITS
    return Vector(word, r[3], r[4], r[5], draws.any_word(), xer, draws.word(), draws.word())


def arithmetic_vectors(draws: Draws) -> list[Vector]:
    """Sums, differences, products and logic of registers, with one operand or two. Divisions whose result the
    standard leaves undefined are left out."""
    vectors = []
    rows = {**ppc.ARITHMETIC, **ppc.ARITHMETIC_OF_ONE, **ppc.LOGIC, **ppc.LOGIC_OF_ONE}
    for name, number in rows.items():
        for count in range(2 * DRAWN):
            d, a, b = (draws.among((3, 4, 5)) for _ in range(3))
            a, b = (draws.among((register, register, register, 0)) for register in (a, b))
            r = {0: CONSTANT, 3: draws.word(), 4: draws.word(), 5: draws.word()}
            first, second = draws.pair()
            r.update({register: value for register, value in ((a, first), (b, second)) if register})
            if name in ("divw", "divwu"):
                while r[b] == 0 or (r[a], r[b]) == (0x80000000, WORD):
                    r[b] = draws.among((1, 2, 3, 7, 0x7FFFFFFF, 0x80000000, WORD, draws.word()))
            one = name in ppc.ARITHMETIC_OF_ONE or name in ppc.LOGIC_OF_ONE
            # In logic the result goes to rA, and the first operand stands in rD's place.
            logic = name in ppc.LOGIC or name in ppc.LOGIC_OF_ONE
            places = (a, d) if logic else (d, a)
            word = ppc.x_form(number, *places, 0 if one else b, count % 2)
            vectors.append(drawn(draws, word, r))
    return vectors


def immediate_vectors(draws: Draws) -> list[Vector]:
    """Arithmetic, logic and compares with immediates. With rA = 0, addi and addis take the number 0."""
    vectors = []
    for name, opcode in {**ppc.ADD_IMMEDIATE, **ppc.LOGIC_IMMEDIATE, **ppc.COMPARE_IMMEDIATE}.items():
        for count in range(DRAWN):
            d, a = draws.among((3, 4, 5)), draws.among((3, 4, 5))
            if name in ppc.ADD_IMMEDIATE and count == 0:
                a = 0
            r = {3: draws.word(), 4: draws.word(), 5: draws.word()}
            immediate = draws.word() & 0xFFFF
            if name in ppc.COMPARE_IMMEDIATE:
                d = draws.below(8) << 2
                r[a] = draws.among((r[a], immediate, immediate | 0xFFFF0000))
            places = (a, d) if name in ppc.LOGIC_IMMEDIATE else (d, a)
            vectors.append(drawn(draws, ppc.d_form(opcode, *places, immediate), r))
    return vectors


def compare_vectors(draws: Draws) -> list[Vector]:
    vectors = []
    for number in ppc.COMPARE.values():
        for _ in range(2 * DRAWN):
            a, b = draws.among(((3, 4), (4, 5), (5, 3), (4, 4)))
            r = {3: draws.word(), 4: draws.word(), 5: draws.word()}
            r[a], r[b] = draws.pair()
            vectors.append(drawn(draws, ppc.x_form(number, draws.below(8) << 2, a, b), r))
    return vectors


def shift_vectors(draws: Draws) -> list[Vector]:
    """Shifts by registers, with amounts about each bound, and srawi."""
    vectors = []
    amounts = (0, 1, 15, 31, 32, 33, 63, 64, 0x80000007, 0xFFFFFFFF, 0xFFFFFF9F)
    for number in ppc.SHIFT.values():
        for count, amount in enumerate(amounts):
            s, a, b = draws.among(((3, 4, 5), (4, 4, 3), (5, 3, 3), (0, 5, 4)))
            r = {3: draws.word(), 4: draws.word(), 5: draws.word()}
            r[s] = draws.among((0x80000000, 0x80000001, 0xFFFFFFFF, 0x7FFFFFFF, draws.any_word()))
            r[b] = amount
            vectors.append(drawn(draws, ppc.x_form(number, s, a, b, count % 2), r))
    for count, amount in enumerate((0, 1, 4, 8, 16, 30, 31, 31)):
        s, a = draws.among(((3, 4), (4, 4), (5, 3)))
        r = {3: draws.word(), 4: draws.word(), 5: draws.word()}
        r[s] = draws.among((0x80000000, 0x80000001, 0xFFFFFFF0, 0x7FFFFFFF, draws.any_word()))
        vectors.append(drawn(draws, ppc.srawi(s, a, amount, count % 2), r))
    return vectors


def rotate_vectors(draws: Draws) -> list[Vector]:
    """Rotates under masks, also under masks that wrap around and masks of one bit."""
    vectors = []
    masks = ((0, 31), (31, 0), (1, 0), (5, 5), (16, 31), (24, 7), (0, 0), (31, 31), (12, 19), (20, 11))
    for name, opcode in {**ppc.ROTATE_BY_IMMEDIATE, **ppc.ROTATE}.items():
        for count, (mb, me) in enumerate(masks):
            s, a, b = draws.among(((3, 4, 5), (4, 4, 3), (5, 3, 3), (0, 5, 4)))
            r = {3: draws.word(), 4: draws.word(), 5: draws.word()}
            amount = b if name in ppc.ROTATE else draws.among((0, 1, 8, 31, draws.below(32)))
            vectors.append(drawn(draws, ppc.m_form(opcode, s, a, amount, mb, me, count % 2), r))
    return vectors


def move_vectors(draws: Draws) -> list[Vector]:
    """Moves to and from CR, XER, LR and CTR, and logic of CR. XER is given the bits that it has."""
    words = []
    for _ in range(DRAWN):
        words.append(ppc.mcrf(draws.below(8), draws.below(8)))
        words += [ppc.xl_form(number, *(draws.below(32) for _ in range(3))) for number in ppc.CR_LOGIC.values()]
        words.append(ppc.mtcrf(draws.below(256), draws.among((3, 4, 5))))
        words.append(ppc.mfcr(draws.among((3, 4, 5))))
        words += [ppc.mfspr(special, draws.among((3, 4, 5))) for special in (ppc.XER, ppc.LR, ppc.CTR)]
        words += [ppc.mtspr(special, draws.among((3, 4, 5))) for special in (ppc.LR, ppc.CTR)]
    words += [ppc.SYNC, ppc.ISYNC]
    vectors = [drawn(draws, word, {3: draws.word(), 4: draws.word(), 5: draws.word()}) for word in words]
    for _ in range(DRAWN):
        s = draws.among((3, 4, 5))
        r = {3: draws.word(), 4: draws.word(), 5: draws.word()}
        r[s] = draws.any_word() & ppc.XER_BITS
        vectors.append(drawn(draws, ppc.mtspr(ppc.XER, s), r))
    return vectors


def all_vectors() -> list[Vector]:
    draws = Draws(1)
    return (
        stored_vectors()
        + arithmetic_vectors(draws)
        + immediate_vectors(draws)
        + compare_vectors(draws)
        + shift_vectors(draws)
        + rotate_vectors(draws)
        + move_vectors(draws)
    )


def put_load(code: ppc.Code) -> None:
    """A routine: CR, XER, r3, r4 and r5 from the table."""
    code.mark("load")
    code.put(ppc.lwzu(SCRATCH, 4, TABLE), ppc.mtcrf(255, SCRATCH))
    code.put(ppc.lwzu(SCRATCH, 4, TABLE), ppc.mtspr(ppc.XER, SCRATCH))
    code.put(*(ppc.lwzu(register, 4, TABLE) for register in (3, 4, 5)))
    code.put(ppc.BLR)


def put_store(code: ppc.Code) -> None:
    """A routine: what is to be stored, LR and CTR being in registers."""
    code.mark("store")
    code.put(*(ppc.stwu(register, 4, STORED) for register in (3, 4, 5)))
    code.put(ppc.mfcr(8), ppc.stwu(8, 4, STORED))
    code.put(ppc.mfspr(ppc.XER, 8), ppc.stwu(8, 4, STORED))
    code.put(ppc.stwu(SCRATCH, 4, STORED), ppc.stwu(OTHER, 4, STORED))
    code.put(ppc.BLR)


def put_vector(code: ppc.Code, vector: Vector) -> None:
    code.branch("load", link=1)
    code.put(ppc.lwzu(SCRATCH, 4, TABLE), ppc.mtspr(ppc.CTR, SCRATCH))
    code.put(ppc.lwzu(SCRATCH, 4, TABLE), ppc.mtspr(ppc.LR, SCRATCH))
    code.put(vector.word)
    code.put(ppc.mfspr(ppc.LR, SCRATCH), ppc.mfspr(ppc.CTR, OTHER))
    code.branch("store", link=1)


def put_registers(code: ppc.Code, kept: int, last: int) -> None:
    """Words whose fields name every register but `kept`, in each place of theirs, and then all 32 registers stored
    behind the word whose address is `last`."""
    for register in range(32):
        code.load_word(register, last if register == kept else 0x9E3779B9 * (register + 1) & WORD)
    for d in range(32):
        a, b = (d + 7) % 32, (d + 13) % 32
        if kept in (d, a):
            continue
        # Each leaves its result in d or a.
        code.put(
            ppc.x_form(ppc.ARITHMETIC["add"], d, a, b),
            ppc.x_form(ppc.ARITHMETIC["mullw"], a, b, d),
            ppc.x_form(ppc.LOGIC["xor"], b, a, d),
            ppc.x_form(ppc.LOGIC_OF_ONE["extsh"], b, d, 0),
            ppc.x_form(ppc.SHIFT["srw"], a, d, b),
            ppc.srawi(b, a, 3),
            ppc.m_form(ppc.ROTATE_BY_IMMEDIATE["rlwimi"], b, d, 9, 20, 3),
            ppc.m_form(ppc.ROTATE["rlwnm"], a, d, b, 4, 29),
            ppc.mtspr(ppc.CTR, a),
            ppc.mtcrf(255, b),
            ppc.x_form(ppc.COMPARE["cmp"], 5 << 2, a, d),
            ppc.mfcr(d),
            ppc.mfspr(ppc.CTR, a),
            ppc.d_form(ppc.ADD_IMMEDIATE["addic."], d, d, -2),
            ppc.d_form(ppc.LOGIC_IMMEDIATE["xoris"], b, a, 0x8001),
        )
    code.put(ppc.d_form(ppc.MULTIPLE["stmw"], 0, kept, 4))


def program(vectors: list[Vector], status: int) -> bytes:
    """The file of a program that runs the vectors and exits with `status`."""
    table = b"".join(vector.row() for vector in vectors)
    code_at = CODE + headers_size(3)
    of_vectors = 28 * len(vectors)
    stored = of_vectors + 2 * 128

    def code_with(table_at: int) -> ppc.Code:
        code = ppc.Code(code_at)
        code.load_word(0, CONSTANT)
        code.load_word(TABLE, table_at - 4)
        code.load_word(STORED, OUTPUT - 4)
        code.branch("begin")
        put_load(code)
        put_store(code)
        code.mark("begin")
        for vector in vectors:
            put_vector(code, vector)
        put_registers(code, 31, OUTPUT + of_vectors - 4)
        put_registers(code, 2, OUTPUT + of_vectors + 128 - 4)
        code.call(ppc.SYS_WRITE, 1, OUTPUT, stored)
        code.call(ppc.EXIT, status)
        return code

    # The table stands behind the code in the file, and so in its page.
    table_at = DATA + headers_size(3) + len(code_with(DATA).data())
    return elf(
        POWERPC,
        code_at,
        [
            Segment(code_at, code_with(table_at).data(), READ | EXECUTE),
            Segment(table_at, table, READ | WRITE),
            Segment(OUTPUT, b"", READ | WRITE, stored),
        ],
    )


def states() -> bytes:
    return program(all_vectors(), 21)
