"""PowerPC words, and code made of them.

Source: Power ISA, Book I, the instructions of 32-bit implementations: section 1.6 (forms), chapter 2 (branches,
system call, logic of CR) and chapter 3 (loads, stores, arithmetic, logic, shifts, compares, traps, moves). Bit 0 is
a word's highest bit.
"""

# Primary opcodes of the D form: rD or rS, rA, immediate.
ADD_IMMEDIATE = {"addi": 14, "addis": 15, "addic": 12, "addic.": 13, "subfic": 8, "mulli": 7}
LOGIC_IMMEDIATE = {"ori": 24, "oris": 25, "xori": 26, "xoris": 27, "andi.": 28, "andis.": 29}
COMPARE_IMMEDIATE = {"cmpi": 11, "cmpli": 10}
LOAD = {"lwz": 32, "lbz": 34, "lhz": 40, "lha": 42}
LOAD_UPDATE = {"lwzu": 33, "lbzu": 35, "lhzu": 41, "lhau": 43}
STORE = {"stw": 36, "stb": 38, "sth": 44}
STORE_UPDATE = {"stwu": 37, "stbu": 39, "sthu": 45}
MULTIPLE = {"lmw": 46, "stmw": 47}

# Extended opcodes of the X and XO forms under the primary opcode 31.
ARITHMETIC = {
    "add": 266, "addc": 10, "adde": 138, "subf": 40, "subfc": 8, "subfe": 136,
    "mullw": 235, "mulhw": 75, "mulhwu": 11, "divw": 491, "divwu": 459,
}  # fmt: skip
ARITHMETIC_OF_ONE = {"addze": 202, "addme": 234, "subfze": 200, "subfme": 232, "neg": 104}
LOGIC = {"and": 28, "or": 444, "xor": 316, "nand": 476, "nor": 124, "eqv": 284, "andc": 60, "orc": 412}
SHIFT = {"slw": 24, "srw": 536, "sraw": 792}
LOGIC_OF_ONE = {"cntlzw": 26, "extsb": 954, "extsh": 922}
COMPARE = {"cmp": 0, "cmpl": 32}
LOAD_INDEXED = {"lwzx": 23, "lbzx": 87, "lhzx": 279, "lhax": 343, "lwbrx": 534, "lhbrx": 790}
LOAD_INDEXED_UPDATE = {"lwzux": 55, "lbzux": 119, "lhzux": 311, "lhaux": 375}
STORE_INDEXED = {"stwx": 151, "stbx": 215, "sthx": 407, "stwbrx": 662, "sthbrx": 918}
STORE_INDEXED_UPDATE = {"stwux": 183, "stbux": 247, "sthux": 439}

# Extended opcodes under the primary opcode 19.
CR_LOGIC = {
    "crand": 257, "cror": 449, "crxor": 193, "crnand": 225, "crnor": 33, "creqv": 289, "crandc": 129, "crorc": 417,
}  # fmt: skip
TO_LR, TO_CTR = 16, 528

# Primary opcodes of the M form.
ROTATE_BY_IMMEDIATE = {"rlwinm": 21, "rlwimi": 20}
ROTATE = {"rlwnm": 23}

XER, LR, CTR = 1, 8, 9
SYNC, ISYNC, SC = 0x7C0004AC, 0x4C00012C, 0x44000002

# The bits of XER: SO, OV, CA, and the seven of the count.
XER_BITS = 0xE000007F


def d_form(opcode: int, d: int, a: int, immediate: int) -> int:
    return opcode << 26 | d << 21 | a << 16 | immediate & 0xFFFF


def x_form(number: int, d: int, a: int, b: int, record: int = 0) -> int:
    return 31 << 26 | d << 21 | a << 16 | b << 11 | number << 1 | record


def m_form(opcode: int, s: int, a: int, b: int, mb: int, me: int, record: int = 0) -> int:
    return opcode << 26 | s << 21 | a << 16 | b << 11 | mb << 6 | me << 1 | record


def xl_form(number: int, d: int, a: int, b: int, link: int = 0) -> int:
    return 19 << 26 | d << 21 | a << 16 | b << 11 | number << 1 | link


def b_form(bo: int, bi: int, target: int, absolute: int = 0, link: int = 0) -> int:
    return 16 << 26 | bo << 21 | bi << 16 | target & 0xFFFC | absolute << 1 | link


def i_form(target: int, absolute: int = 0, link: int = 0) -> int:
    return 18 << 26 | target & 0x3FFFFFC | absolute << 1 | link


def srawi(s: int, a: int, amount: int, record: int = 0) -> int:
    return x_form(824, s, a, amount, record)


def mtspr(special: int, s: int) -> int:
    return x_form(467, s, special & 31, special >> 5)


def mfspr(special: int, d: int) -> int:
    return x_form(339, d, special & 31, special >> 5)


def mtcrf(fields: int, s: int) -> int:
    return 31 << 26 | s << 21 | fields << 12 | 144 << 1


def mfcr(d: int) -> int:
    return x_form(19, d, 0, 0)


def mcrf(to: int, field: int) -> int:
    return xl_form(0, to << 2, field << 2, 0)


def tw(to: int, a: int, b: int) -> int:
    return x_form(4, to, a, b)


def twi(to: int, a: int, immediate: int) -> int:
    return d_form(3, to, a, immediate)


def addi(d: int, a: int, immediate: int) -> int:
    return d_form(ADD_IMMEDIATE["addi"], d, a, immediate)


def li(d: int, value: int) -> int:
    return addi(d, 0, value)


def lwzu(d: int, displacement: int, a: int) -> int:
    return d_form(LOAD_UPDATE["lwzu"], d, a, displacement)


def stwu(s: int, displacement: int, a: int) -> int:
    return d_form(STORE_UPDATE["stwu"], s, a, displacement)


def mr(a: int, s: int) -> int:
    return x_form(LOGIC["or"], s, a, s)


BLR = xl_form(TO_LR, 20, 0, 0)

# The numbers of the system calls that the samples make: Linux, arch/powerpc/kernel/syscalls/syscall.tbl.
EXIT, SYS_READ, SYS_WRITE, SYS_CLOSE, EXIT_GROUP = 1, 3, 4, 6, 234


class Code:
    """Words from an address on, with branches to marks that may stand further on."""

    def __init__(self, at: int) -> None:
        self.at = at
        self.words: list[int] = []
        self.marks: dict[str, int] = {}
        self.waiting: list[tuple[int, str]] = []

    @property
    def here(self) -> int:
        return self.at + 4 * len(self.words)

    def put(self, *words: int) -> None:
        self.words += words

    def mark(self, name: str) -> None:
        self.marks[name] = self.here

    def branch(self, name: str, link: int = 0) -> None:
        self.waiting.append((len(self.words), name))
        self.put(i_form(0, 0, link))

    def branch_if(self, bo: int, bi: int, name: str, link: int = 0) -> None:
        self.waiting.append((len(self.words), name))
        self.put(b_form(bo, bi, 0, 0, link))

    def load_word(self, d: int, value: int) -> None:
        """addis and ori: any word into a register."""
        self.put(d_form(ADD_IMMEDIATE["addis"], d, 0, value >> 16), d_form(LOGIC_IMMEDIATE["ori"], d, d, value))

    def call(self, number: int, first: int, second: int = 0, third: int = 0) -> None:
        """A system call with these arguments."""
        self.put(li(0, number))
        for register, value in ((3, first), (4, second), (5, third)):
            self.load_word(register, value)
        self.put(SC)

    def write_up_to(self, file: int, start: int, last: int) -> None:
        """Writes the words from `start` on to a file, up to the one whose address the register `last` holds."""
        self.load_word(4, start)
        self.put(addi(5, last, 4), x_form(ARITHMETIC["subf"], 5, 4, 5), li(0, SYS_WRITE), li(3, file), SC)

    def data(self) -> bytes:
        """The bytes; each waiting branch gets its distance."""
        words = list(self.words)
        for place, name in self.waiting:
            distance = self.marks[name] - (self.at + 4 * place)
            words[place] |= distance & (0x3FFFFFC if words[place] >> 26 == 18 else 0xFFFC)
        return b"".join(word.to_bytes(4, "big") for word in words)
