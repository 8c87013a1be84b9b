"""IA-32 ops in the one spelling that the project's profile has for each, and code made of them.

Source: Intel SDM, volume 2: sections 2.1.3 and 2.1.5 (ModRM, SIB and displacements), chapters 3 to 5 (the ops), and
appendix B (condition codes). Displacements, immediates and distances always have 32 bits here.
"""

from dataclasses import dataclass
from typing import Union

EAX, ECX, EDX, EBX, ESI, EDI = 0, 1, 2, 3, 6, 7
REGISTERS = (EAX, ECX, EDX, EBX, ESI, EDI)
# al, cl and dl.
BYTE_REGISTERS = (EAX, ECX, EDX)

# Numbers of the middle of ModRM, and of condition codes.
ALU = {"add": 0, "or": 1, "adc": 2, "sbb": 3, "and": 4, "sub": 5, "xor": 6, "cmp": 7}
SHIFT = {"rol": 0, "ror": 1, "shl": 4, "shr": 5, "sar": 7}
UNARY = {"not": 2, "neg": 3, "mul": 4, "imul1": 5, "div": 6, "idiv": 7}
EXTEND = {"movzx8": 0xB6, "movzx16": 0xB7, "movsx8": 0xBE, "movsx16": 0xBF}
CONDITIONS = {
    "b": 2, "ae": 3, "e": 4, "ne": 5, "be": 6, "a": 7, "s": 8, "ns": 9, "l": 12, "ge": 13, "le": 14, "g": 15,
}  # fmt: skip

# The numbers of the system calls that the samples make: Linux, arch/x86/entry/syscalls/syscall_32.tbl.
EXIT, SYS_READ, SYS_WRITE, SYS_CLOSE, EXIT_GROUP = 1, 3, 4, 6, 252


@dataclass(frozen=True)
class Reg:
    number: int


@dataclass(frozen=True)
class Abs:
    address: int


@dataclass(frozen=True)
class Base:
    base: int
    displacement: int


@dataclass(frozen=True)
class Pair:
    """The sum of a base, an index shifted by `shift`, and a displacement."""

    base: int
    index: int
    shift: int
    displacement: int


Operand = Union[Reg, Abs, Base, Pair]


def dword(value: int) -> bytes:
    return (value & 0xFFFFFFFF).to_bytes(4, "little")


def modrm(middle: int, operand: Operand) -> bytes:
    """ModRM with a number in its middle, and the SIB byte and displacement of its operand."""
    if isinstance(operand, Reg):
        return bytes([3 << 6 | middle << 3 | operand.number])
    if isinstance(operand, Abs):
        return bytes([middle << 3 | 5]) + dword(operand.address)
    if isinstance(operand, Base):
        return bytes([2 << 6 | middle << 3 | operand.base]) + dword(operand.displacement)
    sib = operand.shift << 6 | operand.index << 3 | operand.base
    return bytes([2 << 6 | middle << 3 | 4, sib]) + dword(operand.displacement)


def alu_to(op: str, to: Operand, source: int) -> bytes:
    """A register into a register or memory."""
    return bytes([ALU[op] * 8 + 1]) + modrm(source, to)


def alu_from(op: str, to: int, source: Operand) -> bytes:
    """Memory into a register."""
    return bytes([ALU[op] * 8 + 3]) + modrm(to, source)


def alu_immediate(op: str, to: Operand, immediate: int) -> bytes:
    return b"\x81" + modrm(ALU[op], to) + dword(immediate)


def test(a: Operand, b: int) -> bytes:
    return b"\x85" + modrm(b, a)


def test_immediate(a: Operand, immediate: int) -> bytes:
    return b"\xf7" + modrm(0, a) + dword(immediate)


def unary(op: str, on: Operand) -> bytes:
    return b"\xf7" + modrm(UNARY[op], on)


def imul(to: int, source: Operand) -> bytes:
    return b"\x0f\xaf" + modrm(to, source)


def mov_to(to: Operand, source: int) -> bytes:
    return b"\x89" + modrm(source, to)


def mov_from(to: int, source: Operand) -> bytes:
    return b"\x8b" + modrm(to, source)


def mov_immediate(to: int, immediate: int) -> bytes:
    return bytes([0xB8 + to]) + dword(immediate)


def mov_to_immediate(to: Operand, immediate: int) -> bytes:
    return b"\xc7" + modrm(0, to) + dword(immediate)


def mov_half_to(to: Operand, source: int) -> bytes:
    return b"\x66\x89" + modrm(source, to)


def mov_byte_to(to: Operand, source: int) -> bytes:
    return b"\x88" + modrm(source, to)


def mov_byte_from(to: int, source: Operand) -> bytes:
    return b"\x8a" + modrm(to, source)


def shift(op: str, to: Operand, count: int) -> bytes:
    return b"\xc1" + modrm(SHIFT[op], to) + bytes([count])


def shift_by_cl(op: str, to: Operand) -> bytes:
    return b"\xd3" + modrm(SHIFT[op], to)


def lea(to: int, source: Operand) -> bytes:
    return b"\x8d" + modrm(to, source)


def extend(op: str, to: int, source: Operand) -> bytes:
    return bytes([0x0F, EXTEND[op]]) + modrm(to, source)


def bswap(register: int) -> bytes:
    return bytes([0x0F, 0xC8 + register])


def setcc(condition: str, to: Operand) -> bytes:
    return bytes([0x0F, 0x90 + CONDITIONS[condition]]) + modrm(0, to)


def cmovcc(condition: str, to: int, source: Operand) -> bytes:
    return bytes([0x0F, 0x40 + CONDITIONS[condition]]) + modrm(to, source)


def bsr(to: int, source: Operand) -> bytes:
    return b"\x0f\xbd" + modrm(to, source)


def jcc(condition: str, distance: int) -> bytes:
    """Counted from the next op's address, as for jmp."""
    return bytes([0x0F, 0x80 + CONDITIONS[condition]]) + dword(distance)


def jmp(distance: int) -> bytes:
    return b"\xe9" + dword(distance)


def jmp_operand(to: Operand) -> bytes:
    return b"\xff" + modrm(4, to)


CDQ, INT80 = b"\x99", b"\xcd\x80"


class Code:
    """Ops from an address on."""

    def __init__(self, at: int) -> None:
        self.at = at
        self.bytes = bytearray()

    @property
    def here(self) -> int:
        return self.at + len(self.bytes)

    def put(self, *ops: bytes) -> None:
        for op in ops:
            self.bytes += op

    def jump(self, target: int) -> None:
        self.put(jmp(target - (self.here + len(jmp(0)))))

    def jump_if(self, condition: str, target: int) -> None:
        self.put(jcc(condition, target - (self.here + len(jcc(condition, 0)))))

    def call(self, number: int, first: int, second: int = 0, third: int = 0) -> None:
        """A system call with these arguments."""
        for register, value in ((EAX, number), (EBX, first), (ECX, second), (EDX, third)):
            self.put(mov_immediate(register, value))
        self.put(INT80)
