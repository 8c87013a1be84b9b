"""calls.ppc: reads up to the end of the input and behind it, writes to files 1 and 2, closes, and calls that fail.

Behind each call the program stores r3 and CR0's SO, which it had set the other way before. It writes what it read,
and at its end what it stored, to file 1, and part of its input to file 2. It exits with a number above 255.
"""

import ppc
from draws import Draws
from elf import EXECUTE, POWERPC, READ, WRITE, Segment, elf, headers_size

CODE, DATA = 0x10000000, 0x10200000
BUFFER, LOG, DATA_SIZE = DATA, DATA + 0x1000, 0x2000

STORED, TOTAL = 1, 30

# No file has these numbers: Linux has error 9, EBADF.
NO_FILES = (77, 3000, 0x80000000, 0xFFFFFFFF)


def text() -> bytes:
    """The program's input: 500 bytes of every kind."""
    draws = Draws(11)
    return bytes(draws.below(256) for _ in range(500))


def put_outcome(code: ppc.Code) -> None:
    """Stores r3 and CR0's SO, which is bit 3 of CR."""
    code.put(ppc.mfcr(6), ppc.m_form(ppc.ROTATE_BY_IMMEDIATE["rlwinm"], 6, 6, 4, 31, 31))
    code.put(ppc.stwu(3, 4, STORED), ppc.stwu(6, 4, STORED))


def put_tried(code: ppc.Code, fails: bool, number: int, file: int, start: int = 0, count: int = 0) -> None:
    """A call with SO as it isn't to be afterwards, by creqv or crxor of the bit with itself."""
    code.put(ppc.xl_form(ppc.CR_LOGIC["crxor" if fails else "creqv"], 3, 3, 3))
    code.call(number, file, start, count)
    put_outcome(code)


def put_drain(code: ppc.Code) -> None:
    """Reads 48 bytes at a time and writes what came to file 2, until nothing comes."""
    code.mark("drain")
    put_tried(code, False, ppc.SYS_READ, 0, BUFFER + 0x200, 48)
    code.put(ppc.d_form(ppc.COMPARE_IMMEDIATE["cmpi"], 0, 3, 0))
    code.branch_if(12, 2, "drained")
    code.put(ppc.x_form(ppc.ARITHMETIC["add"], TOTAL, TOTAL, 3))
    code.put(ppc.mr(5, 3), ppc.li(0, ppc.SYS_WRITE), ppc.li(3, 2), ppc.SC)
    put_outcome(code)
    code.branch("drain")
    code.mark("drained")


def calls() -> bytes:
    code = ppc.Code(CODE + headers_size(2))
    code.load_word(STORED, LOG - 4)
    code.load_word(TOTAL, 0)
    read_before = 0
    for count in (5, 0, 1, 64, 130):
        put_tried(code, False, ppc.SYS_READ, 0, BUFFER + read_before, count)
        read_before += count
    put_tried(code, False, ppc.SYS_WRITE, 1, BUFFER + 3, 100)
    put_tried(code, False, ppc.SYS_WRITE, 2, BUFFER + 150, 7)
    put_tried(code, False, ppc.SYS_WRITE, 1, BUFFER, 0)
    for file in NO_FILES:
        put_tried(code, True, ppc.SYS_WRITE, file, BUFFER, 5)
        put_tried(code, True, ppc.SYS_READ, file, BUFFER, 5)
        put_tried(code, True, ppc.SYS_CLOSE, file)
    put_drain(code)
    put_tried(code, False, ppc.SYS_READ, 0, BUFFER + 0x400, 1)
    put_tried(code, False, ppc.SYS_CLOSE, 0)
    put_tried(code, False, ppc.SYS_CLOSE, 2)
    code.put(ppc.stwu(TOTAL, 4, STORED))
    code.call(ppc.SYS_WRITE, 1, BUFFER, 0x500)
    code.write_up_to(1, LOG, STORED)
    # r3 is 0 behind the close.
    put_tried(code, False, ppc.SYS_CLOSE, 1)
    code.put(ppc.addi(3, 3, 1000), ppc.li(0, ppc.EXIT_GROUP), ppc.SC)
    return elf(
        POWERPC,
        code.at,
        [Segment(code.at, code.data(), READ | EXECUTE), Segment(DATA, b"", READ | WRITE, DATA_SIZE)],
    )
