"""The programs of samples/worked: a few words each, for one thing that a translation has to keep."""

import ppc
from elf import EXECUTE, GNU_STACK, POWERPC, READ, WRITE, Segment, elf, headers_size

CODE, DATA = 0x10000000, 0x10010000

ADDIS = ppc.ADD_IMMEDIATE["addis"]
HELLO = b"hello\0\0\0"
LEAVE = (ppc.li(0, ppc.EXIT), ppc.SC)
CR0_ZERO = 2


def words(*all_words: int) -> bytes:
    return b"".join(word.to_bytes(4, "big") for word in all_words)


def program(code: bytes, *data: Segment) -> bytes:
    """The file of this code, which begins at its first word."""
    return elf(POWERPC, CODE, [Segment(CODE, code, READ | EXECUTE), *data])


def write_hello(then: tuple[int, ...]) -> bytes:
    """Writes the text that stands behind the code to file 1, goes on with these words, and exits with 0."""
    behind = CODE + 4 * (9 + len(then))
    return words(
        *(ppc.li(0, ppc.SYS_WRITE), ppc.li(3, 1)),
        *(ppc.d_form(ADDIS, 4, 0, behind >> 16), ppc.addi(4, 4, behind), ppc.li(5, 5), ppc.SC),
        *then,
        *(ppc.li(0, ppc.EXIT), ppc.li(3, 0), ppc.SC),
    ) + HELLO


def hello() -> bytes:
    return program(write_hello(()))


def store_to_code() -> bytes:
    """Writes, and then stores to its own first word."""
    return program(write_hello((ppc.d_form(ppc.STORE["stw"], 3, 4, -40),)))


def echo() -> bytes:
    """Reads up to four bytes onto the stack, writes what came, and exits with 0."""
    return program(
        words(
            *(ppc.li(0, ppc.SYS_READ), ppc.li(3, 0), ppc.mr(4, 1), ppc.li(5, 4), ppc.SC),
            *(ppc.mr(5, 3), ppc.li(0, ppc.SYS_WRITE), ppc.li(3, 1), ppc.SC),
            *(ppc.li(0, ppc.EXIT), ppc.li(3, 0), ppc.SC),
        )
    )


def load_across(displacement: int) -> bytes:
    """Loads a word from two segments of three and two bytes, of which the second begins where the first ends; writes
    it, and exits with 0."""
    return program(
        words(
            *(ppc.d_form(ADDIS, 4, 0, DATA >> 16), ppc.d_form(ppc.LOAD["lwz"], 3, 4, displacement)),
            *(ppc.d_form(ppc.STORE["stw"], 3, 1, 0), ppc.mr(4, 1), ppc.li(5, 4)),
            *(ppc.li(0, ppc.SYS_WRITE), ppc.li(3, 1), ppc.SC),
            *(ppc.li(0, ppc.EXIT), ppc.li(3, 0), ppc.SC),
        ),
        Segment(DATA, bytes.fromhex("001122"), READ),
        Segment(DATA + 3, bytes.fromhex("3344"), READ),
    )


def into_block() -> bytes:
    """Goes on, by CTR, at the fifth of ten words in a row, of which each but the last two adds 1 to r3."""
    code = ppc.Code(CODE)
    code.put(ppc.li(3, 0))
    code.load_word(4, CODE + 4 * 9)
    code.put(ppc.mtspr(ppc.CTR, 4), ppc.xl_form(ppc.TO_CTR, 20, 0, 0))
    code.put(*[ppc.addi(3, 3, 1)] * 8, *LEAVE)
    return program(code.data())


def illegal() -> bytes:
    return program(words(0))


def trap() -> bytes:
    return program(words(ppc.tw(31, 0, 0)))


def illegal_behind_sync() -> bytes:
    return program(words(ppc.SYNC, 0))


def words_behind_exit() -> bytes:
    """Exits with 7; an illegal word and a trap that are never reached stand behind."""
    return program(words(ppc.li(0, ppc.EXIT), ppc.li(3, 7), ppc.SC, 0, ppc.tw(31, 0, 0)))


def writable_code(*then: int) -> bytes:
    """r4 is the address of a segment that may be written and executed, whose words exit with 9."""
    start = words(ppc.d_form(ADDIS, 4, 0, DATA >> 16), *then)
    inside = words(ppc.li(3, 9), *LEAVE)
    return program(start, Segment(DATA, inside, READ | WRITE | EXECUTE))


def store_to_writable_code() -> bytes:
    """Stores 6 there, loads it and exits with it."""
    return writable_code(
        *(ppc.li(5, 6), ppc.d_form(ppc.STORE["stw"], 5, 4, 4), ppc.d_form(ppc.LOAD["lwz"], 3, 4, 4)), *LEAVE
    )


def jump_to_writable_code() -> bytes:
    """Goes there: its words are data, so this is outside."""
    return writable_code(ppc.mtspr(ppc.CTR, 4), ppc.xl_form(ppc.TO_CTR, 20, 0, 0))


def thousand_calls(at: int) -> ppc.Code:
    """Calls a function 1000 times, which adds 3 to r3 and keeps LR on the stack meanwhile; exits with 3000."""
    code = ppc.Code(at)
    code.put(ppc.li(31, 1000), ppc.li(3, 0))
    code.mark("again")
    code.branch("function", link=1)
    code.put(ppc.d_form(ppc.ADD_IMMEDIATE["addic."], 31, 31, -1))
    code.branch_if(4, CR0_ZERO, "again")
    code.put(*LEAVE)
    code.mark("function")
    code.put(ppc.stwu(1, -16, 1), ppc.mfspr(ppc.LR, 0), ppc.d_form(ppc.STORE["stw"], 0, 1, 20))
    code.put(ppc.addi(3, 3, 3))
    code.put(ppc.d_form(ppc.LOAD["lwz"], 0, 1, 20), ppc.mtspr(ppc.LR, 0), ppc.addi(1, 1, 16), ppc.BLR)
    return code


def calls() -> bytes:
    return program(thousand_calls(CODE).data())


def linked_calls() -> bytes:
    """The same as a linker lays it out: the headers in the code segment, data, and the stack's header."""
    code = thousand_calls(CODE + headers_size(3))
    return elf(
        POWERPC,
        code.at,
        [
            Segment(code.at, code.data(), READ | EXECUTE, headers=True),
            Segment(DATA, b"", READ | WRITE, 4096),
            Segment(0, b"", READ | WRITE, type=GNU_STACK),
        ],
    )


PROGRAMS = {
    "hello.ppc": hello,
    "store_to_code.ppc": store_to_code,
    "echo.ppc": echo,
    "echo_of_nothing.ppc": echo,
    "load_across.ppc": lambda: load_across(1),
    "load_beyond.ppc": lambda: load_across(2),
    "into_block.ppc": into_block,
    "illegal.ppc": illegal,
    "trap.ppc": trap,
    "illegal_behind_sync.ppc": illegal_behind_sync,
    "words_behind_exit.ppc": words_behind_exit,
    "store_to_writable_code.ppc": store_to_writable_code,
    "jump_to_writable_code.ppc": jump_to_writable_code,
    "calls.ppc": calls,
    "linked_calls.ppc": linked_calls,
}
INPUTS = {"echo.ppc": b"hi"}

# These end at an access outside, where a kernel gives a program the rest of the page, and lets it run what it may
# write. Nothing is written before.
ENDING_OUTSIDE = ("load_beyond.ppc", "jump_to_writable_code.ppc")
