"""Writes statically linked 32-bit ELF files.

Source: System V ABI, chapter 4 (object files) and chapter 5 (program loading).
"""

import struct
from dataclasses import dataclass

PAGE = 4096
HEADER = 52
PROGRAM_HEADER = 32

READ, WRITE, EXECUTE = 4, 2, 1
LOADED, GNU_STACK = 1, 0x6474E551
POWERPC, I386 = 20, 3


@dataclass(frozen=True)
class Segment:
    """Bytes at an address, and zeros behind them up to `size`. Without bytes the address is a page's. With `headers`
    it begins with the file, so that its first bytes are the headers'."""

    at: int
    data: bytes
    flags: int
    size: int = 0
    headers: bool = False
    type: int = LOADED


def headers_size(segments: int) -> int:
    """The bytes that stand before the first segment's."""
    return HEADER + PROGRAM_HEADER * segments


def offsets(segments: list[Segment]) -> list[int]:
    """Where each segment's bytes stand: behind one another, at the least offset that equals the address modulo
    the page, as a kernel maps pages of the file. A segment without bytes needs none."""
    found = []
    end = headers_size(len(segments))
    for segment in segments:
        if segment.data:
            end += (segment.at - end) % PAGE
        found.append(end if segment.data else 0)
        end += len(segment.data)
    return found


def elf(machine: int, entry: int, segments: list[Segment]) -> bytes:
    """The file of a program: big-endian for PowerPC, little-endian for IA-32."""
    order = ">" if machine == POWERPC else "<"
    ident = b"\x7fELF" + bytes([1, 2 if machine == POWERPC else 1, 1]) + bytes(9)
    header = ident + struct.pack(
        order + "HHIIIIIHHHHHH",
        2,
        machine,
        1,
        entry,
        HEADER,
        0,
        0,
        HEADER,
        PROGRAM_HEADER,
        len(segments),
        0,
        0,
        0,
    )
    places = offsets(segments)
    for segment, place in zip(segments, places):
        before = place if segment.headers else 0
        at, filled = segment.at - before, len(segment.data) + before
        size = max(segment.size, filled)
        header += struct.pack(
            order + "8I", segment.type, place - before, at, at, filled, size, segment.flags, PAGE
        )
    file = bytearray(header)
    for segment, place in zip(segments, places):
        if segment.data:
            file += bytes(place - len(file)) + segment.data
    return bytes(file)
