#!/usr/bin/env python3
"""Runs plan_bench on made programs, and prints processor times.

    measure.py [PLAN_BENCH]

Each time is the least of three runs' user and system seconds, reading the file included. The blocks have 64 words that use six
GPRs, so that each has 229 maps; per block the time of a file with one block is taken off, and the rest divided by the number of
further blocks."""
import os
import random
import resource
import struct
import subprocess
import sys
import tempfile

WORDS = 131072


def elf(words):
    """A file whose one segment is these words, at 0x10000000."""
    code = b"".join(struct.pack(">I", word) for word in words)
    head = bytes.fromhex("7f454c46010201000000000000000000") + struct.pack(
        ">HHIIIIIHHHHHH", 2, 20, 1, 0x10000000, 52, 0, 0, 52, 32, 1, 0, 0, 0)
    segment = struct.pack(">IIIIIIII", 1, 84, 0x10000000, 0x10000000, len(code), len(code), 5, 4096)
    return head + segment + code


def straight(chance):
    """add, addi, or, lwz and stw over r3 to r8."""
    kind = chance.randrange(5)
    d, a, b = (chance.randrange(3, 9) for _ in range(3))
    if kind == 0:
        return 0x7C000214 | d << 21 | a << 16 | b << 11
    if kind == 1:
        return 0x38000000 | d << 21 | a << 16 | chance.randrange(65536)
    if kind == 2:
        return 0x7C000378 | d << 21 | a << 16 | b << 11
    return (0x80000000 if kind == 3 else 0x90000000) | d << 21 | a << 16 | 4 * chance.randrange(8)


def programs():
    chance = random.Random(29)
    yield "straight code", [straight(chance) for _ in range(WORDS)]
    yield "random words", [chance.randrange(1 << 32) for _ in range(WORDS)]
    yield "b to the word before", [0x4BFFFFFC] * WORDS
    yield "b to the word behind", [0x48000004] * WORDS
    yield "bc to the word before", [0x4082FFFC] * WORDS
    yield "bc to the word behind", [0x40820004] * WORDS


def run(*words):
    """The least time of three runs, and what the last one wrote."""
    times = []
    for _ in range(3):
        before = resource.getrusage(resource.RUSAGE_CHILDREN)
        out = subprocess.run(words, stdout=subprocess.PIPE, stderr=subprocess.STDOUT).stdout.decode()
        after = resource.getrusage(resource.RUSAGE_CHILDREN)
        times.append(after.ru_utime + after.ru_stime - before.ru_utime - before.ru_stime)
    return min(times), out.strip()


def main():
    here = os.path.dirname(os.path.abspath(__file__))
    bench = sys.argv[1] if len(sys.argv) > 1 else os.path.join(here, "../../crates/plan_bench/out/plan_bench")
    with tempfile.TemporaryDirectory() as folder:
        path = os.path.join(folder, "code.elf")
        print("| live sets of 512 KiB | seconds | answer |\n|---|---|---|")
        for name, words in programs():
            open(path, "wb").write(elf(words))
            print("| %s | %.3f | %s |" % (name, *run(bench, "live", path)))
        print("\n| blocks | command | ms a block | answer |\n|---|---|---|---|")
        chance = random.Random(30)
        words = [straight(chance) for _ in range(64 * 65)]
        for length in (16, 32, 64):
            for command in ("problem", "solve"):
                # A b to the next word ends each block.
                cut = [0x48000004 if k % length == length - 1 else word for k, word in enumerate(words)]
                times = []
                for count in (1, 65):
                    open(path, "wb").write(elf(cut[:length * count]))
                    times.append(run(bench, command, path))
                print("| 64 of %d words | %s | %.2f | %s |" % (length, command, (times[1][0] - times[0][0]) / 64 * 1000, times[1][1]))
    print("\nload:", open("/proc/loadavg").read().strip())


if __name__ == "__main__":
    main()
