#!/usr/bin/env python3
"""Measures how long the translation of made programs takes, and the most memory that is resident.

    translate.py [TRANS]

Each program is one segment of code. `six registers` are blocks of 64 words that use six GPRs, so that each has 229 maps; `legal
words` are random words of the table, with branches to anywhere; `stmw` is the word with the longest tile alone. Each time is
the least of three runs' user and system seconds."""
import os
import random
import resource
import subprocess
import sys
import tempfile

sys.path.insert(0, os.path.join(os.path.dirname(os.path.abspath(__file__)), "../plans"))
from measure import elf, straight

MOST = 131072


def legal(trans, path, count):
    """So many random words of the table, by what `list` says of them."""
    chance = random.Random(31)
    words = []
    while len(words) < count:
        drawn = [chance.randrange(1 << 32) for _ in range(MOST)]
        open(path, "wb").write(elf(drawn))
        lines = subprocess.run([trans, "list", path], stdout=subprocess.PIPE, check=True).stdout.decode().splitlines()
        words += [word for word, line in zip(drawn, lines) if "illegal" not in line]
    return words[:count]


def measure(trans, path, out):
    """The least time of three runs, and the most memory in MB."""
    times = []
    for _ in range(3):
        pid = os.fork()
        if pid == 0:
            os.execv(trans, [trans, "translate", path, out])
        _, status, used = os.wait4(pid, 0)
        assert status == 0, status
        times.append(used.ru_utime + used.ru_stime)
    return min(times), used.ru_maxrss / 1024


def main():
    here = os.path.dirname(os.path.abspath(__file__))
    trans = os.path.abspath(sys.argv[1] if len(sys.argv) > 1 else os.path.join(here, "../../crates/trans/out/trans"))
    chance = random.Random(30)
    six = [0x48000004 if k % 64 == 63 else straight(chance) for k in range(MOST)]
    with tempfile.TemporaryDirectory() as folder:
        path, out = os.path.join(folder, "code.elf"), os.path.join(folder, "out")
        programs = [("six registers", six), ("legal words", legal(trans, path, MOST)), ("`stmw r0` alone", [0xBC010000] * MOST)]
        print("| code | KiB | seconds | MB | OUT, MB |\n|---|---|---|---|---|")
        for name, words in programs:
            for count in (MOST // 4, MOST // 2, MOST):
                open(path, "wb").write(elf(words[:count]))
                time, memory = measure(trans, path, out)
                print("| %s | %d | %.2f | %.0f | %.1f |" % (name, count // 256, time, memory, os.path.getsize(out) / 1e6), flush=True)
    print("\nload:", open("/proc/loadavg").read().strip())


if __name__ == "__main__":
    main()
