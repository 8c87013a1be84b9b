#!/usr/bin/env python3
"""Runs minisat, cadical and sat_bench one after the other on the formulas of this folder, and prints processor times.

    compare.py [SAT_BENCH]

Each time is the least of nine runs' user seconds, reading the file included. minisat and cadical are Debian's packages.
The second table gives `check` the logs that cadical wrote within so many conflicts, without deletions and preprocessing, beside
what cadical's own checker adds to the time of such a run (--check=true). That checker forgets clauses where cadical does, and `check`
never does; in the last log of each formula cadical doesn't tidy its clauses up (--reduce=false)."""
import glob
import os
import re
import resource
import subprocess
import sys
import tempfile

sys.dont_write_bytecode = True
import make_formulas

LIMIT = "20000"


def run(*words):
    """The least user time of nine runs, and what the last one wrote."""
    times = []
    for _ in range(9):
        before = resource.getrusage(resource.RUSAGE_CHILDREN).ru_utime
        out = subprocess.run(words, stdout=subprocess.PIPE, stderr=subprocess.STDOUT).stdout.decode()
        times.append(resource.getrusage(resource.RUSAGE_CHILDREN).ru_utime - before)
    return min(times), out


def solvers(bench, formula):
    minisat, told = run("minisat", formula)
    conflicts = re.search(r"conflicts +: (\d+)", told)
    cadical, _ = run("cadical", "-q", formula)
    ours, said = run(bench, "solve", formula, LIMIT)
    name = os.path.basename(formula)[:-4]
    ratio = "%.1f" % (ours / minisat) if minisat >= 0.001 else ""
    print("| %s | %s | %s | %.3f | %.3f | %.3f | %s |" % (
        name, said.strip(), conflicts.group(1) if conflicts else "", ours, minisat, cadical, ratio))


def checks(bench, formula, runs):
    """Logs that cadical wrote with these options, and what its own checker adds to its time."""
    name = os.path.basename(formula)[:-4]
    for words in runs:
        options = ["-q", "--plain", *words, formula]
        plain, _ = run("cadical", *options)
        checking, _ = run("cadical", "--check=true", *options)
        log = formula + ".log"
        subprocess.run(["cadical", "--no-binary", *options, log], stdout=subprocess.DEVNULL)
        lines = open(log).readlines()
        steps = [line for line in lines if not line.startswith("d")]
        open(log, "w").writelines(steps)
        ours, said = run(bench, "check", formula, log)
        theirs = max(checking - plain, 0.001)
        print("| %s | %d | %d | %s | %.3f | %.3f | %.1f |" % (
            name, len(steps), len(lines) - len(steps), said.split()[0], ours, theirs, ours / theirs))


def main():
    here = os.path.dirname(os.path.abspath(__file__))
    bench = sys.argv[1] if len(sys.argv) > 1 else os.path.join(here, "../../crates/sat_bench/out/sat_bench")
    formulas = sorted(glob.glob(os.path.join(here, "*.cnf")))
    print("| formula | answer, steps | minisat: conflicts | ours | minisat | cadical | ours to minisat |")
    print("|---|---|---|---|---|---|---|")
    for formula in formulas:
        solvers(bench, formula)
    print("\n| formula | steps | forgotten | answer | check | cadical's checker | ours to cadical's |\n|---|---|---|---|---|---|---|")
    with tempfile.TemporaryDirectory() as folder:
        for variables, count, seed in ((722, 10000, 26), (200, 880, 2)):
            formula = os.path.join(folder, "random-%d-%d" % (variables, seed))
            make_formulas.write(formula, make_formulas.random_clauses(variables, count, seed))
            checks(bench, formula + ".cnf", [["-c", "2000"], ["-c", "4000"], ["-c", "8000"], [], ["--reduce=false"]])
    print("\nload:", open("/proc/loadavg").read().strip())


if __name__ == "__main__":
    main()
