"""Makes the programs of samples/run and samples/worked, and what they write: under qemu-ppc, and on this processor.

    python3 samples/make/make.py [FOLDER]

puts them into run/ and worked/ of FOLDER, or else of samples. For each program FILE there are FILE.in, what it reads,
if it reads anything; FILE.out and FILE.err, what it writes to files 1 and 2, the second if there is anything; and
FILE.status, as a shell has it: 128 and the signal's number, where a signal ended it.
"""

import platform
import subprocess
import sys
import tempfile
from pathlib import Path

import ia32_states
import ppc_calls
import ppc_flow
import ppc_memory
import ppc_states
import ppc_worked

PROGRAMS = {
    "states.ppc": ppc_states.states,
    "memory.ppc": ppc_memory.memory,
    "low.ppc": ppc_memory.low,
    "flow.ppc": ppc_flow.flow,
    "calls.ppc": ppc_calls.calls,
    "states.i386": ia32_states.states,
}
INPUTS = {"calls.ppc": ppc_calls.text}
SEGMENT_FAULT = 11


def record(file: Path, given: bytes) -> None:
    """Runs a program with this input and keeps what it writes, and its status."""
    with tempfile.TemporaryDirectory() as folder:
        runnable, read, out, err = (Path(folder) / name for name in ("program", "in", "out", "err"))
        runnable.write_bytes(file.read_bytes())
        runnable.chmod(0o755)
        read.write_bytes(given)
        command = ["qemu-ppc", str(runnable)] if file.suffix == ".ppc" else [str(runnable)]
        with read.open("rb") as stdin, out.open("wb") as stdout, err.open("wb") as stderr:
            status = subprocess.run(command, stdin=stdin, stdout=stdout, stderr=stderr, timeout=60).returncode
        keep(file, status, out.read_bytes(), b"" if status < 0 else err.read_bytes())


def keep(file: Path, status: int, out: bytes, err: bytes) -> None:
    """Keeps what a program writes, and its status. A negative one is a signal's; the emulator then writes an error of
    its own."""
    Path(f"{file}.out").write_bytes(out)
    if err:
        Path(f"{file}.err").write_bytes(err)
    Path(f"{file}.status").write_text(f"{status if status >= 0 else 128 - status}\n")


def make(file: Path, program: bytes, given: bytes) -> None:
    """Puts a program, its input and what comes of it into its folder."""
    file.parent.mkdir(parents=True, exist_ok=True)
    file.write_bytes(program)
    if given:
        Path(f"{file}.in").write_bytes(given)
    if file.name in ppc_worked.ENDING_OUTSIDE:
        keep(file, -SEGMENT_FAULT, b"", b"")
    else:
        record(file, given)


def machines() -> str:
    """Which machines these are."""
    emulator = subprocess.run(["qemu-ppc", "--version"], capture_output=True, text=True).stdout.splitlines()[0]
    wanted = ("vendor_id", "cpu family", "model", "model name", "stepping")
    fields = (line.split(":") for line in Path("/proc/cpuinfo").read_text().split("\n\n")[0].splitlines())
    processor = ", ".join(f"{name.strip()}{value}" for name, value in fields if name.strip() in wanted)
    return f"{emulator}\n{processor}\n{platform.system()} {platform.release()}"


def main() -> None:
    folder = Path(sys.argv[1]) if len(sys.argv) > 1 else Path(__file__).parent.parent
    for name, program in PROGRAMS.items():
        make(folder / "run" / name, program(), INPUTS[name]() if name in INPUTS else b"")
    for name, program in ppc_worked.PROGRAMS.items():
        make(folder / "worked" / name, program(), ppc_worked.INPUTS.get(name, b""))
    print(machines())


main()
