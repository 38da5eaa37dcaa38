"""Bundles, the program that runs them, and the threads of its report (docs/FORMATS.md)."""

import os
import pathlib
import subprocess
import sys
import tempfile
from typing import List, NamedTuple, Sequence, Tuple

ROOT = pathlib.Path(__file__).resolve().parent.parent
sys.path.append(str(ROOT / "tools"))  # for what tools and checks share
PROGRAM = os.environ.get("PROGRAM", str(ROOT / "crates/skybridge/out/skybridge"))
CORES = os.environ.get("CORES", str(ROOT / "crates/skycores/out/skycores"))

TEXT = 0x400000
DATA = 0x800000
STACK_TOP = 0x3008000  # of thread 0
STACK_STRIDE = 0x8000  # from one thread's stack to the next one's
FRAMES = 1024
VMFUNC = bytes.fromhex("0f01d4")  # a text that holds it is rewritten


class Thread(NamedTuple):
    """A thread at the end of a run. `state` is as in the report; `registers` in the processor's order, RAX first."""

    state: str
    rip: int
    flags: int
    registers: Tuple[int, ...]


def little(number: int, size: int) -> bytes:
    """The number in `size` bytes, negative ones as their two's complement."""
    return (number % (1 << 8 * size)).to_bytes(size, "little")


def bundle(
    processes: List[Tuple[bytes, bytes]],
    cores: List[Tuple[int, int]],
    schedule: bytes,
    frames: int = FRAMES,
    keys: Sequence[int] = (),
) -> bytes:
    """A bundle of processes, each a text and initial data, and of cores, each a process and an entry."""
    counts = (len(cores), 1), (len(processes), 1), (frames, 4), (len(keys), 4), (len(schedule), 4)
    parts = [b"SKYB", little(1, 2)] + [little(count, size) for count, size in counts]
    parts += [little(key, 8) for key in keys]
    for text, data in processes:
        parts += [little(len(text), 4), little(len(data), 4), little(0, 4), text, data]
    for process, entry in cores:
        parts += [little(process, 4), little(entry, 8)]
    return b"".join(parts + [schedule])


def replay(bundle_bytes: bytes, word: str = "replay") -> Tuple[int, List[str]]:
    """The status of `replay`, or of another command, on the bundle, and the lines that it writes."""
    done = subprocess.run([PROGRAM, word], input=bundle_bytes, stdout=subprocess.PIPE)
    return done.returncode, done.stdout.decode().splitlines()


def with_journal(image: bytes, output: bytes) -> Tuple[bytes, bytes]:
    """The bundle with the journal of an output of `skycores` as its schedule, and what stands in that output behind it."""
    with tempfile.TemporaryDirectory() as folder:
        given, written = pathlib.Path(folder) / "bundle", pathlib.Path(folder) / "output"
        given.write_bytes(image)
        written.write_bytes(output)
        subprocess.run([ROOT / "tools/bundle", "--journal", written, given, "-o", given], check=True)
        return given.read_bytes(), output[output.index(b"skybridge report") :]


def threads(report: List[str]) -> List[Thread]:
    """The threads that the report shows, in their order."""
    found = []
    state = ""
    for line in report:
        words = line.split()
        if words[0] == "thread":  # thread T home P view K at Q STATE
            state = " ".join(words[8:])
        elif words[0] == "regs":  # regs T rip RIP flags FLAGS and the registers
            rip, flags, *registers = (int(word, 16) for word in [words[3], *words[5:]])
            found.append(Thread(state, rip, flags, tuple(registers)))
    return found
