"""What the built program says to a machine, and to a bundle."""

import os
import pathlib
import subprocess
from typing import List, Optional, Tuple

from machine import Machine

ROOT = pathlib.Path(__file__).resolve().parent.parent
PROGRAM = os.environ.get("PROGRAM", str(ROOT / "crates/skybridge/out/skybridge"))
DONE, BAD_WORDS = 0, 2  # statuses of the program (docs/FORMATS.md, "The commands")


def is_built() -> bool:
    return os.access(PROGRAM, os.X_OK)


def refusal(machine: Machine) -> Optional[str]:
    """The line with which the program refuses to start the machine; none where it does not refuse.

    A program without the command `check` is asked to run no step of the machine.
    """
    status, line = ask(["check"], machine)
    if status == BAD_WORDS:
        status, line = ask(["replay"], machine._replace(schedule=b""))
    return None if status == DONE else line or f"status {status}"


def ask(words: List[str], machine: Machine) -> Tuple[int, str]:
    """The status and the first line of the program."""
    status, text = output(words, machine.bundle())
    return status, text.partition("\n")[0]


def output(words: List[str], image: bytes) -> Tuple[int, str]:
    """The status of the program, and what it writes to a bundle."""
    done = subprocess.run([PROGRAM, *words], input=image, stdout=subprocess.PIPE)
    return done.returncode, done.stdout.decode(errors="replace")
