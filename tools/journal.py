"""The journal of an output of `skycores` as the schedule of the bundle (docs/FORMATS.md, "Runs on threads")."""

import pathlib

from description import Fault, Place
from machine import little

ROW = 64  # entries of a line of the journal
LENGTH_AT = 16  # of the length of the schedule in a bundle


def journal_of(path: pathlib.Path) -> bytes:
    """The cores of the journal, in the order of their steps."""
    lines = path.read_text(errors="replace").splitlines()
    head = lines[0].split() if lines else []
    if len(head) != 2 or head[0] != "journal" or not head[1].isdecimal():
        raise Fault(Place(path, 1), "no output of skycores: it begins with `journal` and the number of entries")
    count = int(head[1])
    digits = "".join(lines[1 : 1 + -(-count // ROW)])
    if len(digits) != count or any(digit not in "01234567" for digit in digits):
        raise Fault(Place(path, 2), f"the journal is to have {count} digits from 0 to 7, {ROW} a line")
    return bytes(int(digit) for digit in digits)


def with_schedule(path: pathlib.Path, schedule: bytes) -> bytes:
    """The bundle of a file with this schedule in place of its own."""
    bundle = path.read_bytes()
    if bundle[:4] != b"SKYB" or len(bundle) < LENGTH_AT + 4:
        raise Fault(Place(path, 0), "no bundle")
    length = int.from_bytes(bundle[LENGTH_AT : LENGTH_AT + 4], "little")
    before, behind = bundle[:LENGTH_AT], bundle[LENGTH_AT + 4 : len(bundle) - length]
    return before + little(len(schedule), 4) + behind + schedule
