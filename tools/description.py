"""Descriptions of machines: what the lines of a `.machine` file say (tools/README.md)."""

import pathlib
import re
from typing import Callable, Dict, Iterator, List, NamedTuple, Optional, Tuple

from machine import LIMITS, WORD_BITS

FORMS = {
    "frames": "frames NUMBER",
    "keys": "keys WORD ..",
    "process": "process NUMBER NAME",
    "text": "text FILE, text elf FILE, or text alone with indented lines of assembler below it",
    "data": "data FILE",
    "heap": "heap PAGES",
    "core": "core NUMBER PROCESS [ENTRY]",
    "schedule": (
        "schedule CORE[*TIMES] .., schedule CORE to [PROCESS.]LABEL, "
        "schedule round-robin STEPS quantum STEPS [cores CORE ..], or schedule random STEPS seed NUMBER [cores CORE ..]"
    ),
}
NUMBER = re.compile(r"0x[0-9a-fA-F]+|[0-9]+")
NAME = re.compile(r"[a-z][a-z0-9_]*")
WORD_MASK = (1 << WORD_BITS) - 1


class Place(NamedTuple):
    """A line of a file, counted from 1; line 0 is the file as a whole."""

    path: pathlib.Path
    line: int

    def __str__(self) -> str:
        return f"{self.path}:{self.line}" if self.line else str(self.path)

    def text(self) -> str:
        """What stands in the line."""
        return self.path.read_text().splitlines()[self.line - 1].strip()


class Fault(Exception):
    """What is wrong, with its place where it has one."""

    def __init__(self, place: Optional[Place], message: str):
        super().__init__(f"{place}: {message}" if place else message)


class Source(NamedTuple):
    """A text, or initial data: a file, or lines of assembler that stand in the description."""

    place: Place  # of the line that names it
    path: pathlib.Path  # of the file that holds it
    inline: Optional[List[str]] = None  # the lines after that of `place`
    is_elf: bool = False

    @property
    def is_assembler(self) -> bool:
        return not self.is_elf and (self.inline is not None or self.path.suffix in (".s", ".S", ".asm"))


class Process:
    def __init__(self, place: Place, name: str):
        self.place, self.name = place, name
        self.text: Optional[Source] = None
        self.data: Optional[Source] = None
        self.heap_pages = 0


class Core(NamedTuple):
    place: Place
    process: str
    entry: Optional[str]  # a label, or a number; left out for the first byte of the text


class Statement(NamedTuple):
    """A line of a description: its key word, the words behind it, and the deeper lines below a `text` alone."""

    place: Place
    key: str
    words: List[str]
    block: List[str]


class Description:
    """A description as it is written: files are not read, labels not looked up, schedules not rolled out."""

    def __init__(self, path: pathlib.Path):
        self.path = path
        self.frames: Optional[Tuple[Place, int]] = None
        self.keys: List[int] = []
        self.processes: List[Process] = []
        self.cores: List[Core] = []
        self.schedules: List[Statement] = []

    def process_number(self, name: str, place: Place) -> int:
        for number, process in enumerate(self.processes):
            if process.name == name:
                return number
        raise Fault(place, f"there is no process `{name}`")


def read(path: pathlib.Path) -> Description:
    """Reads a description, and judges what can be judged line by line."""
    try:
        lines = path.read_text().splitlines()
    except (OSError, UnicodeDecodeError) as error:
        raise Fault(None, f"{path} cannot be read: {error}")
    found = Description(path)
    for statement in statements(path, lines):
        if statement.key not in READERS:
            raise Fault(statement.place, f"unknown key word `{statement.key}`; there are {', '.join(FORMS)}")
        READERS[statement.key](found, statement)
    if found.frames is None:
        raise Fault(Place(path, 0), f"a line is missing: {FORMS['frames']}")
    for process in found.processes:
        if process.text is None:
            raise Fault(process.place, f"process `{process.name}` has no text")
    within("processes", len(found.processes), Place(path, 0))
    within("cores", len(found.cores), Place(path, 0))
    for core in found.cores:
        found.process_number(core.process, core.place)
    return found


def statements(path: pathlib.Path, lines: List[str]) -> Iterator[Statement]:
    """The lines that say something, each with its block."""
    at = 0
    while at < len(lines):
        line = lines[at]
        words = line.split("#")[0].split()
        at += 1
        if not words:
            continue
        place = Place(path, at)
        block: List[str] = []
        if words == ["text"]:
            block = deeper(lines[at:], indent(line))
            at += len(block)
        yield Statement(place, words[0], words[1:], block)


def deeper(lines: List[str], depth: int) -> List[str]:
    """The front of the lines that are empty or indented by more than the depth."""
    for count, line in enumerate(lines):
        if line.strip() and indent(line) <= depth:
            return lines[:count]
    return lines


def indent(line: str) -> int:
    return len(line) - len(line.lstrip())


def expect(is_right: bool, statement: Statement) -> None:
    if not is_right:
        raise Fault(statement.place, f"the line reads: {FORMS[statement.key]}")


def number(word: str, place: Place) -> int:
    """A decimal number, or a hexadecimal one behind 0x, of at most 64 bits."""
    if not NUMBER.fullmatch(word):
        raise Fault(place, f"`{word}` is no number")
    value = int(word, 0) if word.startswith("0x") else int(word)
    if value > WORD_MASK:
        raise Fault(place, f"{word} has more than {WORD_BITS} bits")
    return value


def within(what: str, count: int, place: Optional[Place]) -> None:
    """Refuses a count outside of the bundle's limits."""
    least, greatest = LIMITS[what]
    if not least <= count <= greatest:
        raise Fault(place, f"{count} {what}; a bundle has {least} to {greatest}")


def next_number(word: str, count: int, statement: Statement) -> None:
    """Refuses a number of a process or core that is not the next one."""
    if number(word, statement.place) != count:
        raise Fault(statement.place, f"the next {statement.key} has the number {count}, not {word}")


def read_frames(found: Description, statement: Statement) -> None:
    expect(len(statement.words) == 1, statement)
    if found.frames is not None:
        raise Fault(statement.place, "the frames are said already")
    found.frames = statement.place, number(statement.words[0], statement.place)
    within("frames", found.frames[1], statement.place)


def read_keys(found: Description, statement: Statement) -> None:
    expect(len(statement.words) > 0, statement)
    found.keys += [number(word, statement.place) for word in statement.words]
    within("key words", len(found.keys), statement.place)


def read_process(found: Description, statement: Statement) -> None:
    expect(len(statement.words) == 2, statement)
    numeral, name = statement.words
    next_number(numeral, len(found.processes), statement)
    if not NAME.fullmatch(name):
        raise Fault(statement.place, f"`{name}` is no name: a lower-case letter, then lower-case letters, digits and _")
    if any(process.name == name for process in found.processes):
        raise Fault(statement.place, f"there is a process `{name}` already")
    found.processes.append(Process(statement.place, name))
    within("processes", len(found.processes), statement.place)


def last_process(found: Description, statement: Statement) -> Process:
    if not found.processes:
        raise Fault(statement.place, f"`{statement.key}` stands before the first process")
    return found.processes[-1]


def read_text(found: Description, statement: Statement) -> None:
    process = last_process(found, statement)
    is_elf = len(statement.words) == 2 and statement.words[0] == "elf"
    expect(len(statement.words) == 1 or is_elf or not statement.words and any(map(str.strip, statement.block)), statement)
    if process.text is not None:
        raise Fault(statement.place, f"process `{process.name}` has its text already")
    if statement.words:
        process.text = Source(statement.place, found.path.parent / statement.words[-1], None, is_elf)
    else:
        process.text = Source(statement.place, found.path, statement.block)


def read_data(found: Description, statement: Statement) -> None:
    process = last_process(found, statement)
    expect(len(statement.words) == 1, statement)
    if process.data is not None:
        raise Fault(statement.place, f"process `{process.name}` has its initial data already")
    process.data = Source(statement.place, found.path.parent / statement.words[0], None)


def read_heap(found: Description, statement: Statement) -> None:
    process = last_process(found, statement)
    expect(len(statement.words) == 1, statement)
    process.heap_pages = number(statement.words[0], statement.place)
    within("heap pages", process.heap_pages, statement.place)


def read_core(found: Description, statement: Statement) -> None:
    expect(len(statement.words) in (2, 3), statement)
    numeral, process, *entry = statement.words
    next_number(numeral, len(found.cores), statement)
    found.cores.append(Core(statement.place, process, entry[0] if entry else None))
    within("cores", len(found.cores), statement.place)


def read_schedule(found: Description, statement: Statement) -> None:
    expect(len(statement.words) > 0, statement)
    found.schedules.append(statement)


READERS: Dict[str, Callable[[Description, Statement], None]] = {
    "frames": read_frames,
    "keys": read_keys,
    "process": read_process,
    "text": read_text,
    "data": read_data,
    "heap": read_heap,
    "core": read_core,
    "schedule": read_schedule,
}
