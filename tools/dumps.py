"""Dumps: the physical memory of a machine, and the words of its cores (docs/FORMATS.md, "The dump")."""

import re
import struct
from typing import Dict, List, NamedTuple, Optional, Tuple

PAGE = 4096  # bytes of a frame
ENTRIES = 512  # of a table, and of a list of EPT pointers: words of 8 bytes, the lowest byte first
ZEROS = bytes(PAGE)
BYTES = 64  # of a frame in a line of a dump

NUMBER, HEXADECIMAL = "(0|[1-9][0-9]*)", "(0|[1-9a-f][0-9a-f]*)"
HEAD = re.compile(f"dump {NUMBER}\n")
CORE = re.compile(f"core {NUMBER} eptp {HEXADECIMAL} list {HEXADECIMAL} cr3 {HEXADECIMAL}\n")
FRAME = re.compile(f"frame {HEXADECIMAL}\n((?:[0-9a-f]{{{2 * BYTES}}}\n){{{PAGE // BYTES}}})")
END = re.compile("end\n")


class NoDump(Exception):
    """A line that no dump has, with its number."""


class CoreWords(NamedTuple):
    """The words of a core: its EPT pointer, the frame of its thread's list of EPT pointers, and its CR3."""

    eptp: int
    list_frame: int
    cr3: int


class Dump(NamedTuple):
    """Memory of so many frames, the words of each core, and the bytes of each frame that holds a byte other than 0."""

    frames: int
    cores: List[CoreWords]
    contents: Dict[int, bytes]

    def page(self, frame: int) -> bytes:
        """The bytes of a frame; none where the memory does not have it."""
        return self.contents.get(frame, ZEROS) if frame < self.frames else b""

    def words(self, frame: int) -> Tuple[int, ...]:
        """The words of a frame; none where the memory does not have it."""
        page = self.page(frame)
        return struct.unpack(f"<{len(page) // 8}Q", page)

    def word(self, place: int) -> Optional[int]:
        """The word of 8 bytes at a physical address that it divides; none where the memory does not have its frame."""
        page = self.page(place // PAGE)
        return int.from_bytes(page[place % PAGE : place % PAGE + 8], "little") if page else None


class Reader:
    """A text that is read from its front, the first line of which has this number."""

    def __init__(self, text: str, first: int):
        self.text, self.first, self.at = text, first, 0

    def next(self, pattern: "re.Pattern[str]") -> Optional["re.Match[str]"]:
        """What stands next, if it is of this form."""
        found = pattern.match(self.text, self.at)
        self.at = found.end() if found else self.at
        return found

    def require(self, fact: object, taken: Optional["re.Match[str]"] = None) -> None:
        """Refuses what stands next, or what was taken, unless this is so."""
        if not fact:
            at = self.at if taken is None else taken.start()
            line, told = self.first + self.text.count("\n", 0, at), self.text[at : at + 60].partition("\n")[0]
            raise NoDump(f"line {line}: no dump goes on with `{told}` and what stands below it")


def read(text: str, first: int = 1) -> Dump:
    """Reads a dump, and refuses what is none."""
    reader = Reader(text, first)
    head = reader.next(HEAD)
    reader.require(head)
    dump = Dump(int(head[1]), [], {})
    core = reader.next(CORE)
    while core:
        reader.require(int(core[1]) == len(dump.cores), core)
        dump.cores.append(CoreWords(*(int(word, 16) for word in core.groups()[1:])))
        core = reader.next(CORE)
    last, frame = -1, reader.next(FRAME)
    while frame:
        number, page = int(frame[1], 16), bytes.fromhex(frame[2])
        reader.require(last < number < dump.frames and any(page), frame)
        dump.contents[number] = page
        last, frame = number, reader.next(FRAME)
    reader.require(reader.next(END))
    reader.require(reader.at == len(text))
    return dump
