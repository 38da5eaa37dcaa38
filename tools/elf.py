"""Texts and initial data from ELF files (System V ABI, "Object Files", and its processor supplement for AMD64)."""

import pathlib
import struct
import subprocess
import tempfile
from typing import Dict, Iterator, List, NamedTuple, Optional, Tuple

from description import Fault, Source

TEXT, DATA = 0x400000, 0x800000  # docs/FORMATS.md, "The memory of a thread"
SPACE = 0x200000  # the longest text, and the longest initial data
NOP = b"\x90"
LONGEST = 15  # bytes of an instruction
SCRIPT = pathlib.Path(__file__).resolve().parent / "skybridge.ld"

CLASS_64_LITTLE, X86_64 = b"\x02\x01", 62
RELOCATABLE, EXECUTABLE, SHARED = 1, 2, 3  # e_type
SYMBOLS, RELOCATIONS_ADDEND, DYNAMIC, NOTE, ABSENT, RELOCATIONS = 2, 4, 6, 7, 8, 9  # sh_type
IS_LOADED, IS_CODE, IS_THREAD_LOCAL = 2, 4, 0x400  # sh_flags
LEFT_OUT = ".eh_frame", ".eh_frame_hdr"  # beside notes: nothing reads them


class Section(NamedTuple):
    name: str
    kind: int
    flags: int
    address: int
    offset: int
    size: int
    linked: int  # the number of the section with the names of symbols, or with the symbols of relocations
    about: int  # of relocations: the number of the section that they are for
    alignment: int


class Symbol(NamedTuple):
    name: str
    section: int
    value: int


class ElfFile:
    """An ELF file of 64 bits: its sections and symbols."""

    def __init__(self, path: pathlib.Path):
        self.path = path
        self.image = path.read_bytes()
        self.kind, = struct.unpack_from("<H", self.image, 0x10)
        self.entry, = struct.unpack_from("<Q", self.image, 0x18)
        table, = struct.unpack_from("<Q", self.image, 0x28)
        size, count, names = struct.unpack_from("<HHH", self.image, 0x3A)
        headers = [struct.unpack_from("<IIQQQQIIQ", self.image, table + size * i) for i in range(count)]
        names_at = headers[names][4]
        self.sections = [Section(self.string(names_at + header[0]), *header[1:]) for header in headers]

    def string(self, at: int) -> str:
        return self.image[at : self.image.index(b"\0", at)].decode()

    def bytes_of(self, section: Section) -> bytes:
        if section.kind == ABSENT:
            return bytes(section.size)
        return self.image[section.offset : section.offset + section.size]

    def symbols(self) -> Iterator[Symbol]:
        """The symbols that have names."""
        for table in (section for section in self.sections if section.kind == SYMBOLS):
            names_at = self.sections[table.linked].offset
            for at in range(table.offset, table.offset + table.size, 24):
                name, _, _, section, value = struct.unpack_from("<IBBHQ", self.image, at)
                if name:
                    yield Symbol(self.string(names_at + name), section, value)

    def relocations(self, section: Section) -> Iterator[Tuple[int, str]]:
        """The places of a section of relocations, each with the name of its symbol."""
        table = self.sections[section.linked]
        size = 24 if section.kind == RELOCATIONS_ADDEND else 16
        for at in range(section.offset, section.offset + section.size, size):
            place, info = struct.unpack_from("<QQ", self.image, at)
            name, _, _, of, _ = struct.unpack_from("<IBBHQ", self.image, table.offset + 24 * (info >> 32))
            symbol = self.string(self.sections[table.linked].offset + name) if name else ""
            yield place, symbol or (self.sections[of].name if of < len(self.sections) else "a number")


class Loaded:
    """What a process has of an ELF file: its text, its initial data and the labels of its text."""

    def __init__(self, source: Source):
        self.path, self.place = source.path, source.place
        self.file = checked(source)
        self.addresses: Dict[int, int] = {}  # of sections, by their numbers
        parts: Dict[bool, List[Tuple[int, bytes]]] = {True: [], False: []}
        for number, section in self.loaded_sections():
            is_code = bool(section.flags & IS_CODE)
            self.addresses[number] = self.address_of(section, is_code, parts[is_code])
            parts[is_code].append((self.addresses[number], self.file.bytes_of(section)))
        self.text = self.joined(parts[True], TEXT, NOP)
        self.data = self.joined(parts[False], DATA, b"\0")
        if not self.text:
            raise Fault(self.place, f"{self.path} has no text")
        first = min(parts[True])[0]
        if first != TEXT:
            raise Fault(self.place, f"the text of {self.path} begins at {first:x}, not at {TEXT:x}: link it with {SCRIPT}")

    def loaded_sections(self) -> Iterator[Tuple[int, Section]]:
        """The sections that are loaded, each with its number. One that cannot be is a fault."""
        for number, section in enumerate(self.file.sections):
            about = self.file.sections[section.about] if section.about < len(self.file.sections) else section
            if section.kind in (RELOCATIONS, RELOCATIONS_ADDEND):
                is_left = self.file.kind == RELOCATABLE and about.flags & IS_LOADED and about.name not in LEFT_OUT
                if section.size and (is_left or section.flags & IS_LOADED):
                    self.refuse_relocation(section, about)
                continue
            if not section.flags & IS_LOADED or section.size == 0 or section.kind == NOTE or section.name in LEFT_OUT:
                continue
            if section.flags & IS_THREAD_LOCAL:
                raise Fault(self.place, f"{self.path}: section {section.name}: a thread has no data of its own")
            if section.kind == DYNAMIC:
                raise Fault(self.place, f"{self.path} is linked dynamically: link it with -static -no-pie")
            yield number, section

    def refuse_relocation(self, section: Section, about: Section) -> None:
        place, symbol = next(self.file.relocations(section))
        where = f"{about.name}+{place:#x}" if self.file.kind == RELOCATABLE else f"{place:x}"
        count = section.size // (24 if section.kind == RELOCATIONS_ADDEND else 16)
        told = f"{self.path} has {count} relocations in {section.name}, the first at {where} for `{symbol}`"
        raise Fault(self.place, f"{told}: link it with {SCRIPT}")

    def address_of(self, section: Section, is_code: bool, before: List[Tuple[int, bytes]]) -> int:
        """Where a section stands: as it was linked, or, in an object, behind those before it."""
        first = TEXT if is_code else DATA
        address = section.address
        if self.file.kind == RELOCATABLE:
            end = before[-1][0] + len(before[-1][1]) if before else first
            address = -(-end // max(section.alignment, 1)) * max(section.alignment, 1)
        if not first <= address <= address + section.size <= first + SPACE:
            what = "a text" if is_code else "initial data"
            span = f"{address:x} to {address + section.size - 1:x}"
            rule = f"{what} stands from {first:x} to {first + SPACE - 1:x}"
            raise Fault(self.place, f"{self.path}: section {section.name} stands from {span}, and {rule}: link it with {SCRIPT}")
        return address

    def joined(self, parts: List[Tuple[int, bytes]], first: int, filler: bytes) -> bytes:
        """The bytes of the parts from the first address on."""
        found = bytearray()
        for address, contents in sorted(parts):
            found += filler * (address - first - len(found))
            found[address - first : address - first + len(contents)] = contents
        return bytes(found)

    def labels(self) -> Dict[str, int]:
        """The addresses of the symbols that stand in the text."""
        found = {}
        for symbol in self.file.symbols():
            if symbol.section in self.addresses and self.file.sections[symbol.section].flags & IS_CODE:
                base = self.addresses[symbol.section] if self.file.kind == RELOCATABLE else 0
                found[symbol.name] = base + symbol.value
        return found

    def entry(self) -> int:
        """Where an executable starts, if it says so; else its first byte."""
        is_told = self.file.kind == EXECUTABLE and TEXT <= self.file.entry < TEXT + len(self.text)
        return self.file.entry if is_told else TEXT

    def described(self, address: int) -> str:
        """The instruction at an address, with the symbol before it, and what objdump reads there."""
        before = [(at, name) for name, at in self.labels().items() if at <= address]
        name = f"{max(before)[1]}+{address - max(before)[0]:#x}" if before else f"{address:x}"
        code = self.text[address - TEXT : address - TEXT + LONGEST]
        return f"{self.path}: {name}: {disassembled(code, address) or code.hex(' ')}"


def checked(source: Source) -> ElfFile:
    """The file, if it is an executable or an object for this machine."""
    try:
        head = source.path.read_bytes()[:20]
    except OSError as error:
        raise Fault(source.place, f"{source.path} cannot be read: {error}")
    machine = int.from_bytes(head[18:20], "little")
    if head[:4] != b"\x7fELF" or head[4:6] != CLASS_64_LITTLE or machine != X86_64:
        raise Fault(source.place, f"{source.path} is no ELF file for x86-64")
    try:
        found = ElfFile(source.path)
    except (struct.error, IndexError, ValueError):
        raise Fault(source.place, f"{source.path} is cut off, or has no sections")
    if found.kind == SHARED:
        raise Fault(source.place, f"{source.path} has no fixed addresses: link it with -static -no-pie")
    if found.kind not in (RELOCATABLE, EXECUTABLE):
        raise Fault(source.place, f"{source.path} is neither an executable nor an object")
    return found


def disassembled(code: bytes, address: int) -> Optional[str]:
    """What objdump reads first in bytes that stand at an address: the bytes, and the instruction. None where it is missing."""
    with tempfile.NamedTemporaryFile() as file:
        file.write(code)
        file.flush()
        words = ["-D", "-w", "-b", "binary", "-m", "i386:x86-64", "-M", "intel", f"--adjust-vma={address:#x}", file.name]
        try:
            listing = subprocess.run(["objdump", *words], stdout=subprocess.PIPE, universal_newlines=True).stdout
        except FileNotFoundError:
            return None
    lines = [line.split("\t") for line in listing.splitlines() if line.startswith(f"{address:8x}:")]
    return "  ".join(" ".join(part.split()) for part in lines[0][1:]) if lines else None
