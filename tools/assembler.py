"""Texts and initial data from assembler source, by GNU as and ld."""

import os
import pathlib
import shutil
import subprocess
import sys
from typing import Dict, List, Optional

from description import Fault, Place, Source
from elf import IS_LOADED, SCRIPT, ElfFile

HERE = pathlib.Path(__file__).resolve().parent


class Linked(ElfFile):
    """A linked file, as ld makes it here: its text, its data and the labels of its text."""

    def size(self, name: str) -> int:
        return sum(section.size for section in self.sections if section.name == name)

    def contents(self, name: str) -> bytes:
        """The bytes of a section, none where there is no such section."""
        return b"".join(self.bytes_of(section) for section in self.sections if section.name == name)

    def strangers(self) -> List[str]:
        """The names of sections that would be loaded and are neither text nor data."""
        loaded = [section for section in self.sections if section.flags & IS_LOADED and section.size]
        return [section.name for section in loaded if section.name not in (".text", ".data")]

    def labels(self) -> Dict[str, int]:
        """The addresses of the labels that stand in the text."""
        text = next((i for i, section in enumerate(self.sections) if section.name == ".text"), None)
        return {symbol.name: symbol.value for symbol in self.symbols() if symbol.section == text}

    def line_of(self, address: int) -> Optional[Place]:
        """The line of the source that the byte at the address comes from, where the assembler's line table has it."""
        told = run(["addr2line", "-e", str(self.path), hex(address)], "").stdout.split("(")[0].strip()
        file, _, line = from_here(told).rpartition(":")
        is_known = line.isdigit() and pathlib.Path(file).is_file()
        return Place(pathlib.Path(file), int(line)) if is_known else None


def assembled(source: Source, constants: Dict[str, int], folder: pathlib.Path, name: str) -> Linked:
    """Assembles and links a source. What as and ld refuse is a fault, with the file and line that they name."""
    lines, first = source.inline, source.place.line + 1
    if lines is None:
        lines, first = read_lines(source), 1
    before = ['.include "skybridge.inc"', *(f".equ {symbol}, {value}" for symbol, value in constants.items())]
    text = "\n".join([*before, f'# {first} "{source.path}"', *lines, ""])
    object_file, linked = folder / f"{name}.o", folder / f"{name}.elf"

    include = ["-I", str(HERE), "-I", str(source.path.parent)]
    done = run(["as", "--64", "-g", *include, "-o", str(object_file), "-"], text)
    pass_on(done, source, object_file)
    done = run(["ld", "-T", str(SCRIPT), "-e", "0", "--no-check-sections", "-o", str(linked), str(object_file)], "")
    pass_on(done, source, object_file)
    found = Linked(linked)
    for stranger in found.strangers():
        raise Fault(source.place, f"section {stranger}: a process has .text and .data (with .rodata and .bss)")
    return found


def from_here(line: str) -> str:
    """The line with its path as it is seen from the working directory."""
    return line.replace(f"{os.getcwd()}/", "", 1)


def read_lines(source: Source) -> List[str]:
    try:
        return source.path.read_text().splitlines()
    except (OSError, UnicodeDecodeError) as error:
        raise Fault(source.place, f"{source.path} cannot be read: {error}")


def run(command: List[str], text: str) -> "subprocess.CompletedProcess[str]":
    if shutil.which(command[0]) is None:
        raise Fault(None, f"there is no `{command[0]}` on this machine: install binutils")
    return subprocess.run(command, input=text, stdout=subprocess.PIPE, stderr=subprocess.PIPE, universal_newlines=True)


def pass_on(done: "subprocess.CompletedProcess[str]", source: Source, object_file: pathlib.Path) -> None:
    """Passes warnings of as or ld on, and makes their errors a fault."""
    headings = "Assembler messages:", "in function `"
    lines = [line for line in done.stderr.splitlines() if not any(heading in line for heading in headings)]
    lines = [from_here(line.replace("ld: ", "", 1).replace(f"{object_file}:", "", 1)) for line in lines]
    if done.returncode != 0:
        raise Fault(None, "\n".join(lines) or f"{source.place}: {done.args[0]} ended with {done.returncode}")
    for line in lines:
        print(line, file=sys.stderr)
