"""The instructions that the machine knows, row by row as in docs/FORMATS.md: how one is spelled, read and written in words.

VMFUNC is no row, since a text that holds it is rewritten.
"""

import dataclasses
import random
from typing import List, NamedTuple, Optional, Tuple

RSP = 4
NO_INDEX = 4  # in the index field, without REX.X
ESCAPED = 4  # an rm field that says that a SIB byte follows
ABSOLUTE = 5  # with mod 0: an rm field of RIP-relative operands, a base field without a base
LOCK = 0xF0
CONDITIONS = "o no b ae e ne be a s ns p np l ge le g".split()
NAMES = "rax rcx rdx rbx rsp rbp rsi rdi".split()
BYTE_NAMES = "al cl dl bl spl bpl sil dil".split()
SIZES = {1: "BYTE", 4: "DWORD", 8: "QWORD"}


class Row(NamedTuple):
    """An opcode, with its digit in ModRM's reg field where it has one."""

    name: str
    opcode: bytes
    modrm: bool = False
    digit: Optional[int] = None
    immediate: int = 0  # bytes; 4 becomes 8 with REX.W where `wide`
    wide: bool = False
    rex: bool = True
    lock: bool = False  # with an operand in memory
    memory_only: bool = False
    byte_reg: bool = False
    byte_rm: bool = False
    is_branch: bool = False  # a direct one: the immediate is its distance
    operands: str = ""  # in their order: rm, reg, imm, acc, cl, opreg (in the opcode), target
    access: str = ""  # to an rm operand in memory: r, w or rw
    stack: str = ""  # r for a word that is taken, w for one that is put
    is_64: bool = False  # without REX.W too


def rows() -> List[Row]:
    """Every row of the subset but VMFUNC."""
    return arithmetic_rows() + move_rows() + control_rows()


def rm_row(name: str, opcode: str, operands: str, access: str, **fields) -> Row:
    """A row with ModRM."""
    return Row(name, bytes.fromhex(opcode), modrm=True, operands=operands, access=access, **fields)


def plain_row(name: str, opcode: str, operands: str = "", **fields) -> Row:
    """A row without ModRM and REX."""
    return Row(name, bytes.fromhex(opcode), rex=False, operands=operands, **fields)


def arithmetic_rows() -> List[Row]:
    found = []
    for digit, name in {0: "ADD", 1: "OR", 4: "AND", 5: "SUB", 6: "XOR", 7: "CMP"}.items():
        lock, access = name != "CMP", "r" if name == "CMP" else "rw"
        found.append(rm_row(name, f"{8 * digit + 1:02x}", "rm reg", access, lock=lock))
        found.append(rm_row(name, f"{8 * digit + 3:02x}", "reg rm", "r"))
        found.append(Row(name, bytes([8 * digit + 5]), immediate=4, operands="acc imm"))
        found.append(rm_row(name, "81", "rm imm", access, digit=digit, immediate=4, lock=lock))
        found.append(rm_row(name, "83", "rm imm", access, digit=digit, immediate=1, lock=lock))
    found.append(rm_row("TEST", "85", "rm reg", "r"))
    found.append(rm_row("TEST", "f7", "rm imm", "r", digit=0, immediate=4))
    found.append(rm_row("NOT", "f7", "rm", "rw", digit=2, lock=True))
    found.append(rm_row("NEG", "f7", "rm", "rw", digit=3, lock=True))
    found.append(rm_row("IMUL", "0faf", "reg rm", "r"))
    found.append(rm_row("IMUL", "69", "reg rm imm", "r", immediate=4))
    found.append(rm_row("IMUL", "6b", "reg rm imm", "r", immediate=1))
    for digit, name in {4: "SHL", 5: "SHR", 7: "SAR"}.items():
        found.append(rm_row(name, "c1", "rm imm", "rw", digit=digit, immediate=1))
        found.append(rm_row(name, "d3", "rm cl", "rw", digit=digit))
    found.append(rm_row("INC", "ff", "rm", "rw", digit=0, lock=True))
    found.append(rm_row("DEC", "ff", "rm", "rw", digit=1, lock=True))
    return found


def move_rows() -> List[Row]:
    found = [
        rm_row("MOV", "89", "rm reg", "w"),
        rm_row("MOV", "8b", "reg rm", "r"),
        rm_row("MOV", "88", "rm reg", "w", byte_reg=True, byte_rm=True),
        rm_row("MOV", "8a", "reg rm", "r", byte_reg=True, byte_rm=True),
        rm_row("MOV", "c7", "rm imm", "w", digit=0, immediate=4),
        rm_row("MOVZX", "0fb6", "reg rm", "r", byte_rm=True),
        rm_row("LEA", "8d", "reg rm", "", memory_only=True),
    ]
    for register in range(8):
        found.append(Row("MOV", bytes([0xB8 + register]), immediate=4, wide=True, operands="opreg imm"))
        found.append(Row("PUSH", bytes([0x50 + register]), operands="opreg", stack="w", is_64=True))
        found.append(Row("POP", bytes([0x58 + register]), operands="opreg", stack="r", is_64=True))
    found.append(rm_row("PUSH", "ff", "rm", "r", digit=6, stack="w", is_64=True))
    found.append(plain_row("PUSH", "68", "imm", immediate=4, stack="w", is_64=True))
    found.append(plain_row("PUSH", "6a", "imm", immediate=1, stack="w", is_64=True))
    found.append(rm_row("XCHG", "87", "rm reg", "rw", lock=True))
    found.append(rm_row("CMPXCHG", "0fb1", "rm reg", "rw", lock=True))
    found.append(rm_row("XADD", "0fc1", "rm reg", "rw", lock=True))
    found.append(rm_row("BSF", "0fbc", "reg rm", "r"))
    return found


def control_rows() -> List[Row]:
    found = [
        plain_row("JMP", "eb", "target", immediate=1, is_branch=True),
        plain_row("JMP", "e9", "target", immediate=4, is_branch=True),
        rm_row("JMP", "ff", "rm", "r", digit=4, is_64=True),
    ]
    for condition in range(16):
        found.append(plain_row("Jcc", f"{0x70 + condition:02x}", "target", immediate=1, is_branch=True))
        found.append(plain_row("Jcc", f"0f{0x80 + condition:02x}", "target", immediate=4, is_branch=True))
    found.append(plain_row("CALL", "e8", "target", immediate=4, is_branch=True, stack="w"))
    found.append(rm_row("CALL", "ff", "rm", "r", digit=2, stack="w", is_64=True))
    found.append(plain_row("RET", "c3", stack="r"))
    found.append(plain_row("NOP", "90"))
    found.append(rm_row("NOP", "0f1f", "rm", "", digit=0))
    found.append(plain_row("ENDBR64", "f30f1efa"))
    found.append(plain_row("SYSCALL", "0f05"))
    found.append(plain_row("UD2", "0f0b"))
    return found


def little(number: int, size: int) -> bytes:
    """The number in `size` bytes, negative ones as their two's complement."""
    return (number % (1 << 8 * size)).to_bytes(size, "little")


ROWS = rows()


@dataclasses.dataclass
class Instruction:
    """An instruction by its fields. What a row does not have is not spelled."""

    row: Row
    lock: bool = False
    rex: Optional[int] = None
    modrm: int = 0
    sib: int = 0
    displacement: int = 0
    immediate: int = 0

    def rex_bit(self, bit: int) -> int:
        """8 where REX has this bit, which makes a field of 3 bits the number of a register; else 0."""
        return (self.rex or 0) >> bit << 3 & 8

    @property
    def size(self) -> int:
        """The operand size in bytes, where the row's operand is no byte."""
        return 8 if self.rex_bit(3) or self.row.is_64 else 4

    @property
    def mod(self) -> int:
        return self.modrm >> 6

    @property
    def is_memory(self) -> bool:
        return self.row.modrm and self.mod != 3

    @property
    def reg(self) -> int:
        return self.modrm >> 3 & 7 | self.rex_bit(2)

    @property
    def rm(self) -> int:
        return self.modrm & 7 | self.rex_bit(0)

    @property
    def has_sib(self) -> bool:
        return self.is_memory and self.modrm & 7 == ESCAPED

    @property
    def is_rip_relative(self) -> bool:
        return self.is_memory and self.mod == 0 and self.modrm & 7 == ABSOLUTE

    @property
    def base(self) -> Optional[int]:
        field = self.sib if self.has_sib else self.modrm
        return None if self.mod == 0 and field & 7 == ABSOLUTE else field & 7 | self.rex_bit(0)

    @property
    def index(self) -> Optional[int]:
        number = self.sib >> 3 & 7 | self.rex_bit(1)
        return number if self.has_sib and number != NO_INDEX else None

    @property
    def displacement_size(self) -> int:
        if not self.is_memory or self.mod == 1:
            return int(self.is_memory)
        return 4 if self.mod == 2 or self.base is None else 0

    @property
    def immediate_size(self) -> int:
        return self.size if self.row.wide else self.row.immediate

    def spelled(self) -> bytes:
        """Its bytes."""
        prefixes = (b"\xf0" if self.lock else b"") + (b"" if self.rex is None else bytes([self.rex]))
        form = bytes([self.modrm] if self.row.modrm else []) + bytes([self.sib] if self.has_sib else [])
        numbers = little(self.displacement, self.displacement_size) + little(self.immediate, self.immediate_size)
        return prefixes + self.row.opcode + form + numbers


def drawn(draw: random.Random, row: Row) -> Instruction:
    """A random instruction of the row: LOCK and REX or none, each form of its operands, any numbers."""
    lock = row.lock and draw.random() < 0.3
    rex = draw.choice((None, 0x40 + draw.randrange(16), 0x48 + draw.randrange(8))) if row.rex else None
    mod = draw.randrange(3) if lock or row.memory_only else draw.choice((0, 0, 1, 2, 3, 3))
    reg = draw.randrange(8) if row.digit is None else row.digit
    rm = draw.choice((ESCAPED, ABSOLUTE, draw.randrange(8), draw.randrange(8)))
    # Without REX the numbers 4 to 7 of a byte register mean high bytes, which the machine does not know.
    if rex is None and (row.byte_reg and reg > 3 or row.byte_rm and mod == 3 and rm > 3):
        rex = 0x40
    index = draw.choice((NO_INDEX, draw.randrange(8), draw.randrange(8)))
    base = draw.choice((ABSOLUTE, draw.randrange(8), draw.randrange(8)))
    sib = draw.randrange(4) << 6 | index << 3 | base
    found = Instruction(row, lock, rex, mod << 6 | reg << 3 | rm, sib)
    found.displacement = draw.getrandbits(8 * found.displacement_size) if found.displacement_size else 0
    found.immediate = draw.getrandbits(8 * found.immediate_size) if found.immediate_size else 0
    return found


def instruction_of(code: bytes) -> Optional[Tuple[Instruction, int]]:
    """The instruction with which the bytes begin, and its length; none where no whole one of the rows does."""
    at = int(code[:1] == bytes([LOCK]))
    lock, rex = at == 1, None
    if code[at : at + 1] and code[at] >> 4 == 4:
        rex, at = code[at], at + 1
    for row in ROWS:
        if code[at : at + len(row.opcode)] == row.opcode and (rex is None or row.rex):
            found = Instruction(row, lock, rex)
            length = read_fields(found, code, at + len(row.opcode))
            if length is not None and is_whole(found):
                return found, length
    return None


def read_fields(found: Instruction, code: bytes, at: int) -> Optional[int]:
    """Reads what follows the opcode, and gives the length; none where the bytes do not suffice."""
    padded = code + bytes(16)
    if found.row.modrm:
        found.modrm, at = padded[at], at + 1
        if found.has_sib:
            found.sib, at = padded[at], at + 1
    for name, size in (("displacement", found.displacement_size), ("immediate", found.immediate_size)):
        setattr(found, name, int.from_bytes(padded[at : at + size], "little", signed=True))
        at += size
    return at if at <= len(code) else None


def is_whole(it: Instruction) -> bool:
    """Whether digit, LOCK and operands are those that the row may have."""
    row = it.row
    is_high = it.rex is None and (row.byte_reg and it.reg > 3 or row.byte_rm and not it.is_memory and it.rm > 3)
    has_lock = not it.lock or row.lock and it.is_memory
    is_right = row.digit is None or row.digit == it.modrm >> 3 & 7
    return is_right and has_lock and not is_high and (it.is_memory or not row.memory_only)


def words_of(it: Instruction, address: int) -> str:
    """The instruction at an address in the words of Intel syntax, as objdump writes them."""
    length = len(it.spelled())
    name = f"j{CONDITIONS[it.row.opcode[-1] & 15]}" if it.row.name == "Jcc" else it.row.name.lower()
    operands = [operand_of(it, word, address + length) for word in it.row.operands.split()]
    return ("lock " if it.lock else "") + " ".join([name] + [",".join(operands)] * bool(operands))


def operand_of(it: Instruction, word: str, following: int) -> str:
    """An operand in words. The next instruction stands at `following`."""
    size = 1 if it.row.byte_rm and word == "rm" or it.row.byte_reg and word == "reg" else it.size
    if word == "target":
        return f"{(following + it.immediate) % (1 << 64):#x}"
    if word == "imm":
        width = 1 if it.row.name in ("SHL", "SHR", "SAR") else size
        return f"{it.immediate % (1 << 8 * width):#x}"
    if word == "rm" and it.is_memory:
        return (f"{SIZES[size]} PTR " if it.row.name != "LEA" else "") + address_of(it)
    if word == "cl":
        return word
    number = {"rm": it.rm, "reg": it.reg, "acc": 0, "opreg": it.row.opcode[-1] & 7 | it.rex_bit(0)}[word]
    return register_name(number, size)


def register_name(number: int, size: int) -> str:
    if number > 7:
        return f"r{number}" + {8: "", 4: "d", 1: "b"}[size]
    return BYTE_NAMES[number] if size == 1 else NAMES[number] if size == 8 else "e" + NAMES[number][1:]


def address_of(it: Instruction) -> str:
    """The address of the operand in memory, in brackets."""
    parts = [register_name(it.base, 8)] if it.base is not None else ["rip"] if it.is_rip_relative else []
    if it.index is not None:
        parts.append(f"{register_name(it.index, 8)}*{1 << (it.sib >> 6)}")
    if not parts:
        return f"ds:{it.displacement % (1 << 64):#x}"
    sign = "-" if it.displacement < 0 else "+"
    return f"[{'+'.join(parts)}" + (f"{sign}{abs(it.displacement):#x}" if it.displacement_size else "") + "]"
