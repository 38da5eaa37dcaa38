"""Guest programs that run one instruction in a random state, and then make the memory round it visible.

A text is: NOPs, a jump to the readers, the instruction, NOPs, the readers, the set-up, a jump to the instruction. It is
entered at the set-up. A branch under test leads to one of the NOPs.
"""

import random
from typing import List, NamedTuple, Tuple

from bundles import DATA, STACK_STRIDE, STACK_TOP, TEXT, VMFUNC, little
from instructions import RSP, Instruction, Row, drawn

MASK = (1 << 64) - 1
RAX, RCX = 0, 1
WORD = 8
WINDOW = 64  # bytes of initial data: a line of the cache, so that no locked access is split
SLED = 16  # NOPs, of one byte
JUMP = 2  # bytes of JMP rel8
START = TEXT + SLED + JUMP  # of the instruction under test
STACK_DEPTH = 0x2000  # of RSP below the stack's top
STACK_WORDS = 4  # two above the address in RSP, two below
EDGES = 0, 1, 2, 0x80, 1 << 31, 1 << 32, 1 << 63, MASK
COUNTS = 0, 1, 2, 31, 32, 33, 63, 64, 65, 255
SHIFTS = "SHL", "SHR", "SAR"
NO_PAGE = 0x900010, 0xFFFF800000000010  # beside the guest's pages, and in the system's half
HALF_A_PAGE = DATA - 4, DATA + 0xFFC  # 8 bytes there lie in two pages, of which one is missing
NOT_CANONICAL = 0x800000000010, 0xFFFF7FFFFFFFFFF0, 0x123456789ABCDEF0
UNREACHABLE_PART = 0.06  # of the cases with an operand in memory
NOP = b"\x90"
PUSH_RAX = b"\x50"
FLAG_SETTERS = 0x01, 0x09, 0x21, 0x29, 0x31  # ADD OR AND SUB XOR
RAX_WITH_RCX = 0xC8  # a ModRM byte
RSP_IS_BASE, NO_BASE = 0x24, 0x25  # SIB bytes


class Case(NamedTuple):
    """A guest program, and its steps until the instruction is done, and until the memory's words are in registers."""

    instruction: Instruction
    registers: List[int]  # in which the instruction runs
    text: bytes
    data: bytes
    entry: int
    steps: int
    steps_with_memory: int


def number(draw: random.Random) -> int:
    """A number of 64 bits, often one near an edge."""
    near = draw.choice(EDGES) + draw.randrange(-2, 3)
    short = draw.getrandbits(draw.randrange(1, 64))
    return draw.choice((near, short, draw.getrandbits(64), draw.getrandbits(64))) & MASK


def signed(bits: int, size: int) -> int:
    """The two's complement number of `size` bytes with these lowest bits."""
    return int.from_bytes(little(bits, size), "little", signed=True)


def aimed(draw: random.Random, it: Instruction, registers: List[int], target: int) -> int:
    """Sets displacement and registers so that the operand lies at the target, and says where it lies.

    That is up to 8 bytes before the target where one register is both base and index, and farther off where a target
    of more than 32 bits is to be reached by the displacement alone.
    """
    if it.is_rip_relative:
        it.displacement = target - START - len(it.spelled())
        return target
    factors = {} if it.base is None else {it.base: 1}
    if it.index is not None:
        factors[it.index] = factors.get(it.index, 0) + (1 << (it.sib >> 6))
    it.displacement = signed(it.displacement, it.displacement_size)

    def address() -> int:
        return sum(registers[each] * factor for each, factor in factors.items()) + it.displacement & MASK

    if it.base is not None and it.base != it.index:
        registers[it.base] = registers[it.base] + target - address() & MASK
    elif it.displacement_size == 4:
        if it.index is not None:
            registers[it.index] = draw.getrandbits(24)
        it.displacement = signed(it.displacement + target - address(), 4)
    else:
        registers[it.index] = (target - it.displacement) // factors[it.index] & MASK
    return address()


def choose_numbers(draw: random.Random, it: Instruction, registers: List[int], operand: int) -> int:
    """The rm operand, and with it the counts of shifts, which are set: numbers that tell more than random ones."""
    name = it.row.name
    if name in SHIFTS:
        it.immediate = draw.choice((*COUNTS, draw.getrandbits(8)))
        if not it.is_memory or RCX not in (it.base, it.index):
            registers[RCX] = registers[RCX] & ~0xFF | draw.choice(COUNTS)
    if name == "CMPXCHG" and draw.random() < 0.6:
        return registers[RAX] ^ draw.choice((0, 0, 1 << 40, 1 << 63))
    if name == "BSF" and draw.random() < 0.6:
        return draw.choice((0, 1 << draw.randrange(64), MASK << draw.randrange(64) & MASK))
    return operand


def move(register: int, bits: int) -> bytes:
    """MOV r64, imm64."""
    return bytes([0x48 | register >> 3, 0xB8 | register & 7]) + little(bits, 8)


def load(register: int, mod: int, sib: int, displacement: bytes) -> bytes:
    """MOV r64, [the operand of this SIB byte]."""
    return bytes([0x48 | register >> 3 << 2, 0x8B, mod << 6 | (register & 7) << 3 | 4, sib]) + displacement


def jump(distance: int) -> bytes:
    """JMP rel8."""
    return b"\xeb" + little(distance, 1)


def readers() -> List[bytes]:
    """Instructions that load the data window and the words round RSP, and then a jump to itself."""
    window = [load(to, 0, NO_BASE, little(DATA + WORD * i, 4)) for i, to in enumerate((0, 1, 2, 3, 5, 6, 7, 8))]
    stack = [load(9 + i, 1, RSP_IS_BASE, little(WORD * (i - 2), 1)) for i in range(STACK_WORDS)]
    return window + stack + [jump(-JUMP)]


def set_up(draw: random.Random, registers: List[int], stack: int, words: List[int]) -> List[bytes]:
    """Instructions that put words round the address in the stack, and set flags and then all registers."""
    found = [move(RSP, stack + 2 * WORD)]
    for word in words:
        found += [move(RAX, word), PUSH_RAX]
    one = number(draw)
    found += [move(RAX, one), move(RCX, draw.choice((one, -one & MASK, number(draw))))]
    found.append(bytes([0x48, draw.choice(FLAG_SETTERS), RAX_WITH_RCX]))
    return found + [move(register, bits) for register, bits in enumerate(registers)]


def operand_address(draw: random.Random, it: Instruction, registers: List[int]) -> int:
    """Where the operand in memory lies: mostly in the window, at times where it cannot be accessed."""
    target = DATA + draw.randrange(WORD, WINDOW - WORD + 1)
    if draw.random() < UNREACHABLE_PART and not it.is_rip_relative:
        is_locked = it.lock or it.row.name == "XCHG"
        target = draw.choice(NO_PAGE + NOT_CANONICAL + (() if is_locked else HALF_A_PAGE))
    return aimed(draw, it, registers, target)


def laid_out(spelled: bytes, before: List[bytes]) -> Tuple[bytes, int]:
    """The text of this instruction and this set-up, and the set-up's address."""
    body = NOP * SLED + jump(len(spelled) + SLED) + spelled + NOP * SLED + b"".join(readers())
    text = body + b"".join(before)
    return text + b"\xe9" + little(START - TEXT - len(text) - 5, 4), TEXT + len(body)


def attempt(draw: random.Random, row: Row, thread: int) -> Case:
    """A case, whose text may hold VMFUNC by chance."""
    it = drawn(draw, row)
    registers = [number(draw) for _ in range(16)]
    stack = registers[RSP] = STACK_TOP + thread * STACK_STRIDE - STACK_DEPTH + draw.randrange(2 * WORD)
    words = [number(draw) for _ in range(STACK_WORDS)]
    data = bytearray(b"".join(little(number(draw), WORD) for _ in range(WINDOW // WORD)))
    place = operand_address(draw, it, registers) - DATA if it.is_memory else None
    following = START + len(it.spelled())
    target = draw.choice((TEXT, following)) + draw.randrange(SLED)

    operand = choose_numbers(draw, it, registers, number(draw) if it.is_memory else registers[it.rm])
    if row.is_branch:
        it.immediate = target - following
    elif row.name == "RET":
        words[1] = target
    elif row.name in ("JMP", "CALL"):
        operand = target
    if it.is_memory and 0 <= place <= WINDOW - WORD:
        data[place : place + WORD] = little(operand, WORD)
    elif row.modrm and not it.is_memory:
        registers[it.rm] = operand

    before = set_up(draw, registers, stack, words)
    text, entry = laid_out(it.spelled(), before)
    steps = len(before) + 2
    steps_with_memory = steps + SLED + 1 + len(readers())
    if row.name == "JMP" and registers[RSP] == target:
        steps_with_memory = steps  # RSP points into the text, which the processor can read and the machine cannot
    return Case(it, registers, text, bytes(data), entry, steps, steps_with_memory)


def drawn_case(draw: random.Random, row: Row, thread: int) -> Case:
    """A random case of the row for this thread."""
    case = attempt(draw, row, thread)
    return drawn_case(draw, row, thread) if VMFUNC in case.text else case
