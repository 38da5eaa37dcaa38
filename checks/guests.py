"""Texts of guests in bytes: system calls, calls of servers, and random machines of each kind that checks/random draws."""

import random
from typing import Callable, Dict, List, Tuple

from bundles import DATA, TEXT, VMFUNC, bundle, little
from instructions import ROWS, drawn, instruction_of
from machine import machine_of

EXIT, PRINT, REGISTER, BIND, PROTECT = 0, 1, 2, 3, 4  # numbers of system calls
TRAMPOLINE = 0x70000000  # that of a client's call
VMFUNC_AT = TRAMPOLINE + 0x40
HEAP, PAGE = 0xC00000, 0x1000
CALL, JUMP = 0xE8, 0xE9
RET, NOP = b"\xc3", b"\x90"
CORES = 8
HEAP_CODE = (  # four bytes each: RET, NOP, MOV AL (which is no instruction), and parts of VMFUNC's bytes
    0x01C3C3C3, 0xD4010F90, 0xC3D4010F, 0x0F90C3C3, 0x010F9090, 0xC3C390D4, 0x050F01B0, 0xC3C0FF90, 0xC3C3C390, 0xC3C3D401,
    0xC3909090, 0xC3C0FF48,
)
RSP = 4
PATTERN = int.from_bytes(VMFUNC, "little")
STRAIGHT = [row for row in ROWS if not row.is_branch and row.name not in ("CALL", "JMP", "RET", "SYSCALL", "UD2")]
PLACES = (  # addresses at which something stands, or nothing
    0, 0x1000, TEXT, DATA, HEAP, 0x2004000, 0x3000000, 0x3004000, 0x3008000, 0x4003FF8, TRAMPOLINE, VMFUNC_AT, 0x70002000,
    0x70002010, 0x70004000, 0x70006000, 0x7FFFFFFFFFF8, 1 << 47, (1 << 64) - 8,
)
FAULTING = bytes.fromhex("8b042500000090")  # mov eax, [FFFFFFFF90000000]
COUNTING = bytes.fromhex("ba01000000 f0480fc1142500008000")  # mov edx, 1; lock xadd [800000], rdx
WAITING = bytes.fromhex("b905000000 ffc9 75fc")  # mov ecx, 5; dec ecx; jne to it
GO_ON = bytes.fromhex("4c89e6 4489e9 31c0")  # the way to VMFUNC with the key in R12 and the index in R13
AGAIN = bytes.fromhex("85c0 75eb")  # test eax, eax; jne to the system call before it, which is made until it answers 0


def call(number: int, first: int = 0, second: int = 0) -> bytes:
    """A system call of two arguments: 17 bytes, in four steps."""
    return b"\xbf" + little(first, 4) + b"\xbe" + little(second, 4) + b"\xb8" + little(number, 4) + b"\x0f\x05"


def jump(opcode: int, at: int, target: int) -> bytes:
    """A call (E8) or jump (E9) of five bytes, at this address."""
    return bytes([opcode]) + little(target - (at + 5), 4)


def move(register: int, value: int) -> bytes:
    """MOV r64, imm64."""
    return bytes([0x48 | register >> 3, 0xB8 | register & 7]) + little(value, 8)


def turns(draw: random.Random, cores: int, steps: int, longest: int) -> bytes:
    """A schedule of turns, each of a core that is drawn and of some steps."""
    found = b""
    while len(found) < steps:
        found += bytes([draw.randrange(cores)]) * draw.randrange(1, longest + 1)
    return found[:steps]


def handler(draw: random.Random, at: int) -> bytes:
    """What a server does in a call, at this address: count, print, wait, fault, exit, call on or return at once."""
    body = b""
    for _ in range(draw.randrange(3)):
        body += draw.choice((COUNTING, WAITING, call(PRINT, draw.getrandbits(32)), b"", FAULTING if draw.random() < 0.3 else b""))
    kind = draw.random()
    if kind < 0.15:
        return body + GO_ON + jump(JUMP, at + len(body) + len(GO_ON), VMFUNC_AT)
    return body + (call(EXIT, 9) if kind < 0.2 else RET)


def server(draw: random.Random, stacks: int) -> bytes:
    """Registers a handler, and exits."""
    before = 2 * len(call(EXIT))
    return call(REGISTER, TEXT + before, stacks) + call(EXIT) + handler(draw, TEXT + before)


def client(draw: random.Random, servers: int, calls: int) -> bytes:
    """Binds to two servers, which gives RBX, RBP and R13, R12 an index and a key, calls, and prints what came."""
    text = call(BIND, draw.randrange(servers)) + bytes.fromhex("89d3 4c89c5")  # mov ebx, edx; mov rbp, r8
    text += call(BIND, draw.randrange(servers + 1)) + bytes.fromhex("4189d5 4d89c4")  # mov r13d, edx; mov r12, r8
    for _ in range(calls):
        text += bytes.fromhex(draw.choice(("89df 4889ee", "89df 4889ee", "4489ef 4c89e6")))  # EDI and RSI
        odd = draw.random()
        if odd < 0.1:
            text += bytes.fromhex("48ffc6")  # inc rsi: a wrong key
        elif odd < 0.2:
            text += b"\xbf" + little(draw.choice((0, 3, 15, 16, 511, 512, 0xFFFFFFFF)), 4)  # an index that is not bound
        elif odd < 0.25:
            text += b"\xb8\x01\0\0\0\xb9\x01\0\0\0" + jump(CALL, TEXT + len(text) + 10, VMFUNC_AT)  # a leaf that is not 0
        text += jump(CALL, TEXT + len(text), TRAMPOLINE)
        text += bytes.fromhex(draw.choice(("89c7", "4889d7"))) + bytes.fromhex("b801000000 0f05")  # prints EAX or RDX
    return text + call(EXIT)


def calls(draw: random.Random) -> bytes:
    """Servers and clients, with keys and indices that are wrong at times, handlers that fault, exit and call on."""
    servers, clients = draw.randrange(1, 4), draw.randrange(1, 5)
    texts = [server(draw, draw.choice((1, 1, 2, 3, 16, 17))) for _ in range(servers)]
    texts += [client(draw, servers, draw.randrange(1, 5)) for _ in range(clients)]
    cores = len(texts)
    schedule = bytes(core for core in range(servers) for _ in range(8)) if draw.random() < 0.8 else b""
    schedule += turns(draw, cores, draw.randrange(600, 3000), draw.choice((1, 3, 40)))
    keys = [draw.getrandbits(64) for _ in range(draw.choice((0, 3, 12, 12)))]
    processes = [(text, bytes(8)) for text in texts]
    return bundle(processes, [(core, TEXT) for core in range(cores)], schedule, draw.choice((1024, 1024, 700)), keys)


def contention(draw: random.Random, behind_bind: bytes = b"") -> bytes:
    """One server with few stacks, and clients that call it at one time."""
    clients = draw.randrange(2, CORES)
    body = COUNTING + WAITING * draw.randrange(3) + RET
    texts = [call(REGISTER, TEXT + 34, draw.randrange(1, 4)) + call(EXIT) + body]
    calling = bytes.fromhex("89df 4889ee")
    for _ in range(clients):
        text = call(BIND) + behind_bind + bytes.fromhex("89d3 4c89c5")
        for _ in range(4):
            text += calling + jump(CALL, TEXT + len(text) + len(calling), TRAMPOLINE) + bytes.fromhex("89c7 b801000000 0f05")
        texts.append(text + call(EXIT))
    schedule = bytes(8)
    if draw.random() < 0.5:
        schedule += bytes(1 + step % clients for step in range(1500))
    else:
        schedule += bytes(1 + core for core in turns(draw, clients, 1500, draw.choice((1, 2, 5))))
    processes = [(text, bytes(8)) for text in texts]
    return bundle(processes, [(core, TEXT) for core in range(clients + 1)], schedule, keys=range(7, 7 + clients))


def hostile_text(draw: random.Random) -> bytes:
    """Registers with addresses, and then instructions of all kinds, system calls, and jumps into the trampoline."""
    text = b"".join(move(register, draw.choice(PLACES) + draw.choice((0, 0, 8, -8)))
                    for register in range(16) if register != RSP or draw.random() < 0.2)
    rows = [row for row in ROWS if not row.is_branch]
    for _ in range(draw.randrange(5, 40)):
        kind = draw.random()
        if kind < 0.1:
            text += jump(draw.choice((CALL, JUMP)), TEXT + len(text), TRAMPOLINE + draw.randrange(0xC0))
        elif kind < 0.2:
            text += call(draw.randrange(7), draw.choice((0, 1, 2, TEXT, 9)), draw.randrange(4))
        elif kind < 0.3:
            text += bytes([0x31, 0xC0, 0xB9]) + little(draw.randrange(4), 4)  # xor eax, eax; mov ecx, an index
        else:
            text += drawn(draw, draw.choice(rows)).spelled()
    return text + call(EXIT)


def hostile(draw: random.Random) -> bytes:
    """Processes of hostile texts: at times one of them is a server, and others are bound to it."""
    count = draw.randrange(1, 4)
    texts = [hostile_text(draw) for _ in range(count)]
    if draw.random() < 0.6:
        texts[0] = call(REGISTER, TEXT + 17, draw.randrange(1, 3)) + texts[0]
        texts[1:] = [call(BIND) + bytes.fromhex("89d7 4c89c6") + jump(CALL, TEXT + 22, TRAMPOLINE) + hostile_text(draw)
                     for _ in texts[1:]]
    cores = [(draw.randrange(count), TEXT) for _ in range(draw.randrange(1, 5))]
    schedule = bytes(4) + turns(draw, len(cores), draw.randrange(100, 800), 20)
    return bundle([(text, bytes(64)) for text in texts], cores, schedule, keys=range(5))


def with_pattern(draw: random.Random) -> bytes:
    """An instruction that holds the bytes of VMFUNC somewhere, or two that hold them together."""
    if draw.random() < 0.1:
        return draw.choice((VMFUNC, b"\x6a\x0f\x01\xd4", b"\x83\xc0\x0f\x01\xd4"))
    while True:
        code = bytearray(drawn(draw, draw.choice(STRAIGHT)).spelled())
        if len(code) < 5:
            continue
        at = draw.randrange(1, len(code) - 2)
        code[at : at + 3] = VMFUNC
        found = instruction_of(bytes(code))
        if found is not None and found[1] == len(code):
            return bytes(code)


def with_pattern_and_operand(draw: random.Random) -> bytes:
    """An instruction whose displacement or immediate holds the bytes of VMFUNC. Its operand in memory lies in the data."""
    while True:
        it = drawn(draw, draw.choice(STRAIGHT))
        if it.rex is not None:
            it.rex &= ~2
        it.sib = it.sib & ~0x38 | RSP << 3  # no index
        if it.displacement_size == 4:
            it.displacement = draw.choice((PATTERN, PATTERN, 0))
        if it.immediate_size >= 4:
            it.immediate = draw.choice((PATTERN, PATTERN << 8 | draw.randrange(256), draw.getrandbits(32)))
        if VMFUNC in it.spelled() and not (it.is_memory and it.base in (None, RSP)):
            before = move(it.base, DATA + 8 * draw.randrange(64) - it.displacement) if it.is_memory else b""
            return before + it.spelled()


def patterns(draw: random.Random) -> bytes:
    """A text in which instructions hold the bytes of VMFUNC. Most can be executed; a call through memory is refused."""
    text = b""
    for _ in range(draw.randrange(1, 30)):
        text += with_pattern(draw) if draw.random() < 0.1 else with_pattern_and_operand(draw)
        text += NOP * draw.randrange(2)
    if draw.random() < 0.1:
        text += b"\xff\x93" + VMFUNC + b"\0"
    return bundle([(text + call(EXIT), bytes(0x1000))], [(0, TEXT)], bytes(400))


def store(address: int, value: int) -> bytes:
    """MOV DWORD [address], imm32."""
    return b"\xc7\x04\x25" + little(address, 4) + little(value, 4)


def heap(draw: random.Random) -> bytes:
    """Threads that write code into heap pages, have them executed, go there and write again. VMFUNC's bytes come in parts."""
    pages = draw.randrange(1, 5)
    texts = []
    for _ in range(draw.randrange(1, 3)):
        text = b""
        for _ in range(draw.randrange(4, 16)):
            page = draw.randrange(pages + (draw.random() < 0.1))
            near = max(HEAP, HEAP + page * PAGE + draw.choice((-3, -2, -1, 0, 0, 0, 4, 0x20)))
            code = draw.choice(HEAP_CODE)
            text += draw.choice((
                store(near, code),
                call(PROTECT, page, draw.choice((0, 1, 1, 2))),
                call(PROTECT, page, 0) + store(near, code) + call(PROTECT, page, 1),
                call(PROTECT, page, 0) + store(near, code) + call(PROTECT, page, 1) + move(0, near) + b"\xff\xd0",  # call rax
                move(0, near) + b"\xff\xd0" if draw.random() < 0.2 else b"",
            ))
        texts.append(text + call(EXIT))
    cores = [(draw.randrange(len(texts)), TEXT) for _ in range(draw.randrange(1, 4))]
    image = bundle([(text, b"") for text in texts], cores, turns(draw, len(cores), 600, 12))
    return with_heap(image, pages)


def with_heap(image: bytes, pages: int) -> bytes:
    """The bundle with so many heap pages in each process."""
    machine = machine_of(image)
    return machine._replace(processes=[process._replace(heap_pages=pages) for process in machine.processes]).bundle()


def cores(draw: random.Random) -> bytes:
    """A machine whose cores run in any order: clients that ask until there is a server, or a machine of another kind."""
    return contention(draw, AGAIN) if draw.random() < 0.5 else draw.choice((calls, hostile, heap))(draw)


def broken(draw: random.Random) -> bytes:
    """A bundle with bytes changed, mostly of its header, cut off or added."""
    image = bytearray(draw.choice((calls, hostile, heap))(draw))
    for _ in range(draw.randrange(1, 4)):
        kind = draw.random()
        at = draw.randrange(min(len(image), 60)) if kind < 0.7 else draw.randrange(len(image))
        if kind < 0.8:
            image[at] = draw.choice((0, 1, 0xFF, draw.randrange(256)))
        elif kind < 0.9:
            del image[draw.randrange(len(image)) :]
            break
        else:
            image += draw.randbytes(draw.randrange(1, 4))
    return bytes(image)


KINDS: Dict[str, Callable[[random.Random], bytes]] = {
    "calls": calls, "contention": contention, "hostile": hostile, "patterns": patterns, "heap": heap, "broken": broken, "cores": cores,
}
# What the reports, or the refusals, of some bundles of a kind hold, so that the kind is what it is named for.
SEEN: Dict[str, Tuple[str, ...]] = {
    "calls": ("entered", "wrong key", "unbound", "server fault", "return"),
    "contention": ("entered", "pool empty", "landing 9", "return"),
    "hostile": ("fault memory", "fault undefined", "fault canon", "landing v"),
    "patterns": ("step 10", "exit"),
    "heap": ("sys 4 0", "sys 4 20", "step c0"),
    "broken": ("bundle Count", "bundle Range", "bundle Short", "bundle Trailing"),
    "cores": ("budget", "ended", "entered", "return", "dump"),
}


def drawn_bundles(kind: str, seed: int, count: int) -> List[bytes]:
    """Bundles of a kind, the same ones for a seed each time."""
    return [KINDS[kind](random.Random(f"{kind} {seed} {number}")) for number in range(count)]
