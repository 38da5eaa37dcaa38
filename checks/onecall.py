"""What plain memory holds after each entry of the worked run of one call (worked/one-call.bundle), by docs/FORMATS.md.

Process 0 is the server: its handler adds 1 to the first word of its data. Process 1 binds to it and calls it once. The thread
of each process has its number. Addresses are linear, in bytes.
"""

from typing import Dict, List, Tuple

from bundles import DATA, TEXT, little
from machine import Process
from walks import Access

PAGE = 4096
CODE, RECORD, DATA_PAGE = (Access.FETCH,), (Access.READ,), (Access.READ, Access.WRITE)
SAVES, STACK, THREAD = 0x3000000, 0x4000, 0x8000  # the save page of thread 0; from a save page to the stack, and to the next
BUFFER, SERVER_STACKS = 0x2044000, 0x4000000  # of binding 1 of thread 1; the first stack of a server
TRAMPOLINE, RECORDS, SCRATCH, POOL = 0x70000000, 0x70002000, 0x70004000, 0x70006000
PAGES, STACKS = 4, 2  # of a stack or a buffer; of the server
SAVE = SAVES + THREAD  # the client's save page
TOP_WORD = 0x3FF8  # of a stack, from its first byte
KEY, HANDLER, RETURN = 5, 0x400017, 0x400027
CALLER = SAVE + STACK + TOP_WORD  # where the client's CALL puts its return address

# The words that a line stores: the process that they belong to, the address, and the word. Where there is none, words stay.
AT_HOME: Dict[str, List[Tuple[int, int, int]]] = {
    "0 sys 2 0": [(0, POOL, 3), *((0, SERVER_STACKS + STACK * stack + TOP_WORD, TRAMPOLINE) for stack in range(STACKS))],
    "1 step 400022": [(1, CALLER, RETURN)],
    "1 step 7000000f": [(1, SAVE + 0x10, 1)],  # R12, the index of the binding
    "1 step 70000013": [(1, SAVE + 0x18, KEY)],  # R13
    "1 step 70000017": [(1, SAVE + 0x20, 1)],  # R14, the calls that are left
    "1 step 7000001f": [(1, SAVE + 0x30, CALLER)],  # RSP
    "1 call 1 entered 0": [(0, POOL, 2)],
}
AT_SERVER = {"1 step 40001c": [(0, DATA, 1)], "1 step 70000019": [(0, POOL, 3)]}

Pages = Dict[int, Tuple[Tuple[Access, ...], bytearray]]  # by the first address: the accesses, and the bytes


def zeros(first: int, count: int = PAGES) -> Pages:
    return {first + PAGE * number: (DATA_PAGE, bytearray(PAGE)) for number in range(count)}


def filled(first: int, content: bytes, accesses: Tuple[Access, ...], fill: bytes) -> Pages:
    """Pages with this content, whose last one is filled up."""
    whole = content + fill * (-len(content) % PAGE)
    return {first + at: (accesses, bytearray(whole[at : at + PAGE])) for at in range(0, len(whole), PAGE)}


def process_pages(number: int, process: Process) -> Pages:
    """The pages of a process at the start, but for those of views."""
    save = SAVES + THREAD * number
    pages = {**filled(TEXT, process.text, CODE, b"\xcc"), **filled(DATA, process.data, DATA_PAGE, b"\0")}
    return {**pages, **zeros(save, 1), **zeros(save + STACK), **zeros(POOL, 1)}


def memory_after(processes: List[Process], lines: List[str]) -> List[Pages]:
    """The pages of both processes after these lines of the report."""
    memory = [process_pages(number, process) for number, process in enumerate(processes)]
    is_entered = False
    for line in lines:
        if line == "0 sys 2 0":
            memory[0].update(zeros(SERVER_STACKS, STACKS * PAGES))
        if line == "1 sys 3 0":
            buffer = zeros(BUFFER)
            memory[0].update(buffer)
            memory[1].update(buffer)
        for process, address, word in (AT_SERVER if is_entered else AT_HOME).get(line, []):
            _, page = memory[process][address - address % PAGE]
            page[address % PAGE : address % PAGE + 8] = little(word, 8)
        is_entered = (is_entered or line == "1 call 1 entered 0") and line != "1 return"
    return memory


def record_words(thread: int, index: int) -> List[int]:
    """The words of the record page of a view: a binding's has the key, where stacks begin, and the handler."""
    if index:
        return [KEY, SERVER_STACKS + TOP_WORD, HANDLER, thread, 0, thread]
    return [0, 0, 0, thread, SAVES + THREAD * thread, thread]


def view_pages(memory: List[Pages], trampolines: List[bytes], thread: int, index: int) -> Pages:
    """The pages that a view gives: index 0 shows the thread's home, and index 1 the server."""
    words = b"".join(little(word, 8) for word in record_words(thread, index))
    own = {**filled(TRAMPOLINE, trampolines[index], CODE, b"\xcc"), **filled(RECORDS, words, RECORD, b"\0"), **zeros(SCRATCH, 1)}
    return {**memory[0 if index else thread], **own}
