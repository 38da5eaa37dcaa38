"""What each view of a dump gives: its pages, and the pages of plain memory that docs/FORMATS.md names at their addresses.

Addresses are linear, in bytes; frames and the numbers of pages count 4,096 bytes.
"""

from typing import Dict, List, NamedTuple, Optional, Tuple

from dumps import PAGE, Dump
from walks import Access, View, is_eptp

FIRST_ROOT, PROCESSES = 16, 16  # frames 16 + p hold the roots of the page tables of processes p (docs/LAYOUT.md)
VIEWS = 16  # of a thread, at most

CODE, RECORD, DATA = (Access.FETCH,), (Access.READ,), (Access.READ, Access.WRITE)

# The regions of a process (docs/FORMATS.md, "The memory of a thread"): first page, number of pages, name, accesses.
PROCESS_REGIONS = [
    (0x1, 16, "rewrite area page", [CODE]),
    (0x400, 512, "text page", [CODE]),
    (0x800, 512, "data page", [DATA]),
    (0xC00, 512, "heap page", [DATA, CODE]),
    (0x4000, 64, "server stack page", [DATA]),
    (0x70006, 1, "pool page", [DATA]),
]
BUFFERS, THREAD_BUFFERS, BUFFER = 0x2000, 64, 4  # first page; pages of a thread's buffers, and of one buffer
STACKS, THREAD_STACKS, STACK = 0x3000, 8, 4  # first page; pages of a thread, of which the last are its stack
THREADS = 32  # for which there is room in these two
TRAMPOLINE, RECORD_PAGE, SCRATCH_PAGE = 0x70000, 0x70002, 0x70004


class Name(NamedTuple):
    """A page of plain memory, in words, and the accesses that it may give: one of these."""

    text: str
    accesses: List[Tuple[Access, ...]]


class Seen(NamedTuple):
    """A page that a view of a thread gives: its first address, the frame to which it leads, by which accesses, and its name."""

    thread: int
    index: int
    address: int
    frame: int
    accesses: Tuple[Access, ...]
    name: Optional[Name]

    @property
    def text(self) -> str:
        return self.name.text if self.name else "a page that has no name there"

    @property
    def place(self) -> str:
        return f"thread {self.thread} view {self.index} address {self.address:x} frame {self.frame:x}"


class Sight(NamedTuple):
    """A view of a thread: the walks through it, the process that it shows (none where no root does), and its pages."""

    thread: int
    index: int
    view: View
    process: Optional[int]
    pages: List[Seen]

    @property
    def shown(self) -> str:
        return "no process" if self.process is None else f"process {self.process}"


def process_of(view: View) -> Optional[int]:
    """The process whose root stands in the frame to which the EPT leads the page of CR3."""
    root = view.ept_walk(view.cr3 - view.cr3 % PAGE, Access.READ).place
    number = -1 if root is None else root // PAGE - FIRST_ROOT
    return number if 0 <= number < PROCESSES else None


def name_at(processes: Dict[Tuple[int, int], int], thread: int, index: int, page: int) -> Optional[Name]:
    """The page that a view gives at a page number, where the views show these processes; none where there is none."""
    process = processes.get((thread, index))
    if process is None:
        return None
    for first, count, kind, accesses in PROCESS_REGIONS:
        if first <= page < first + count:
            number = f" {page - first}" if count > 1 else ""
            return Name(f"{kind}{number} of process {process}", accesses)
    if 0 <= page - BUFFERS < THREADS * THREAD_BUFFERS:
        owner, rest = divmod(page - BUFFERS, THREAD_BUFFERS)
        binding, number = divmod(rest, BUFFER)
        is_seen = process in (processes.get((owner, 0)), processes.get((owner, binding)))
        return Name(f"buffer page {number} of binding {binding} of thread {owner}", [DATA]) if is_seen else None
    if 0 <= page - STACKS < THREADS * THREAD_STACKS:
        owner, number = divmod(page - STACKS, THREAD_STACKS)
        if processes.get((owner, 0)) != process or 0 < number < STACK:
            return None
        kind = f"stack page {number - STACK}" if number else "save page"
        return Name(f"{kind} of thread {owner}", [DATA])
    own = {
        TRAMPOLINE: Name("server trampoline page" if index else "home trampoline page", [CODE]),
        RECORD_PAGE: Name(f"record page of view {index} of thread {thread}", [RECORD]),
        SCRATCH_PAGE: Name(f"scratch page of view {index} of thread {thread}", [DATA]),
    }
    return own.get(page)


def sights_of(dump: Dump) -> List[Sight]:
    """The view of each EPT pointer in the lists, thread by thread."""
    views = {}
    for thread, core in enumerate(dump.cores):
        for index, word in enumerate(dump.words(core.list_frame)):
            if is_eptp(word):
                views[thread, index] = View(dump, word, core.cr3)
    processes = {place: process_of(view) for place, view in views.items()}
    known = {place: process for place, process in processes.items() if process is not None}
    sights = []
    for (thread, index), view in views.items():
        found: Dict[Tuple[int, int], List[Access]] = {}
        for access in Access:
            for linear, frame in view.pages(access).items():
                found.setdefault((linear, frame), []).append(access)
        pages = [
            Seen(thread, index, linear, frame, tuple(accesses), name_at(known, thread, index, linear // PAGE))
            for (linear, frame), accesses in sorted(found.items())
        ]
        sights.append(Sight(thread, index, view, processes[thread, index], pages))
    return sights
