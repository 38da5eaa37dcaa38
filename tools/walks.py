"""The two walks through a dump: the guest's page tables, each of whose addresses goes through the extended page tables.

Written from the Intel SDM, volume 3: section 4.5 for the guest's tables, section 28.3 for the EPT. Of an entry the bits named
below are tested, and no other: reserved bits, accessed and dirty flags and global pages are not. A place is a physical address
in bytes; a frame, and a page, is a number of 4,096 bytes. Levels are 4 for the PML4 table down to 1 for a page table.
"""

import enum
from typing import Dict, Iterator, List, NamedTuple, Optional, Tuple

from dumps import ENTRIES, PAGE, Dump

LEVELS = 4, 3, 2, 1

# Entries of the guest's tables (section 4.5.4, tables 4-15 to 4-20).
PRESENT = 1 << 0  # P: the entry is in use
WRITABLE = 1 << 1  # R/W: writes are permitted (section 4.6.1)
USER = 1 << 2  # U/S: accesses in user mode are permitted (section 4.6.1)
LARGE = 1 << 7  # PS, at levels 3 and 2: the entry maps a large page; so does bit 7 of the EPT's (tables 28-2 and 28-4)
EXECUTE_DISABLED = 1 << 63  # XD: fetches are not permitted (section 4.6.1)

# Entries of the EPT (section 28.3.2, tables 28-1 to 28-6).
EPT_READ = 1 << 0  # reads are permitted
EPT_WRITE = 1 << 1  # writes are permitted; without reads that is a misconfiguration (section 28.3.3.1)
EPT_EXECUTE = 1 << 2  # fetches are permitted
EPT_RIGHTS = EPT_READ | EPT_WRITE | EPT_EXECUTE  # all 0: the entry is not present
EPT_MEMORY_TYPE = 7 << 3  # bits 5 to 3, at level 1 (section 28.3.7.2)
EPT_WRITE_BACK = 6 << 3  # the one memory type that is permitted there

EPTP_FLAGS = 0x1E  # bits 11 to 0 of an EPT pointer: memory type 6, a walk of four levels (section 24.6.11)


class Access(enum.Enum):
    READ = "read"
    WRITE = "write"
    FETCH = "fetch"


EPT_RIGHT = {Access.READ: EPT_READ, Access.WRITE: EPT_WRITE, Access.FETCH: EPT_EXECUTE}


# ---- entries


def frame_in(word: int) -> int:
    """The frame to which an entry, CR3 or an EPT pointer leads: bits 51 to 12 (sections 4.5.4, 28.3.2 and 24.6.11)."""
    return word >> 12 & (1 << 40) - 1


def shift(level: int) -> int:
    """The lowest bit of an address that is part of the index into a table of this level."""
    return 3 + 9 * level


def entry_place(frame: int, level: int, address: int) -> int:
    """Where the entry for an address stands in the table of this level that stands in the frame (sections 4.5.4, 28.3.2)."""
    return PAGE * frame + 8 * (address >> shift(level) & ENTRIES - 1)


def is_eptp(word: int) -> bool:
    """An EPT pointer, as VMFUNC takes it from a list (sections 24.6.11 and 25.5.5.3): its flags, and bits 63 to 52 clear."""
    return word % PAGE == EPTP_FLAGS and word >> 52 == 0


def is_canonical(address: int) -> bool:
    """Whether bits 63 to 47 of an address are all the same (volume 1, section 3.3.7.1)."""
    return address >> 47 in (0, (1 << 17) - 1)


def guest_refusal(access: Access, level: int, entry: int) -> str:
    """Why an entry of the guest's tables refuses an access in user mode; empty where it does not."""
    if not entry & PRESENT:
        return "not present"
    if level in (3, 2) and entry & LARGE:
        return "a large page"
    is_denied = not entry & USER
    is_denied |= access is Access.WRITE and not entry & WRITABLE
    is_denied |= access is Access.FETCH and bool(entry & EXECUTE_DISABLED)
    return "not permitted" if is_denied else ""


def ept_refusal(frames: int, access: Access, level: int, entry: int) -> str:
    """Why an entry of the EPT of a memory of so many frames refuses an access; empty where it does not."""
    if not entry & EPT_RIGHTS:
        return "not present"
    if entry & EPT_WRITE and not entry & EPT_READ or level == 1 and entry & EPT_MEMORY_TYPE != EPT_WRITE_BACK:
        return "misconfigured"
    if level in (3, 2) and entry & LARGE:
        return "a large page"
    if frame_in(entry) >= frames:
        return "outside of memory"
    return "" if entry & EPT_RIGHT[access] else "not permitted"


# ---- walks


class Entry(NamedTuple):
    """An entry that a walk reads: of the `EPT` or the `guest`, its level, its place, and the word."""

    kind: str
    level: int
    place: int
    word: int


class Walk(NamedTuple):
    """Where an address leads: a place, or none and why; and the entries that were read, in their order."""

    place: Optional[int]
    refusal: str
    entries: List[Entry]


class Table(NamedTuple):
    """A table of the guest: its level, the lowest 48 bits of its first linear address, the walk of its frame, and its words."""

    level: int
    linear: int
    found: Walk
    words: Tuple[int, ...]

    def permitted(self, access: Access) -> List[Tuple[int, int]]:
        """Each entry that permits an access: the first linear address for it, and the guest frame to which it leads."""
        entries = ((index, word) for index, word in enumerate(self.words) if word)  # 0 is not present
        permitted = ((index, word) for index, word in entries if not guest_refusal(access, self.level, word))
        return [(self.linear | index << shift(self.level), frame_in(word)) for index, word in permitted]


class View(NamedTuple):
    """What a core sees: memory through an EPT pointer and CR3."""

    dump: Dump
    eptp: int
    cr3: int

    def ept_walk(self, address: int, access: Access) -> Walk:
        """The walk of a guest-physical address through the EPT (section 28.3.2)."""
        entries: List[Entry] = []
        if address >> 48:
            return Walk(None, "EPT: more than 48 bits", entries)
        frame = frame_in(self.eptp)
        for level in LEVELS:
            place = entry_place(frame, level, address)
            word = self.dump.word(place)
            if word is None:
                return Walk(None, f"EPT level {level}: no frame {frame:x}", entries)
            entries.append(Entry("EPT", level, place, word))
            refusal = ept_refusal(self.dump.frames, access, level, word)
            if refusal:
                return Walk(None, f"EPT level {level}: {refusal}", entries)
            frame = frame_in(word)
        return Walk(PAGE * frame + address % PAGE, "", entries)

    def walk(self, linear: int, access: Access) -> Walk:
        """The walk of a linear address through the guest's tables, whose entries lie behind the EPT (section 4.5.4)."""
        entries: List[Entry] = []
        if not is_canonical(linear):
            return Walk(None, "not canonical", entries)
        frame = frame_in(self.cr3)
        for level in LEVELS:
            table = self.ept_walk(entry_place(frame, level, linear), Access.READ)
            entries += table.entries
            if table.place is None:
                return Walk(None, f"guest level {level}: the entry cannot be read: {table.refusal}", entries)
            word = self.dump.word(table.place)  # in a frame of the memory, as ept_refusal tests
            entries.append(Entry("guest", level, table.place, word))
            refusal = guest_refusal(access, level, word)
            if refusal:
                return Walk(None, f"guest level {level}: {refusal}", entries)
            frame = frame_in(word)
        page = self.ept_walk(PAGE * frame + linear % PAGE, access)
        return Walk(page.place, page.refusal, entries + page.entries)

    # ---- the walks of all addresses

    def tables(self, access: Access, level: int, frame: int, linear: int = 0) -> Iterator[Table]:
        """Each table from which some walk for this access reads an entry, from the one in this page of the guest on."""
        found = self.ept_walk(PAGE * frame, Access.READ)
        table = Table(level, linear, found, () if found.place is None else self.dump.words(found.place // PAGE))
        yield table
        for first, below in table.permitted(access) if level > 1 else []:
            yield from self.tables(access, level - 1, below, first)

    def lowest(self, tables: List[Table], access: Access) -> Iterator[Tuple[int, Walk]]:
        """The first linear address of each page whose lowest entry permits the access, and the walk of its page of the guest."""
        for table in tables:
            for linear, frame in table.permitted(access) if table.level == 1 else []:
                upper = 0xFFFF << 48 if linear >> 47 else 0  # of the canonical address with these 48 bits
                yield linear | upper, self.ept_walk(PAGE * frame, access)

    def pages(self, access: Access) -> Dict[int, int]:
        """The frame to which each page leads that can be accessed so, by the page's first linear address."""
        tables = list(self.tables(access, LEVELS[0], frame_in(self.cr3)))
        return {linear: found.place // PAGE for linear, found in self.lowest(tables, access) if found.place is not None}

    def frames_read(self) -> Dict[int, str]:
        """Each frame from which some walk reads an entry, with what it reads there."""
        frames: Dict[int, str] = {}
        for access in Access:
            tables = list(self.tables(access, LEVELS[0], frame_in(self.cr3)))
            walks = [table.found for table in tables] + [found for _, found in self.lowest(tables, access)]
            for entry in (entry for found in walks for entry in found.entries):
                frames[entry.place // PAGE] = f"a table of the EPT of level {entry.level}"
            for table in tables:
                if table.found.place is not None:
                    frames[table.found.place // PAGE] = f"a table of the guest of level {table.level}"
        return frames
