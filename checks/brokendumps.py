"""Dumps that are changed: those that are broken, texts that are no dumps, and entries with other bits.

They are made of the dump of the run of one call (onecall.py), in which thread 1 is the client of process 0.
"""

from typing import Callable, List, NamedTuple, Optional, Tuple

from bundles import DATA, TEXT, VMFUNC
from dumps import PAGE, Dump
from facts import Dumped
from onecall import SCRATCH
from walks import EPT_EXECUTE, EPT_READ, EPT_RIGHTS, EPT_WRITE, EXECUTE_DISABLED, PRESENT, USER, WRITABLE, Access, View

SEEN = EPT_READ | EPT_WRITE | 6 << 3  # the lowest bits of an entry of level 1 for a page of data
ROOT_FRAME = 16  # of the page tables of process 0


def text_of(dump: Dump) -> str:
    """The text of a dump."""
    lines = [f"dump {dump.frames}"]
    for number, core in enumerate(dump.cores):
        lines.append(f"core {number} eptp {core.eptp:x} list {core.list_frame:x} cr3 {core.cr3:x}")
    for frame in sorted(frame for frame, page in dump.contents.items() if any(page)):
        digits = dump.contents[frame].hex()
        lines += [f"frame {frame:x}", *(digits[at : at + 128] for at in range(0, len(digits), 128))]
    return "\n".join([*lines, "end", ""])


def with_word(dump: Dump, place: int, change: Callable[[int], int]) -> Dump:
    """The dump with another word at a place."""
    page = bytearray(dump.page(place // PAGE))
    page[place % PAGE : place % PAGE + 8] = change(dump.word(place)).to_bytes(8, "little")
    return dump._replace(contents={**dump.contents, place // PAGE: bytes(page)})


def place_of(view: View, kind: str, level: int, address: int) -> int:
    """Where the last entry of this kind and level stands on the way to an address, for fetching where it cannot be read."""
    walk = view.walk(address, Access.READ)
    if walk.place is None and view.walk(address, Access.FETCH).place is not None:
        walk = view.walk(address, Access.FETCH)
    return [entry for entry in walk.entries if (entry.kind, entry.level) == (kind, level)][-1].place


def broken(case: Dumped) -> List[Tuple[str, str, Dump]]:
    """Dumps that are wrong: what is wrong, the name of the fact that fails, and the dump."""
    dump, server, client = case.dump, case.sights[0].view, case.sights[1].view
    lists, core = [core.list_frame for core in dump.cores], dump.cores[1]
    scratch, code = place_of(client, "EPT", 1, SCRATCH), place_of(client, "EPT", 1, TEXT)
    code_entry, data_entry = place_of(client, "guest", 1, TEXT), place_of(client, "guest", 1, DATA)
    top = dump.word(place_of(client, "guest", 4, TEXT))
    data_of_server = dump.word(place_of(server, "guest", 1, DATA))
    text = client.walk(TEXT, Access.FETCH).place
    written = with_word(with_word(dump, code, lambda word: word | SEEN), code_entry, lambda word: word | WRITABLE)
    return [
        ("an entry beyond the views", "lists", with_word(dump, PAGE * lists[1] + 8 * 2, lambda _: client.eptp)),
        ("an entry at index 511", "lists", with_word(dump, PAGE * lists[0] + 8 * 511, lambda _: server.eptp)),
        ("an entry that is no EPT pointer", "lists", with_word(dump, PAGE * lists[1] + 8, lambda word: word | 1 << 6)),
        ("a page in a list's frame", "apart", with_word(dump, scratch, lambda _: PAGE * lists[1] | SEEN)),
        ("a page in a table of the EPT", "apart", with_word(dump, scratch, lambda _: client.eptp & -PAGE | SEEN)),
        ("a page in a table of the guest", "apart", with_word(dump, scratch, lambda _: PAGE * ROOT_FRAME | SEEN)),
        ("a page that is written and fetched", "written_or_fetched", written),
        ("VMFUNC's bytes in a text", "pattern", with_word(dump, text + 0x100, lambda _: int.from_bytes(VMFUNC, "little"))),
        ("data of another process", "sharing", with_word(dump, data_entry, lambda _: data_of_server)),
        ("another core's EPT pointer", "pointers", dump._replace(cores=[dump.cores[0], core._replace(eptp=server.eptp)])),
        ("another core's CR3", "processes", dump._replace(cores=[dump.cores[0], core._replace(cr3=server.cr3)])),
        ("pages in the upper half", "kinds", with_word(dump, place_of(client, "guest", 4, TEXT) + 8 * 511, lambda _: top)),
        ("a text that can be read", "kinds", with_word(dump, code, lambda word: word | EPT_READ)),
    ]


def no_dumps(text: str) -> List[Tuple[str, str]]:
    """Texts that are no dumps."""
    zero_frame = "frame 0\n" + ("0" * 128 + "\n") * 64
    return [
        ("no end", text[: -len("end\n")]),
        ("a line behind the end", text + "end\n"),
        ("a frame of zeros", text.replace("frame 1\n", zero_frame + "frame 1\n")),
        ("frames out of order", text.replace("frame 4\n", "frame 1\n")),
        ("a frame that the memory does not have", text.replace("dump 640", "dump 512")),
        ("a number with a leading zero", text.replace("frame 4\n", "frame 04\n")),
        ("great digits", text.replace("0f01d4", "0F01D4")),
        ("a line that is cut", text.replace("cc\nframe", "c\nframe")),
        ("cores out of order", text.replace("core 1 ", "core 2 ")),
    ]


class Bit(NamedTuple):
    """A change of an entry on the way to a scratch page, and why reading and writing are refused then; "" if they are not."""

    kind: str
    level: int
    clear: int
    set: int
    read: str
    write: Optional[str] = None  # as for reading, where it is not told


BITS = [
    Bit("guest", 4, PRESENT, 0, "guest level 4: not present"),
    Bit("guest", 1, PRESENT, 0, "guest level 1: not present"),
    Bit("guest", 3, USER, 0, "guest level 3: not permitted"),
    Bit("guest", 1, USER, 0, "guest level 1: not permitted"),
    Bit("guest", 2, WRITABLE, 0, "", "guest level 2: not permitted"),
    Bit("guest", 1, WRITABLE, 0, "", "guest level 1: not permitted"),
    Bit("guest", 3, 0, 1 << 7, "guest level 3: a large page"),
    Bit("guest", 2, USER, 1 << 7, "guest level 2: a large page"),
    Bit("guest", 4, 0, 1 << 7, ""),
    Bit("guest", 1, 0, 1 << 7, ""),
    Bit("guest", 2, 0, EXECUTE_DISABLED, ""),
    Bit("guest", 1, 0, 1 << 48, "EPT: more than 48 bits"),
    Bit("guest", 1, 0, 1 << 47, "EPT level 4: not present"),
    Bit("guest", 4, 0, 0x7FF << 52 | 0xF << 3 | 0x7 << 9, ""),  # what is ignored, kept for software, or reserved
    Bit("EPT", 4, EPT_RIGHTS, 0, "EPT level 4: not present"),
    Bit("EPT", 1, EPT_RIGHTS, 0, "EPT level 1: not present"),
    Bit("EPT", 2, EPT_READ, 0, "EPT level 2: misconfigured"),
    Bit("EPT", 1, EPT_READ, 0, "EPT level 1: misconfigured"),
    Bit("EPT", 1, 7 << 3, 0, "EPT level 1: misconfigured"),
    Bit("EPT", 1, 0, 1 << 3, "EPT level 1: misconfigured"),
    Bit("EPT", 2, 0, 7 << 3, ""),
    Bit("EPT", 3, 0, 1 << 7, "EPT level 3: a large page"),
    Bit("EPT", 2, 0, 1 << 7, "EPT level 2: a large page"),
    Bit("EPT", 4, 0, 1 << 7, ""),
    Bit("EPT", 1, 0, 1 << 7, ""),
    Bit("EPT", 1, 0, 1 << 40, "EPT level 1: outside of memory"),
    Bit("EPT", 1, EPT_WRITE, 0, "", "EPT level 1: not permitted"),
    Bit("EPT", 1, EPT_READ | EPT_WRITE, EPT_EXECUTE, "EPT level 1: not permitted"),
    Bit("EPT", 1, 0, 0xFFF << 52 | 1 << 6 | 0xF << 8, ""),
]
