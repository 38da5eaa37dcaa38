"""What must hold of the dump of a machine, whatever it runs: each fact with the function that names where it fails.

These are the sentences of docs/KERNEL.md, "What memory shows", as far as a dump tells them. What plain memory holds, and so
what each byte must be, no dump tells; a report before it tells the views of its threads.
"""

import re
from typing import Dict, Iterator, List, NamedTuple, Optional, Tuple

from dumps import ENTRIES, PAGE, Dump, NoDump, read
from sights import VIEWS, Seen, Sight, sights_of
from timeline import HEAD, Report, Wrong, lanes_of
from timeline import read as read_report
from walks import Access, is_eptp

VMFUNC, VMFUNC_ADDRESS = bytes.fromhex("0f01d4"), 0x70000040
HOME_PLACE, SERVER_PLACE = 0x1040, 0x4040  # the physical addresses at which its bytes stand
FLIGHT = re.compile(r"^flight (\d) ", re.MULTILINE)  # the line of a thread in flight at a report's end
MOST = 8  # places of one kind that are told


class End(NamedTuple):
    """What a report tells of a thread at its end: its home, how many views it has, and the index of the one it is in."""

    home: int
    views: int
    index: int


class Dumped(NamedTuple):
    """A dump with all its views, and what the report before it tells of each thread, if there is one."""

    dump: Dump
    sights: List[Sight]
    ends: Optional[List[End]]

    def views(self, thread: int) -> int:
        """How many views a thread has; where no report tells it, as many as entries of its list are set from the front on."""
        if self.ends is not None and thread < len(self.ends):
            return self.ends[thread].views
        entries = self.dump.words(self.dump.cores[thread].list_frame)[:VIEWS]
        return next((index for index, word in enumerate(entries) if word == 0), len(entries))

    def seen(self) -> Iterator[Seen]:
        return (page for sight in self.sights for page in sight.pages)


def ends_of(report: Report, in_flight: List[int]) -> List[End]:
    """What a report tells of its threads, of which these are in flight: they are in the view that they call."""
    binds = [core for core, text in report.steps if text == "sys 3 0"]
    indices = [end.view for end in report.ends]
    for thread in in_flight:
        call = lanes_of(report)[thread].call if thread < len(indices) else None
        if call is None or call.binding is None:
            raise Wrong(f"thread {thread} is in flight, and no line before begins its call")
        indices[thread] = call.binding
    return [End(end.home, 1 + binds.count(thread), indices[thread]) for thread, end in enumerate(report.ends)]


def read_dumped(text: str) -> Dumped:
    """Reads a dump, or a report with a dump behind it. A journal before the report, as `skycores` writes it, is passed over."""
    if text.startswith("dump "):
        return dumped_of(read(text))
    before, found, dump = text.partition("\ndump ")
    if not found:
        raise NoDump("no line begins with `dump`")
    report = before[max(before.find(HEAD), 0) :] if before.startswith("journal ") else before
    in_flight = [int(thread) for thread in FLIGHT.findall(report)]
    return dumped_of(read("dump " + dump, 2 + before.count("\n")), ends_of(read_report(report + "\n"), in_flight))


def dumped_of(dump: Dump, ends: Optional[List[End]] = None) -> Dumped:
    return Dumped(dump, sights_of(dump), ends)


# ---- the facts


def lists(machine: Dumped) -> Iterator[str]:
    if machine.ends is not None and len(machine.ends) != len(machine.dump.cores):
        yield f"the dump has {len(machine.dump.cores)} cores, and the report {len(machine.ends)} threads"
    for thread, core in enumerate(machine.dump.cores):
        count, entries = machine.views(thread), machine.dump.words(core.list_frame)
        if not 1 <= count <= VIEWS or len(entries) != ENTRIES:
            yield f"thread {thread} has {count} views, and its list is in frame {core.list_frame:x}"
        for index, word in enumerate(entries):
            if not (is_eptp(word) if index < count else word == 0):
                place = f"thread {thread} view {index} address {PAGE * core.list_frame + 8 * index:x} frame {core.list_frame:x}"
                yield f"{place}: the entry of the list is {word:x}, and the thread has {count} views"


def pointers(machine: Dumped) -> Iterator[str]:
    for thread, core in enumerate(machine.dump.cores):
        entries = machine.dump.words(core.list_frame)
        place = f"thread {thread} frame {core.list_frame:x}: the core's EPT pointer is {core.eptp:x}"
        if not is_eptp(core.eptp) or core.eptp not in entries:
            yield f"{place}, which its list has not"
        elif machine.ends is not None and thread < len(machine.ends):
            index = machine.ends[thread].index
            if entries[index : index + 1] != (core.eptp,):
                yield f"{place}, and its thread is in view {index}"


def processes(machine: Dumped) -> Iterator[str]:
    homes = {sight.thread: sight.process for sight in machine.sights if sight.index == 0}
    for sight in machine.sights:
        home = homes.get(sight.thread)
        if machine.ends is not None and sight.thread < len(machine.ends):
            home = machine.ends[sight.thread].home
        if sight.process is None or (sight.index == 0) != (sight.process == home):
            yield f"thread {sight.thread} view {sight.index} shows {sight.shown} by CR3 {sight.view.cr3:x}; its home is {home}"


def kinds(machine: Dumped) -> Iterator[str]:
    for page in machine.seen():
        if page.name is None or page.accesses not in page.name.accesses:
            yield f"{page.place}: {page.text} can be accessed by {accesses_text(page)}"


def apart(machine: Dumped) -> Iterator[str]:
    kept = {}
    for sight in machine.sights:
        for frame, told in sight.view.frames_read().items():
            kept[frame] = f"{told}, which walks of thread {sight.thread} view {sight.index} read"
    kept.update({core.list_frame: f"the list of thread {thread}" for thread, core in enumerate(machine.dump.cores)})
    for page in machine.seen():
        if page.frame in kept:
            yield f"{page.place} leads by {accesses_text(page)} into {kept[page.frame]}"


def pattern(machine: Dumped) -> Iterator[str]:
    for sight in machine.sights:
        wanted = SERVER_PLACE if sight.index else HOME_PLACE
        found = dict(pattern_places(machine.dump, sight))
        if VMFUNC_ADDRESS not in found:
            yield f"thread {sight.thread} view {sight.index} address {VMFUNC_ADDRESS:x}: VMFUNC cannot be fetched there"
        for address, place in found.items():
            if (address, place) != (VMFUNC_ADDRESS, wanted):
                where = f"thread {sight.thread} view {sight.index} address {address:x} frame {place // PAGE:x}"
                yield f"{where}: VMFUNC's bytes can be fetched there, physical {place:x}"


def pattern_places(dump: Dump, sight: Sight) -> Iterator[Tuple[int, int]]:
    """The linear and the physical address of each place at which VMFUNC's bytes can be fetched, across pages too."""
    fetched = {page.address: page.frame for page in sight.pages if Access.FETCH in page.accesses}
    for address, frame in fetched.items():
        following = fetched.get((address + PAGE) % (1 << 64))
        code = dump.page(frame) + (b"" if following is None else dump.page(following)[: len(VMFUNC) - 1])
        at = code.find(VMFUNC)
        while at >= 0:
            yield address + at, PAGE * frame + at
            at = code.find(VMFUNC, at + 1)


def sharing(machine: Dumped) -> Iterator[str]:
    names: Dict[int, Seen] = {}  # the first page that was seen in each frame
    frames: Dict[str, Seen] = {}  # the first that was seen of each name
    for page in machine.seen():
        other = names.setdefault(page.frame, page)
        if other.text != page.text:
            yield f"{page.place}: {page.text}, and {other.text} for {other.place}"
        other = frames.setdefault(page.text, page)
        if other.frame != page.frame and page.name is not None:
            yield f"{page.place}: {page.text}, which for {other.place} is in another frame"


def written_or_fetched(machine: Dumped) -> Iterator[str]:
    written = {page.frame: page for page in machine.seen() if Access.WRITE in page.accesses}
    for page in machine.seen():
        if Access.FETCH in page.accesses and page.frame in written:
            yield f"{page.place} is fetched, and written by {written[page.frame].place}"


FACTS = [
    ("each list has an EPT pointer for each view of its thread, and 0 behind them", lists),
    ("the EPT pointer of each core is the one in its thread's list for the view in which the thread is", pointers),
    ("each view shows a process: view 0 the thread's home, each other view another one", processes),
    ("each page that a view gives has its place among the regions, and the accesses of its kind", kinds),
    ("no address leads into a list, or into a frame from which a walk reads an entry", apart),
    ("VMFUNC can be fetched at 70000040 alone, from physical 1040 in view 0 and from 4040 in each other view", pattern),
    ("each frame holds one page for all views, and each page is in one frame: views share what their owners share", sharing),
    ("no page can be both written and fetched", written_or_fetched),
]


def accesses_text(page: Seen) -> str:
    return " and ".join(access.value for access in page.accesses)


def faults_of(machine: Dumped) -> Dict[str, List[str]]:
    """Where each fact fails, by its name."""
    return {told: list(fails(machine)) for told, fails in FACTS}


def told(machine: Dumped) -> Tuple[List[str], bool]:
    """A line for each fact that holds, and for each place at which one fails; and whether all hold."""
    lines = []
    found = faults_of(machine)
    for fact, faults in found.items():
        lines += [f"fails  {fault}" for fault in faults[:MOST]] or [f"holds  {fact}"]
        if len(faults) > MOST:
            lines.append(f"fails  {len(faults) - MOST} further places of this kind")
    return lines, not any(found.values())
