"""Schedules: the core of each step, as a list, in turns, or at random."""

from typing import Dict, Iterator, List, Optional, Tuple

import judge
import timeline
from description import WORD_MASK, Description, Fault, Place, Statement, expect, number, within
from elf import TEXT
from machine import LIMITS, Machine

ENTRIES = "entries of the schedule"
SYSCALL = b"\x0f\x05"
FARTHEST = 65536  # steps of a core that are made to find a label
Labels = Dict[str, int]
Run = Tuple[Machine, List[Labels]]  # a machine that can be run, and the labels of its processes


def rolled_out(description: Description, run: Optional[Run]) -> bytes:
    """The entries of all lines, in their order. Steps up to a label are found by running the machine, and left out without it."""
    entries: List[int] = []
    for statement in description.schedules:
        if statement.words[1:2] == ["to"]:
            entries += steps_to(statement, description, entries, run)
        else:
            entries += entries_of(statement, len(description.cores), len(entries))
    return bytes(entries)


def steps_to(statement: Statement, description: Description, before: List[int], run: Optional[Run]) -> List[int]:
    """So many steps of a core that its thread stands at a label: of its home, or of the server that its view shows."""
    expect(len(statement.words) == 3, statement)
    core = core_number(statement.words[0], len(description.cores), statement.place)
    process, _, label = statement.words[2].rpartition(".")
    home = description.process_number(description.cores[core].process, statement.place)
    shown = description.process_number(process, statement.place) if process else home
    if run is None:
        return []
    machine, labels = run
    if label not in labels[shown]:
        name = description.processes[shown].name
        raise Fault(statement.place, f"process `{name}` has no label `{label}` in its text")
    address = labels[shown][label]
    for count in steps_at(machine._replace(schedule=bytes(before)), core, address, shown, shown != home, statement.place):
        end = report_of(machine._replace(schedule=bytes(before + [core] * count)), statement.place).ends[core]
        if (end.rip, end.process) == (address, shown):
            within(ENTRIES, len(before) + count, statement.place)
            return [core] * count
    raise Fault(statement.place, f"core {core} does not come to `{statement.words[2]}` within {FARTHEST} steps")


def steps_at(machine: Machine, core: int, address: int, process: int, is_server: bool, place: Place) -> Iterator[int]:
    """How many steps of the core after the machine's own may lead to the address, in its home or in a server's view."""
    before = len(machine.schedule)
    longer = machine.schedule + bytes([core]) * FARTHEST
    report = report_of(machine._replace(schedule=longer[: LIMITS[ENTRIES][1]]), place)
    is_call = machine.processes[process].text[address - TEXT :].startswith(SYSCALL)
    for span in timeline.lanes_of(report)[core].spans:
        if span.last >= before and span.activity == ("server" if is_server else "home"):
            for at in range(max(span.first, before), span.last + 1):
                if report.steps[at][0] == core and may_stand_at(report.steps[at][1], address, is_call):
                    yield at - before


def may_stand_at(text: str, address: int, is_call: bool) -> bool:
    """Whether this may be the line of the instruction at the address. Lines of system calls and faults do not tell theirs."""
    kind, word = (text.split() + [""])[:2]
    if is_call:
        return kind in ("sys", "print", "exit", "server")
    return kind in ("fault", "server") or kind in ("step", "extra", "stray") and word == f"{address:x}"


def report_of(machine: Machine, place: Place) -> timeline.Report:
    if not judge.is_built():
        raise Fault(place, f"steps to a label are found by the program, and {judge.PROGRAM} is not built (./skybridge builds it)")
    status, text = judge.output(["replay"], machine.bundle())
    if status != judge.DONE:
        raise Fault(place, f"steps to a label are found by the program, which refuses the bundle: {text.strip()}")
    return timeline.read(text)


def entries_of(statement: Statement, cores: int, before: int) -> List[int]:
    """The entries of one line of a machine with these cores, behind the entries of the lines before."""
    words, place = statement.words, statement.place
    kind = words[0]
    if kind not in ("round-robin", "random"):
        return listed(statement, cores, before)
    expect(len(words) >= 4 and words[2] == {"round-robin": "quantum", "random": "seed"}[kind], statement)
    steps, parameter = number(words[1], place), number(words[3], place)
    within(ENTRIES, before + steps, place)
    among = list(range(cores))
    if len(words) > 4:
        expect(words[4] == "cores" and len(words) > 5, statement)
        among = [core_number(word, cores, place) for word in words[5:]]
    if kind == "random":
        return [among[draw % len(among)] for draw, _ in zip(draws(parameter), range(steps))]
    if parameter == 0:
        raise Fault(place, "a quantum has at least one step")
    return [among[step // parameter % len(among)] for step in range(steps)]


def listed(statement: Statement, cores: int, before: int) -> List[int]:
    """The entries of a list of cores, in which `core*times` stands for as many entries."""
    entries: List[int] = []
    for word in statement.words:
        core, star, times = word.partition("*")
        count = number(times, statement.place) if star else 1
        within(ENTRIES, before + len(entries) + count, statement.place)
        entries += [core_number(core, cores, statement.place)] * count
    return entries


def core_number(word: str, cores: int, place: Place) -> int:
    core = number(word, place)
    if core >= cores:
        raise Fault(place, f"there is no core {core}")
    return core


def draws(seed: int) -> Iterator[int]:
    """The numbers of SplitMix64, which are the same for a seed on every machine (Steele, Lea and Flood, 2014)."""
    state = seed
    while True:
        state = state + 0x9E3779B97F4A7C15 & WORD_MASK
        mixed = (state ^ state >> 30) * 0xBF58476D1CE4E5B9 & WORD_MASK
        mixed = (mixed ^ mixed >> 27) * 0x94D049BB133111EB & WORD_MASK
        yield mixed ^ mixed >> 31
