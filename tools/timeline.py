"""A run as its report tells it: the calls of each core, and the spans of steps that a lane is drawn from (docs/FORMATS.md)."""

import dataclasses
import re
from typing import Dict, List, NamedTuple, Optional, Tuple

HEAD = "skybridge report 1"
FAULT = "fault (?:canon|memory|undefined|switch) [0-9a-f]+"
STEP = re.compile(
    "([0-7]) ("
    r"(?:step|extra|stray) [0-9a-f]+|print \d+|sys \d+ \d+|exit \d+|return|turn|idle|landing (?:v|\d+)|"
    rf"(?:server )?{FAULT}|server exit \d+|call \d+ (?:entered \d+|wrong key|pool empty|unbound|bad leaf))"
)
THREAD = re.compile(rf"thread (\d) home (\d+) view (\d+) at (\d+) (running|ended \d+|faulted{FAULT[5:]})")
REGISTERS = re.compile(r"regs (\d) rip ([0-9a-f]+) flags [0-9a-f]+((?: [0-9a-f]+){16})")
REST = re.compile(r"flight \d \d+|free \d+|keys \d+|end")
RCX, RDX, RDI = 1, 2, 7  # places of registers in a line `regs`
LAST_OF_ENTRY, LAST_OF_REFUSAL = "16", "24"  # phases with which a flight ends
QUIET = "step", "extra", "stray", "landing", "idle"  # lines that a title does not tell one by one


class Wrong(Exception):
    """A line that no report has, with its number."""


@dataclasses.dataclass
class End:
    """A thread at the end of a run."""

    home: int
    view: int
    process: int  # the one that the view shows
    state: str
    rip: int = 0
    registers: Tuple[int, ...] = ()


class Report(NamedTuple):
    """A report: the core and the text of each step, and the threads at the end. Step `i` stands in line `i + 2`."""

    steps: List[Tuple[int, str]]
    ends: List[End]


@dataclasses.dataclass
class Call:
    """A call from its VMFUNC to the step with which its thread is home again, or calls on. Steps are counted from 0."""

    core: int
    first: int
    last: int
    binding: Optional[int] = None  # not known before the call is decided
    outcome: str = "undecided"
    stack: Optional[int] = None
    ending: str = "unfinished"
    landing_steps: int = 0
    server_steps: int = 0

    @property
    def is_refused(self) -> bool:
        return self.outcome not in ("entered", "undecided")


@dataclasses.dataclass
class Span:
    """Steps of a core, one behind another, in which it does one thing: `home`, `landing`, `server` or `idle`."""

    core: int
    activity: str
    first: int
    last: int
    call: Optional[Call]
    steps: int = 0
    told: List[str] = dataclasses.field(default_factory=list)  # its lines but the quiet ones


class Mark(NamedTuple):
    """A line to be seen: a `fault`, a `refusal` or an `exit`."""

    core: int
    at: int
    kind: str
    text: str


class Lane:
    """What one core does, as its lines are followed."""

    def __init__(self, core: int):
        self.core = core
        self.spans: List[Span] = []
        self.calls: List[Call] = []
        self.marks: List[Mark] = []
        self.call: Optional[Call] = None  # the one in which the thread is
        self.is_landing = False

    def follow(self, at: int, text: str) -> None:
        """Follows the core's next line, that of step `at`."""
        words = text.split()
        if text == "landing v" or words[0] == "call" and not self.is_landing:
            self.begin(at)
        self.add(at, text, words[0])
        if words[0] == "call":
            self.decide(at, words)
        elif words[0] == "landing" and words[1] in (LAST_OF_ENTRY, LAST_OF_REFUSAL):
            self.is_landing = False
            if words[1] == LAST_OF_REFUSAL:
                self.finish("refused")
        elif words[0] in ("return", "server"):
            self.finish(text)
        kind = mark_of(words)
        if kind is not None:
            self.marks.append(Mark(self.core, at, kind, text))

    def begin(self, at: int) -> None:
        """A VMFUNC that leads into a server, or is refused at home. In a server's view it ends the call before."""
        self.finish("forwarded")
        self.call = Call(self.core, at, at)
        self.calls.append(self.call)
        self.is_landing = True

    def decide(self, at: int, words: List[str]) -> None:
        """The line `call`. Where no flight has led to it, the call is carried or refused in this one step."""
        if self.call is None:
            return
        self.call.binding, self.call.outcome = int(words[1]), " ".join(words[2:])
        if words[2] == "entered":
            self.call.outcome, self.call.stack = "entered", int(words[3])
        if self.call.first == at:
            self.is_landing = False
            if self.call.is_refused:
                self.finish("refused")

    def finish(self, ending: str) -> None:
        if self.call is not None:
            self.call.ending = ending
            self.call = None

    def add(self, at: int, text: str, kind: str) -> None:
        """Counts a step, in the last span where the core goes on with what it did."""
        activity = "home" if self.call is None else "landing" if self.is_landing else "server"
        if kind == "idle":
            activity = "idle"
        if self.call is not None:
            self.call.last = at
            self.call.landing_steps += activity == "landing"
            self.call.server_steps += activity == "server"
        span = self.spans[-1] if self.spans else None
        if span is None or span.activity != activity or span.call is not self.call:
            span = Span(self.core, activity, at, at, self.call)
            self.spans.append(span)
        span.last, span.steps = at, span.steps + 1
        if kind not in QUIET:
            span.told.append(f"line {at + 2}: {self.core} {text}")


def mark_of(words: List[str]) -> Optional[str]:
    """How a line is marked; most are not."""
    if words[0] in ("fault", "server"):
        return "fault"
    if words[0] == "exit":
        return "exit"
    is_refused = words[0] == "sys" and words[2] != "0" or words[0] == "call" and words[2] != "entered"
    return "refusal" if is_refused else None


def read(text: str) -> Report:
    """Reads a report, and refuses the first line that no report has."""
    lines = text.split("\n")
    if lines[0] != HEAD:
        raise Wrong(f"line 1: `{lines[0][:60]}` is not `{HEAD}`")
    report = Report([], [])
    at = 1
    while at < len(lines):
        step = STEP.fullmatch(lines[at])
        if step is None:
            break
        report.steps.append((int(step[1]), step[2]))
        at += 1
    for number, line in enumerate(lines[at:], at + 1):
        if not read_end(report.ends, line) and line:
            raise Wrong(f"line {number}: `{line[:60]}` is no line of a report")
    return report


def read_end(ends: List[End], line: str) -> bool:
    """Reads a line behind the steps. False for a line that does not stand there."""
    thread, registers = THREAD.fullmatch(line), REGISTERS.fullmatch(line)
    if thread:
        ends.append(End(*(int(number) for number in thread.groups()[1:4]), thread[5]))
    elif registers and ends:
        ends[-1].rip = int(registers[2], 16)
        ends[-1].registers = tuple(int(word, 16) for word in registers[3].split())
    return bool(thread or registers or REST.fullmatch(line))


def lanes_of(report: Report) -> List[Lane]:
    """The lanes of a report, one for each core."""
    count = 1 + max([core for core, _ in report.steps] + [len(report.ends) - 1], default=0)
    lanes = [Lane(core) for core in range(count)]
    for at, (core, text) in enumerate(report.steps):
        lanes[core].follow(at, text)
    for lane, end in zip(lanes, report.ends):
        if lane.call is not None and lane.call.binding is None and end.registers:
            lane.call.binding = end.registers[RCX] & 0xFFFFFFFF  # a thread in flight is shown as at its VMFUNC
    return lanes


def servers_at_end(report: Report) -> Dict[Tuple[int, int], int]:
    """The servers of bindings, by core and index, of which the end tells: those that a view shows there."""
    return {(core, end.view): end.process for core, end in enumerate(report.ends) if end.view}


def binds(report: Report) -> List[Tuple[int, int]]:
    """The steps that bound a thread to a server, each with its core."""
    return [(at, core) for at, (core, text) in enumerate(report.steps) if text == "sys 3 0"]
