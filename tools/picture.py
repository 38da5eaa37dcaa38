"""The lanes of a run as SVG, and as a page with a table of its calls."""

import collections
import html
from typing import Dict, Iterator, List, NamedTuple, Tuple

from timeline import Call, Lane, Mark, Report, Span, lanes_of, servers_at_end

LANE, ROOM = 34, 10  # heights of a lane, and between two
CALL_TOP, CALL_HEIGHT, BASE_TOP, BASE_HEIGHT = 2, 22, 26, 8  # within a lane
MOST = 20_000  # spans, and marks, that are drawn
TOLD = 10  # lines that a title tells
UNDECIDED = -1  # in place of a binding's index
COLOURS = (
    "#2f6fb5 #c8641b #2e8b4f #8a56ac #b5364a #1f97a3 #8c6d1f #d06aa7 "
    "#4a5fd0 #6b8e23 #a0522d #008b8b #9932cc #c71585 #556b2f #4682b4"
).split()
BASE = {"home": "#9aa3ad", "idle": "#e7e9ec"}
SEVERAL = "#5b6672"  # spans of more than one server that are drawn as one
MARKS = {"fault": "#d00000", "refusal": "#ff8c00", "exit": "#202020"}
STYLE = (
    ".landing{fill-opacity:.45}.refused{stroke:#ff8c00;stroke-width:2;vector-effect:non-scaling-stroke}"
    ".span:hover{fill-opacity:.75}.mark{stroke-width:2;vector-effect:non-scaling-stroke}"
)
MARGIN, AXIS = 70, 24  # of a picture by itself: left of the lanes, and below them
Servers = Dict[Tuple[int, int], int]


class Drawing(NamedTuple):
    """The lanes of a report, with what a picture shows of them, and the names and colours of servers."""

    report: Report
    lanes: List[Lane]
    servers: Servers
    colours: Dict[str, str]
    spans: List["Drawn"]
    marks: List["DrawnMark"]


class Drawn(NamedTuple):
    """A span to be drawn up to the step `until`, or several of a core that lie too close to be drawn alone."""

    spans: List[Span]
    until: int


class DrawnMark(NamedTuple):
    """Marks of one kind and core that are drawn as one."""

    marks: List[Mark]


def drawing_of(report: Report, servers: Servers) -> Drawing:
    """What is drawn of a report, with these servers of bindings beside those that its end tells."""
    lanes = lanes_of(report)
    known = {**servers_at_end(report), **servers}
    names = sorted({server_name(call, known) for lane in lanes for call in lane.calls}, key=by_number)
    colours = {name: COLOURS[place % len(COLOURS)] for place, name in enumerate(names)}
    spans = gathered([drawn_spans(lane) for lane in lanes])
    return Drawing(report, lanes, known, colours, spans, gathered_marks(lanes))


def by_number(name: str) -> List[Tuple[bool, int, str]]:
    """Names in the order of the numbers in them."""
    return [(word.isdigit(), int(word) if word.isdigit() else 0, word) for word in name.split()]


def server_name(call: Call, servers: Servers) -> str:
    """The server that the call's binding leads to, as far as it is known."""
    if call.binding is None:
        return "a server that is not decided"
    process = servers.get((call.core, call.binding))
    return f"binding {call.binding} of core {call.core}" if process is None else f"server {process}"


def drawn_spans(lane: Lane) -> List[Drawn]:
    """The spans of a lane, each up to the next one."""
    until = [span.first for span in lane.spans[1:]] + [lane.spans[-1].last + 1 if lane.spans else 0]
    return [Drawn([span], end) for span, end in zip(lane.spans, until)]


def gathered(lanes: List[List[Drawn]]) -> List[Drawn]:
    """The spans of all lanes. Where they are too many, those that begin in one cell of so many steps are drawn as one."""
    cell = 1
    found = lanes
    while sum(len(lane) for lane in found) > MOST:
        cell *= 2
        found = [joined(lane, cell) for lane in lanes]
    return [drawn for lane in found for drawn in lane]


def joined(lane: List[Drawn], cell: int) -> List[Drawn]:
    found: List[Drawn] = []
    for drawn in lane:
        if found and found[-1].spans[0].first // cell == drawn.spans[0].first // cell:
            found[-1] = Drawn(found[-1].spans + drawn.spans, drawn.until)
        else:
            found.append(drawn)
    return found


def gathered_marks(lanes: List[Lane]) -> List[DrawnMark]:
    """The marks of all lanes. Where they are too many, those of one kind in one cell are drawn as one."""
    marks = [mark for lane in lanes for mark in lane.marks]
    cell = 1
    while True:
        cells: Dict[Tuple[int, str, int], List[Mark]] = collections.defaultdict(list)
        for mark in marks:
            cells[mark.core, mark.kind, mark.at // cell].append(mark)
        if len(cells) <= MOST:
            return [DrawnMark(found) for found in cells.values()]
        cell *= 2


def title_of(drawn: Drawn, drawing: Drawing) -> str:
    """What is shown on pointing at a span."""
    first, last = drawn.spans[0], drawn.spans[-1]
    steps = sum(span.steps for span in drawn.spans)
    lines = [f"core {first.core}, lines {first.first + 2} to {last.last + 2}: {steps} steps"]
    if len(drawn.spans) > 1:
        calls = {id(span.call) for span in drawn.spans if span.call is not None}
        return f"{lines[0]}, {len(drawn.spans)} spans of {len(calls)} calls"
    lines[0] += f", {first.activity}"
    if first.call is not None:
        lines.append(call_text(first.call, drawing.servers))
    shown = first.told[:TOLD]
    for at in (first.first, first.last):
        line = f"line {at + 2}: {first.core} {drawing.report.steps[at][1]}"
        if line not in shown and len(first.told) <= TOLD:
            shown.append(line)
    shown.sort(key=lambda line: int(line.split()[1][:-1]))
    more = len(first.told) - TOLD
    return "\n".join(lines + shown + ([f"and {more} more"] if more > 0 else []))


def call_text(call: Call, servers: Servers) -> str:
    """A call in words."""
    stack = "" if call.stack is None else f", stack {call.stack}"
    ending = "" if call.ending == "refused" else f", {call.ending}"
    lines = f"lines {call.first + 2} to {call.last + 2}"
    steps = f"{call.landing_steps} steps in the landing, {call.server_steps} in the server"
    binding = "?" if call.binding is None else call.binding
    return f"call {binding} to {server_name(call, servers)}: {call.outcome}{stack}{ending}; {lines}; {steps}"


def shapes(drawing: Drawing) -> Iterator[str]:
    """The rectangles of spans and marks. A step is one unit wide."""
    for drawn in drawing.spans:
        span = drawn.spans[0]
        kind, top, height = span.activity, BASE_TOP, BASE_HEIGHT
        if len(drawn.spans) > 1:
            kind, top, height = "several", CALL_TOP, LANE - CALL_TOP
        elif span.call is not None:
            top, height = CALL_TOP, CALL_HEIGHT
            kind += " refused" if span.call.is_refused else ""
        data = f'data-core="{span.core}" data-first="{span.first}" data-last="{drawn.spans[-1].last}"'
        place = f'x="{span.first}" y="{top_of(span.core) + top}" width="{drawn.until - span.first}" height="{height}"'
        title = html.escape(title_of(drawn, drawing), quote=False)
        yield f'<rect class="span {kind}" {data} {place} fill="{colour_of(drawn, drawing)}"><title>{title}</title></rect>'
    for mark in drawing.marks:
        yield mark_shape(mark)


def colour_of(drawn: Drawn, drawing: Drawing) -> str:
    """The colour of the server, or of what the core does in no call."""
    servers = {server_name(span.call, drawing.servers) for span in drawn.spans if span.call is not None}
    if not servers:
        return BASE[drawn.spans[0].activity]
    return drawing.colours[servers.pop()] if len(servers) == 1 else SEVERAL


def mark_shape(drawn: DrawnMark) -> str:
    """A line across the lane. It stays as wide as it is where the lanes are drawn wider."""
    first = drawn.marks[0]
    x, top = first.at + 0.5, top_of(first.core)
    lines = [f"line {mark.at + 2}: {mark.core} {mark.text}" for mark in drawn.marks[:TOLD]]
    more = len(drawn.marks) - TOLD
    title = html.escape("\n".join(lines + ([f"and {more} more"] if more > 0 else [])), quote=False)
    place = f'd="M{x} {top - 3}V{top + LANE + 3}" stroke="{MARKS[first.kind]}"'
    return f'<path class="mark {first.kind}" data-core="{first.core}" data-at="{first.at}" {place}><title>{title}</title></path>'


def top_of(core: int) -> int:
    return ROOM // 2 + core * (LANE + ROOM)


def height_of(drawing: Drawing) -> int:
    return top_of(len(drawing.lanes))


def lanes_svg(drawing: Drawing, attributes: str) -> str:
    """The lanes without words, which can be drawn in any width."""
    steps, height = max(len(drawing.report.steps), 1), height_of(drawing)
    style = f"<style>{STYLE}</style>"
    view = f'viewBox="0 0 {steps} {height}" preserveAspectRatio="none"'
    body = "\n".join(shapes(drawing))
    return f'<svg xmlns="http://www.w3.org/2000/svg" {attributes} {view}>{style}\n{body}\n</svg>'


def picture(drawing: Drawing, width: int) -> str:
    """The lanes by themselves, with the numbers of cores and lines, and the colours of servers."""
    height = height_of(drawing)
    inner = lanes_svg(drawing, f'x="{MARGIN}" y="0" width="{width}" height="{height}"')
    words = [text(4, top_of(lane.core) + LANE * 0.7, f"core {lane.core}") for lane in drawing.lanes]
    steps = len(drawing.report.steps)
    for part in range(0, 11):
        at = steps * part // 10
        words.append(text(MARGIN + width * part / 10, height + 14, str(at + 2), "middle"))
    left = MARGIN
    for name, colour in legend(drawing):
        words.append(f'<rect class="key" x="{left}" y="{height + AXIS}" width="12" height="12" fill="{colour}"/>')
        words.append(text(left + 16, height + AXIS + 11, name))
        left += 30 + 7 * len(name)
    whole = f'width="{max(width + MARGIN + 40, left)}" height="{height + AXIS + 20}"'
    lines = "\n".join(words)
    return f'<svg xmlns="http://www.w3.org/2000/svg" {whole} font-family="sans-serif" font-size="12">\n{inner}\n{lines}\n</svg>\n'


def text(x: float, y: float, words: str, anchor: str = "start") -> str:
    return f'<text x="{x:g}" y="{y:g}" text-anchor="{anchor}">{html.escape(words)}</text>'


def legend(drawing: Drawing) -> List[Tuple[str, str]]:
    """What the colours mean: servers, then what is not in a server, then marks."""
    base = [("in no call", BASE["home"]), ("idle", BASE["idle"])]
    return [*drawing.colours.items(), *base, *MARKS.items()]


class Row(NamedTuple):
    """The calls of a core through one of its bindings."""

    core: int
    binding: int  # UNDECIDED where no call was decided
    server: str
    calls: List[Call]


def rows_of(drawing: Drawing) -> List[Row]:
    """The calls by core and binding."""
    found: Dict[Tuple[int, int], List[Call]] = collections.defaultdict(list)
    for lane in drawing.lanes:
        for call in lane.calls:
            found[lane.core, UNDECIDED if call.binding is None else call.binding].append(call)
    names = {key: server_name(calls[0], drawing.servers) for key, calls in found.items()}
    return [Row(core, binding, names[core, binding], calls) for (core, binding), calls in sorted(found.items())]


REFUSALS = "wrong key", "pool empty", "unbound", "bad leaf"
ENDINGS = "return", "server fault", "server exit", "forwarded", "unfinished"
COLUMNS = ["core", "binding", "server", "calls", "entered", *REFUSALS, *ENDINGS, "landing steps", "server steps", "longest"]


def cells_of(row: Row) -> List[str]:
    """The row of the table of calls, column by column."""
    calls = row.calls
    outcomes = collections.Counter(call.outcome for call in calls)
    counts = [len(calls), outcomes["entered"], *(outcomes[refusal] for refusal in REFUSALS)]
    counts += [sum(call.ending.startswith(ending) for call in calls) for ending in ENDINGS]
    counts += [sum(call.landing_steps for call in calls), sum(call.server_steps for call in calls)]
    counts.append(max(call.landing_steps + call.server_steps for call in calls))
    binding = "?" if row.binding == UNDECIDED else str(row.binding)
    return [str(row.core), binding, row.server, *(str(count) for count in counts)]
