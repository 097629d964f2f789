"""A ladder: time goes down, each node is a line, and each datagram an arrow between two of them.

An arrow begins where its datagram was sent. It ends where it came, or in a cross if it never did. A
datagram that came again has a dashed arrow more. If no schedule is at hand, nothing says what came,
and each arrow only goes across.
"""

from collections.abc import Iterator

from arrows import Point, draw_arrow, draw_forged, draw_lost, draw_words
from packets import sender_of, words_of
from played import EVERYONE, Event, Play, Sent
from svg import INK, PAPER, RED, SOFT, Picture, cut, width_of

ROW, TOP, EDGE, SMALL = 22, 84, 16, 11
# The most letters that are shown of a line of the schedule, and of a report.
LINE, REPORT = 30, 44
# Between the lines of few nodes, and of many. What is lost ends so far on the way.
WIDE, NARROW, LOST = 230, 190, 0.85
BAD = ("refused", "nomemory", "failed", "zonesfailed", "zonefault", "cable")
# A picture of more events could hardly be read.
MOST = 1000


def comes(event: Event) -> bool:
    """Whether an event is something that comes to its node."""
    cause = event.cause
    return cause is not None and (cause.delivered is not None or cause.forged is not None)


def rows_of(event: Event) -> int:
    """How many rows an event takes: one for what comes, and one for each datagram that it sends."""
    return max(len(event.sent) + comes(event), 1)


def sentences(play: Play, events: list[Event]) -> Iterator[str]:
    """A play in words, for whoever hears the picture read."""
    yield f"Nodes: {', '.join(map(str, play.nodes)) or 'none'}."
    for event in events:
        line = f", {event.cause.line}" if event.cause else ""
        yield f"Event {event.number}{line}: {event.report}."
        for sent in event.sent:
            to = "every node" if sent.to == EVERYONE else f"node {sent.to}"
            what = f"datagram {sent.number}, {words_of(sent.data)}"
            yield f"Node {sender_of(sent.data)} sends {what}, to {to}."


class Ladder:
    """The picture of a play, from one of its events on."""

    def __init__(self, play: Play, name: str, first: int = 0) -> None:
        """Finds a place for each node and each event."""
        self.play, self.events = play, [it for it in play.events if it.number >= first][:MOST]
        words = [*sentences(play, self.events), self.ending()]
        self.picture = Picture(f"Ladder of {name}", " ".join(filter(None, words)))
        self.gap = WIDE if len(play.nodes) < 4 else NARROW
        self.place_columns()
        self.rows, self.bottom = dict[int, float](), float(TOP)
        for event in self.events:
            self.rows[event.number] = self.bottom + ROW / 2
            self.bottom += ROW * rows_of(event)

    def place_columns(self) -> None:
        """Finds where the lines of the schedule, the nodes and the reports begin, and the width."""
        lines = max((len(it.cause.line) for it in self.events if it.cause), default=0)
        digits = max((len(str(it.number)) for it in self.events), default=0)
        reports = max((len(it.report) for it in self.events), default=0)
        self.lines = EDGE + width_of("0" * (digits + 2), SMALL)
        self.left = self.lines + width_of("0" * min(lines, LINE), SMALL) + 50
        self.right = self.left + self.gap * max(len(self.play.nodes) - 1, 0) + 50
        needed = self.right + width_of("0" * min(reports, REPORT), SMALL)
        texts = [width_of(self.picture.title, 14), width_of(self.ending(), SMALL)]
        self.width = max(needed, *(EDGE + it for it in texts)) + EDGE

    def ending(self) -> str:
        """What ended the play early, and how much is not shown."""
        hidden = len(self.play.events) - len(self.events)
        left_out = f"{hidden} more events are not shown" if hidden else ""
        return "; ".join(filter(None, [self.play.ending, left_out]))

    def x_of(self, node: int) -> float:
        """The line of a node. A node that has none is thought beside the others."""
        if node in self.play.nodes:
            return self.left + self.gap * self.play.nodes.index(node)
        return self.left - 40 if node < min(self.play.nodes, default=0) else self.right - 10

    def start_of(self, event: Event, place: int) -> Point:
        """Where the datagram of this place among those of an event is sent."""
        x = self.x_of(sender_of(event.sent[place].data))
        if event.number not in self.rows:
            return Point(x, float(TOP))
        return Point(x, self.rows[event.number] + ROW * (place + comes(event)))

    def draw(self) -> str:
        """The whole picture."""
        for event in self.events[::2]:
            top, height = self.rows[event.number] - ROW / 2, ROW * rows_of(event)
            self.picture.box(EDGE / 2, top, self.width - EDGE, height)
        self.draw_nodes()
        self.draw_datagrams()
        for event in self.events:
            self.draw_forged(event)
            self.draw_event(event)
        if self.ending():
            self.picture.text(EDGE, self.bottom + 20, self.ending(), SMALL, RED)
            self.bottom += ROW
        return self.picture.svg(self.width, self.bottom + EDGE)

    def draw_nodes(self) -> None:
        """Draws the title, the line of each node, and its number above it."""
        self.picture.text(EDGE, 26, self.picture.title, 14, font_weight="bold")
        for node in self.play.nodes:
            x = self.x_of(node)
            self.picture.line(x, TOP - 14, x, self.bottom, SOFT)
            self.picture.box(x - 34, TOP - 42, 68, 24, PAPER, stroke=INK, rx=4)
            self.picture.text(x, TOP - 26, f"node {node}", 12, text_anchor="middle")

    def draw_event(self, event: Event) -> None:
        """Draws what an event is on the left, what its node reports on the right, and its dot."""
        y, ink = self.rows[event.number], RED if event.report.startswith(BAD) else INK
        self.picture.text(EDGE, y + 4, str(event.number), SMALL, SOFT)
        if event.cause:
            line = event.cause.line
            self.picture.text(self.lines, y + 4, cut(line, LINE), SMALL, SOFT, line)
        report = cut(event.report, REPORT)
        self.picture.text(self.right, y + 4, report, SMALL, ink, event.report)
        if event.node in self.play.nodes:
            self.picture.shape("circle", cx=self.x_of(event.node), cy=y, r=3.5, fill=ink)

    def draw_datagrams(self) -> None:
        """Draws all arrows, and then the words beside them, so that no arrow crosses a word."""
        arrivals, words = self.arrivals(), list[tuple[Point, Point, str]]()
        for event in self.play.events:
            for place, sent in enumerate(event.sent):
                start = self.start_of(event, place)
                end = self.draw_sent(event, start, sent, arrivals.get(sent.number, []))
                if event.number in self.rows:
                    words.append((start, end, f"#{sent.number} {words_of(sent.data)}"))
        for start, end, text in words:
            draw_words(self.picture, start, end, text)

    def arrivals(self) -> dict[int, list[Event]]:
        """The events that deliver each datagram."""
        found: dict[int, list[Event]] = {}
        for event in self.play.events:
            if event.cause and event.cause.delivered is not None:
                found.setdefault(event.cause.delivered, []).append(event)
        return found

    def draw_sent(self, event: Event, start: Point, sent: Sent, arrivals: list[Event]) -> Point:
        """Draws the arrows of a datagram, and gives where the first of them ends."""
        ends = list(self.ends_of(sent, start, arrivals))
        lost = Point(self.lost_end(sent, start), start.y)
        if not ends and event.number in self.rows:
            draw_lost(self.picture, start, lost)
        came: set[float] = set()
        for end in ends:
            draw_arrow(self.picture, start, end, end.x in came)
            came.add(end.x)
        return ends[0] if ends else lost

    def ends_of(self, sent: Sent, start: Point, arrivals: list[Event]) -> Iterator[Point]:
        """Where a datagram comes; without a schedule, each node that it goes to."""
        if self.play.delivers:
            yield from self.ends_at(start, arrivals)
        elif start.y > TOP:
            for node in self.play.nodes if sent.to == EVERYONE else [sent.to]:
                if sent.to != EVERYONE or self.x_of(node) != start.x:
                    yield Point(self.x_of(node), start.y)

    def ends_at(self, start: Point, arrivals: list[Event]) -> Iterator[Point]:
        """The places of these arrivals. Those that come after all that is shown are at its end."""
        for event in arrivals:
            if event.number in self.rows:
                yield Point(self.x_of(event.node), self.rows[event.number])
            elif start.y > TOP:
                yield Point(self.x_of(event.node), self.bottom)

    def lost_end(self, sent: Sent, start: Point) -> float:
        """How far a lost datagram is drawn: a part of the way to its node, or to any beside it."""
        last = self.x_of(self.play.nodes[-1]) if self.play.nodes else start.x
        to_left = start.x == last if sent.to == EVERYONE else self.x_of(sent.to) < start.x
        return start.x + (-LOST if to_left else LOST) * self.gap

    def draw_forged(self, event: Event) -> None:
        """Draws bytes that no node sent: they come from beside the node."""
        if event.cause is None or event.cause.forged is None:
            return
        end = Point(self.x_of(event.node), self.rows[event.number])
        side = -1 if end.x > self.left else 1
        start = Point(end.x + side * LOST * self.gap, end.y)
        draw_forged(self.picture, start, end)
        draw_words(self.picture, end, start, f"forged {words_of(event.cause.forged)}", RED)
