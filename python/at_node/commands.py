"""Small commands over a station: names, zones, and a chat by a stream."""

from __future__ import annotations

import time
from typing import Iterable, List, Optional, TextIO, Tuple

from .live import LineReader
from .report import Report
from .station import Station
from .stream import Stream
from .words import word_of_text

STREAMS = 130
# The seconds that a zone list, or an open connection, may take.
PATIENCE = 30.0


def pattern_of(text: str) -> Tuple[str, str, str]:
    """Object, type and zone of a pattern `OBJECT:TYPE@ZONE`, each as a word. What is left out is
    `=`, and the zone `*`."""
    rest, _, zone = text.partition("@")
    name, _, kind = rest.partition(":")
    return word_of_text(name or "="), word_of_text(kind or "="), word_of_text(zone or "*")


def names(station: Station, pattern: str, seconds: float, output: TextIO) -> bool:
    """Looks names up for so many seconds, and prints each with its address. Whether there were
    any. Raises Refused."""
    number = station.call("find {} {} {}".format(*pattern_of(pattern))).number()
    end = time.monotonic() + seconds
    while time.monotonic() < end:
        station.step(end)
    finds = station.call(f"finish {number}").finds()
    for it in sorted(finds):
        print(f"{it.object}:{it.type}@{it.zone}\t{it.node}.{it.socket}", file=output)
    return bool(finds)


def zones(station: Station, is_local: bool, output: TextIO) -> bool:
    """Reads the zone list of the router, and prints it. Whether it came. Raises Refused."""
    heard: List[Report] = []
    station.hear = heard.append
    station.call("localzones" if is_local else "zones")
    end = time.monotonic() + PATIENCE
    while time.monotonic() < end:
        station.step(end)
        for report in heard:
            if report.kind in ("zones", "localzones"):
                print(*report.texts(), sep="\n", file=output)
                return True
            if report.kind in ("zonesfailed", "zonefault"):
                return False
        heard.clear()
    return False


def address_of(text: str) -> Tuple[int, int]:
    """Node and socket of `NODE.SOCKET`, or of `NODE` alone. Raises ValueError."""
    node, dot, socket = text.partition(".")
    return int(node), int(socket) if dot else STREAMS


class Chat:
    """A conversation by a stream: each line is a message, both ways."""

    def __init__(self, station: Station, output: TextIO, errors: TextIO) -> None:
        self._station, self._output, self._errors = station, output, errors
        self._stream: Optional[Stream] = None
        self._lines: List[str] = []
        self._message = b""
        self._is_ended = False
        self.is_opened = False
        station.hear = self._hear

    def connect(self, node: int, socket: int) -> None:
        """Asks a node for a stream. Raises Refused."""
        number = self._station.call(f"connect {node} {socket}").number()
        self._begin(number)

    def listen(self, name: str) -> None:
        """Waits for a node that asks, under a name of type Chat. Raises Refused."""
        self._station.call(f"register {word_of_text(name)} Chat {STREAMS}")
        self._station.call("listen on")

    def run(self, file: int) -> bool:
        """Talks until the file of lines ends, or the other side closes. Whether it was open."""
        reader = LineReader(file, self._type, lambda: self._end(file))
        self._station.watch(file, reader.read)
        while not self._is_over():
            self._station.step()
        if self._stream is not None:
            self._stream.close()
        return self.is_opened

    def _is_over(self) -> bool:
        if self._stream is None:
            return self._is_ended
        return self._stream.is_closed or (self._is_ended and self._stream.is_written())

    def _end(self, file: int) -> None:
        self._station.unwatch(file)
        self._is_ended = True

    def _begin(self, end: int) -> None:
        self._stream = Stream(self._station, end, self._take)

    def _type(self, lines: Iterable[str]) -> None:
        self._lines.extend(lines)
        self._write()

    def _write(self) -> None:
        if self._stream is not None:
            for line in self._lines:
                self._stream.write(line.encode(), ends_message=True)
            self._lines.clear()

    def _hear(self, report: Report) -> None:
        if report.kind == "made" and self._stream is None:
            self._station.call("listen off")
            self._begin(report.number())
        if self._stream is None:
            return
        if report.begins(["opened", str(self._stream.end)]):
            self.is_opened = True
            self._tell("the stream is open")
        if report.begins(["denied", str(self._stream.end)]):
            self._tell("the other node denied the stream: nobody listens there")
        self._stream.hear(report)
        self._write()

    def _take(self, items: List[Optional[bytes]]) -> None:
        for item in items:
            if item is not None:
                self._message += item
            else:
                text = self._message.decode(errors="replace")
                print(text, file=self._output, flush=True)
                self._message = b""

    def _tell(self, sentence: str) -> None:
        print(f"at_node: {sentence}", file=self._errors, flush=True)
