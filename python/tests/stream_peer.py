"""One side of a stream over a cable that loses, in a process of its own.

    stream_peer.py write|read udp FIRST|ltoudp NUMBER FILE PERCENT

The side that reads is found by its name, and writes what came to FILE. The side that writes sends
what FILE has. Each ends when all is over, and prints how many datagrams it lost.
"""

from __future__ import annotations

import sys
import time
from pathlib import Path
from typing import List, Optional

from at_node import Node, ltoudp
from at_node.cable import Cable
from at_node.report import Find, Report
from at_node.station import Station, setup_of
from at_node.stream import Stream
from at_node.udp import UdpCable
from lossy import LossyCable

NET, ROOMS, RESEND, LOOKUP = 10, 4096, 0.02, 0.2


def cable_of(kind: str, number: int) -> Cable:
    """The cable that is named: `ltoudp`, or the first port of one of UDP."""
    if kind == "ltoudp":
        return ltoudp.join(NET, number, interface="127.0.0.1")[1]
    return UdpCable(int(kind), number)


def find(station: Station) -> Find:
    """The name of the reader, once it answers."""
    while True:
        lookup = station.call("find Reader Stream").number()
        end = time.monotonic() + 0.3
        while time.monotonic() < end:
            station.step(end)
        finds = station.call(f"finish {lookup}").finds()
        if finds:
            return finds[0]


def write(station: Station, file: Path) -> None:
    """Writes the file to the reader, and closes when all of it is acknowledged."""
    there = find(station)
    end = station.call(f"connect {there.node} {there.socket}").number()
    stream = Stream(station, end, lambda items: None)
    station.hear = stream.hear
    stream.write(file.read_bytes(), ends_message=True)
    while not stream.is_written() and not stream.is_closed:
        station.step()
    stream.close()


def read(station: Station, file: Path) -> None:
    """Reads one message of whoever comes, and writes it to the file."""
    came: List[Optional[bytes]] = []
    streams: List[Stream] = []

    def hear(report: Report) -> None:
        if report.kind == "made":
            streams.append(Stream(station, report.number(), came.extend))
        for stream in streams:
            stream.hear(report)

    station.hear = hear
    station.call("register Reader Stream 130")
    station.call("listen on")
    while not (came and came[-1] is None):
        station.step()
    file.write_bytes(b"".join(it for it in came if it is not None))
    # The last acknowledgement may be lost, so the other side is answered until it closes.
    end = time.monotonic() + 3
    while not any(it.is_closed for it in streams) and time.monotonic() < end:
        station.step(end)


def main(words: List[str]) -> None:
    what, kind, number, file, percent = words
    cable = LossyCable(cable_of(kind, int(number)), float(percent), seed=int(number))
    intervals = {"resend": RESEND, "lookup": LOOKUP}
    with Node(setup_of(NET, int(number), rooms=ROOMS), int(number)) as node:
        station = Station(node, cable, intervals=intervals)
        (write if what == "write" else read)(station, Path(file))
        station.close()
    cable.close()
    print(f"lost {cable.lost}; {cable.counts.line()}")


if __name__ == "__main__":
    main(sys.argv[1:])
