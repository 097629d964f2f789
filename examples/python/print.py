#!/usr/bin/env python3
"""Prints a file to a printer of the cable, or asks for its status:

    print.py NAME [FILE] [--udp FIRST --node N | --interface ADDRESS] ..

It is a client of the Printer Access Protocol: it finds the printer by its name, opens a connection,
and answers each request for data, until the printer says that it has all.
"""

from __future__ import annotations

import argparse
import contextlib
import random
import re
import sys
import time
from pathlib import Path
from typing import List, Optional

import pap
from at_node import Fault, Find, Packet, Refused, Report, word_of_text
from at_node.joining import add_words, check_words, station_of
from at_node.station import Station
from connection import Connection, Peer
from service import Service

# The seconds of a lookup, between two tries of a busy printer, and of all of them.
LOOKUP, BUSY, PATIENCE = 3.0, 1.0, 300.0
# How a PostScript printer says that a job failed.
ERROR = re.compile(rb"%%\[ *(Error:.*?) *\]%%", re.DOTALL)


class NoPrint(Exception):
    """Why nothing was printed, or not all."""


class Client:
    """One connection to a printer, which sends `data`."""

    def __init__(self, station: Station, printer: Find, data: bytes) -> None:
        self._station, self._data = station, data
        self._who, self._place = str(printer.node), f"{printer.node} {printer.socket}"
        self._number = random.randint(1, 255)
        self._service = Service(station, self._hear, self._asked)
        self._last: Optional[Report] = None
        self._connection: Optional[Connection] = None
        # While a connection is asked for, what the printer asked before its reply was read.
        self._early: Optional[List[pap.Asked]] = None
        self._began = time.monotonic()
        # What the printer said, and whether it said that it has all, or why it has not.
        self._said = b""
        self._is_printed = False
        self._fault = ""

    def _hear(self, report: Report) -> None:
        self._last = report
        if self._connection is not None:
            self._connection.hear(report)

    def _asked(self, asked: pap.Asked) -> None:
        connection = self._connection
        is_its = connection is not None and connection.is_its(asked)
        if asked.function == pap.CLOSE:
            reply = Packet(pap.user_bytes(asked.connection, pap.CLOSE_REPLY), b"")
            self._service.answer(asked, [reply])
            if connection is not None and is_its:
                connection.stop()
                self._connection = None
                self._fault = "the printer closed the connection before it had all"
        elif connection is not None and is_its:
            connection.asked(asked)
        elif self._early is not None and asked.function == pap.SEND_DATA:
            self._early.append(asked)
        else:
            self._service.forget(asked)

    def ask(self, place: str, user: bytes, data: bytes = b"") -> Packet:
        """Asks a socket, and waits for the packet of its answer. Raises NoPrint."""
        asking, self._last = self._service.ask(place, user, data), None
        while self._last is None or self._last.number() != asking:
            self._station.step()
        if self._last.kind == "failed":
            raise NoPrint("the printer does not answer")
        return self._last.packets()[0]

    def status(self) -> str:
        """What the printer says of itself. Raises NoPrint."""
        return pap.text_of(self.ask(self._place, pap.user_bytes(0, pap.SEND_STATUS)).data[4:])

    def open(self) -> str:
        """Asks for a connection. The status of a printer that is busy, else nothing. Raises
        NoPrint."""
        waited = min(int(time.monotonic() - self._began), 0xFFFF)
        data = bytes([pap.SERVICE, pap.QUANTUM]) + waited.to_bytes(2, "big")
        early = self._early = []
        reply = self.ask(self._place, pap.user_bytes(self._number, pap.OPEN), data)
        self._early = None
        is_busy = len(reply.data) < 4 or reply.data[2:4] != b"\0\0" or reply.user[2:] == b"\xff\xff"
        if not is_busy:
            quantum = min(max(reply.data[1], 1), pap.QUANTUM)
            peer = Peer(self._who, reply.data[0], self._number, quantum)
            self._connection = Connection(self._service, peer, self._take)
        for asked in early:
            self._asked(asked)
        return (pap.text_of(reply.data[4:]) or "it says no more") if is_busy else ""

    def _take(self, data: bytes, ends: bool) -> None:
        """Takes what the printer says. The end of a file says that it has all."""
        connection = self._connection
        assert connection is not None, "data come by a connection"
        sys.stderr.write(data.decode("mac_roman").replace("\r", "\n"))
        self._said = (self._said + data)[-1 << 14:]
        if not ends:
            return
        connection.stop()
        if connection.outbox.is_empty():
            self._is_printed = True
        else:
            self._fault = "the printer ended before it had all"

    def finish(self) -> None:
        """Gives the printer all, and waits until it says so. Raises NoPrint."""
        connection = self._connection
        assert connection is not None, "the connection is open"
        connection.outbox.say(self._data)
        connection.outbox.end()
        connection.give()
        connection.ask_data()
        while not self._is_printed and not self._fault:
            self._station.step(time.monotonic() + 1)
            connection.step()
            if connection.is_silent():
                self._fault = "the printer fell silent before it had all"
        self.close()
        error = ERROR.search(self._said)
        if self._fault:
            raise NoPrint(self._fault)
        if error is not None:
            raise NoPrint(f"the printer says: {error[1].decode('mac_roman')}")

    def close(self) -> None:
        """Closes the connection, if there is one. What was printed stays so without an answer."""
        connection, self._connection = self._connection, None
        if connection is None:
            return
        connection.stop()
        place = f"{connection.peer.who} {connection.peer.socket}"
        with contextlib.suppress(NoPrint):
            self.ask(place, pap.user_bytes(self._number, pap.CLOSE))

    def leave(self) -> None:
        """Tells the printer that a connection which is still open is closed, and waits for
        nothing."""
        if self._connection is not None:
            self._connection.close()


def find(station: Station, name: str) -> Find:
    """The printer of this name, as soon as one answers. Raises NoPrint."""
    heard: List[Report] = []
    station.hear = heard.append
    lookup = station.call(f"find {word_of_text(name)} LaserWriter").number()
    end = time.monotonic() + LOOKUP
    while time.monotonic() < end and not any(it.kind == "finds" for it in heard):
        station.step(end)
    finds = station.call(f"finish {lookup}").finds()
    if not finds:
        raise NoPrint(f"no printer has the name {name}")
    return finds[0]


def send(station: Station, printer: Find, data: bytes) -> None:
    """Prints the data, once the printer is free. Raises NoPrint."""
    client = Client(station, printer, data)
    end = time.monotonic() + PATIENCE
    status = client.open()
    while status:
        if time.monotonic() > end:
            raise NoPrint(f"the printer stays busy: {status}")
        again = time.monotonic() + BUSY
        while time.monotonic() < again:
            station.step(again)
        status = client.open()
    try:
        client.finish()
    finally:
        client.leave()


def main() -> int:
    """Prints, or tells the status of the printer. The status is 1 if that failed."""
    parser = argparse.ArgumentParser(description=__doc__.partition("\n\n")[0])
    parser.add_argument("name", help="the printer's name, or = for any")
    parser.add_argument("file", type=Path, nargs="?", help="what is printed; else its status is")
    add_words(parser)
    words = parser.parse_args()
    check_words(parser, words)
    try:
        with station_of(words) as (_, station):
            printer = find(station, words.name)
            if words.file is None:
                print(Client(station, printer, b"").status())
            else:
                send(station, printer, words.file.read_bytes())
                print(f"{words.file} is printed by {printer.object}")
        return 0
    except KeyboardInterrupt:
        return 130
    except (Fault, Refused, OSError, NoPrint) as error:
        has_name = getattr(error, "filename", None) is not None
        print(f"print.py: {error if has_name else error.args[-1]}", file=sys.stderr)
        return 1


if __name__ == "__main__":
    sys.exit(main())
