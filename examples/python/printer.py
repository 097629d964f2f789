#!/usr/bin/env python3
"""A printer that programs for AppleTalk print to, on LocalTalk over UDP or on UDP. Each job becomes
a file, and may go to a command:

    printer.py FOLDER [--name NAME] [--run COMMAND] [--udp FIRST --node N | --interface ADDRESS] ..

It speaks the Printer Access Protocol over the exactly-once service of its node. One client prints
at a time, and others hear that it is busy. It prints no pages itself.
"""

from __future__ import annotations

import argparse
import signal
import sys
import time
from pathlib import Path
from typing import List, Optional

import pap
from at_node import Fault, Packet, Report, word_of_text
from at_node.joining import add_words, check_words, station_of
from at_node.station import Station
from connection import Connection, Peer
from description import description_of
from documents import Documents
from jobs import Job
from queries import Description
from runner import Runner
from service import Service

TYPE = "LaserWriter"
# The seconds for which the name is looked for before it is taken.
CLAIM = 3.2
# A client that has so many bytes of answers to read, and reads none, is given up.
MOST_ANSWERS = 1 << 16
IDLE, PRINTING = "idle", "busy; source: AppleTalk"
# The node asks nodes of its own network alone.
FAR = "this printer serves only clients of its own network"


def tell(sentence: str) -> None:
    """Says on standard error what went wrong."""
    print(sentence, file=sys.stderr, flush=True)


class Printer:
    """A printer of a station, which writes each job as a file of a folder."""

    def __init__(
        self,
        station: Station,
        folder: Path,
        runner: Optional[Runner] = None,
        description: Description = Description(),
    ) -> None:
        self._station, self._folder = station, folder
        self._runner, self._description = runner, description
        self._service = Service(station, self._hear, self._asked)
        # One client's connection, and the documents that it sends.
        self._connection: Optional[Connection] = None
        self._documents: Optional[Documents] = None
        self.jobs: List[Path] = []

    def claim(self, name: str) -> bool:
        """Takes the name, unless another node of the cable has it."""
        lookup = self._station.call(f"claim {word_of_text(name)} {TYPE} {pap.SERVICE}").number()
        end = time.monotonic() + CLAIM
        while time.monotonic() < end:
            self._station.step(end)
        return self._station.call(f"finish {lookup}").kind == "claimed"

    def step(self, seconds: float = 1.0) -> None:
        """Waits so long at most, and does what there is to do."""
        self._station.step(time.monotonic() + seconds)
        if self._runner is not None:
            self._runner.step()
        if self._connection is None:
            return
        if self._connection.is_silent():
            self._drop("a client fell silent")
        else:
            self._connection.step()

    def close(self) -> None:
        """Ends the connection that is open, and tells which jobs were not given to the command."""
        if self._connection is not None:
            self._drop("the printer is ended")
        if self._runner is not None:
            self._runner.close()

    def _hear(self, report: Report) -> None:
        if self._connection is not None:
            self._connection.hear(report)

    def _asked(self, asked: pap.Asked) -> None:
        connection = self._connection
        is_its = connection is not None and connection.is_its(asked)
        if asked.function == pap.OPEN:
            self._open(asked)
        elif asked.function == pap.SEND_STATUS:
            packet = Packet(pap.user_bytes(0, pap.STATUS), bytes(4) + self._status(asked))
            self._service.answer(asked, [packet])
        elif asked.function == pap.CLOSE:
            self._closed(asked, is_its)
        elif asked.function not in (pap.SEND_DATA, pap.TICKLE):
            self._service.answer(asked, [Packet(pap.user_bytes(asked.connection, 0), b"")])
        elif connection is not None and is_its:
            connection.asked(asked)
        else:
            # No end of file: of a job that was dropped it would be a lie.
            self._service.forget(asked)

    def _status(self, asked: pap.Asked) -> bytes:
        """What a client is told of the printer."""
        state = IDLE if self._connection is None else PRINTING
        return pap.counted(f"status: {FAR if '.' in asked.who else state}")

    def _open(self, asked: pap.Asked) -> None:
        has_place = len(asked.data) >= 2 and 1 <= asked.data[0] <= 254
        is_free = self._connection is None and has_place and "." not in asked.who
        result = pap.OPENED if is_free else pap.BUSY
        reply = bytes([pap.SERVICE, pap.QUANTUM]) + result.to_bytes(2, "big") + self._status(asked)
        user = pap.user_bytes(asked.connection, pap.OPEN_REPLY)
        self._service.answer(asked, [Packet(user, reply)])
        if is_free:
            quantum = min(max(asked.data[1], 1), pap.QUANTUM)
            self._begin(Peer(asked.who, asked.data[0], asked.connection, quantum))

    def _begin(self, peer: Peer) -> None:
        self._connection = Connection(self._service, peer, self._take)
        outbox = self._connection.outbox
        self._documents = Documents(self._folder, self._description, outbox, self._done)
        self._connection.ask_data()

    def _take(self, data: bytes, ends: bool) -> None:
        """Takes data of a client, and says what there is to say."""
        connection, documents = self._connection, self._documents
        assert connection is not None and documents is not None, "data come by a connection"
        try:
            documents.feed(data)
            if ends:
                documents.end()
        except OSError as error:
            self._drop(f"a job can't be written to {self._folder}, {error.strerror}")
            return
        if connection.outbox.waits() > MOST_ANSWERS:
            self._drop("a client reads no answers")
        else:
            connection.give()

    def _done(self, job: Job) -> None:
        """A job is whole."""
        assert self._connection is not None and job.path is not None, "a whole job has its path"
        self.jobs.append(job.path)
        print(f"{job.path}: {job.size} bytes from node {self._connection.peer.who}", flush=True)
        if self._runner is not None:
            self._runner.add(job.path)

    def _closed(self, asked: pap.Asked, is_its: bool) -> None:
        """A client closes its connection, or one that has ended."""
        if is_its:
            self._end("a client closed before the end of its job")
        reply = Packet(pap.user_bytes(asked.connection, pap.CLOSE_REPLY), b"")
        self._service.answer(asked, [reply])

    def _drop(self, why: str) -> None:
        """Closes the connection. Its client hears of no end of file, but that it is closed."""
        assert self._connection is not None, "a connection is closed once"
        self._connection.close()
        self._end(why, is_lost=True)

    def _end(self, why: str, is_lost: bool = False) -> None:
        """Ends the connection, and says why if a job is lost, or the client did not close."""
        connection, documents = self._connection, self._documents
        assert connection is not None and documents is not None, "a connection ends once"
        self._connection = self._documents = None
        connection.stop()
        who, size = connection.peer.who, documents.size()
        if size:
            tell(f"{why}, and its job is dropped: {size} bytes from node {who}")
        elif is_lost:
            tell(f"{why}: node {who}")
        try:
            documents.drop()
        except OSError as error:
            tell(f"a job that was dropped can't be removed: {error}")


def serve(printer: Printer) -> None:
    """Prints until a signal comes. What is begun in a step is ended before the printer is."""
    signals: List[int] = []
    for number in (signal.SIGINT, signal.SIGTERM):
        signal.signal(number, lambda came, _: signals.append(came))
    while not signals:
        printer.step()
    printer.close()


def run(words: argparse.Namespace) -> int:
    """Prints until a signal comes. Raises Fault or OSError."""
    words.folder.mkdir(parents=True, exist_ok=True)
    description = Description() if words.ppd is None else description_of(words.ppd)
    runner = None if words.run is None else Runner(words.run, tell)
    with station_of(words, tell) as (number, station):
        printer = Printer(station, words.folder, runner, description)
        if not printer.claim(words.name):
            tell(f"another node has the name {words.name}")
            return 1
        print(f"{words.name} is node {number}", flush=True)
        serve(printer)
    return 0


def main() -> int:
    """Prints until it is interrupted. The status is 1 if the cable or the name can't be had."""
    parser = argparse.ArgumentParser(description=__doc__.partition("\n\n")[0])
    parser.add_argument("folder", type=Path, help="where jobs are written")
    parser.add_argument("--name", default="Paper Printer", help="the printer's name")
    parser.add_argument("--run", metavar="COMMAND",
        help="a command of the shell that gets each job on its standard input, such as lp; the "
        "job's file is removed if it succeeds")
    parser.add_argument("--ppd", metavar="FILE", type=Path,
        help="the description of the printer behind, from which queries are answered")
    add_words(parser)
    words = parser.parse_args()
    check_words(parser, words)
    signal.signal(signal.SIGTERM, lambda *_: sys.exit(0))
    try:
        return run(words)
    except KeyboardInterrupt:
        return 0
    except (Fault, OSError) as error:
        has_name = getattr(error, "filename", None) is not None
        tell(f"printer.py: {error if has_name else error.args[-1]}")
        return 1


if __name__ == "__main__":
    sys.exit(main())
