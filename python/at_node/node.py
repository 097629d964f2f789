"""A node of an AppleTalk cable.

It has no clock, no thread and no socket: calls, timers and datagrams come in, and reports and
datagrams go out. What it does of each is proved. That these modules hand it on is only tested.
"""

from __future__ import annotations

import ctypes
import threading
from types import TracebackType
from typing import Any, Dict, Iterator, List, Optional, Tuple, Type, Union

from . import library
from .faults import (
    BadSetup, Closed, Fault, NoEvent, NoSuchNode, OutOfMemory, Refused, WrongThread,
)
from .report import Refusal, Report
from .words import line_of_words

_FAULTS: Dict[int, Tuple[Type[Fault], str]] = {
    library.NO_MEMORY: (OutOfMemory, "there is no memory for this"),
    library.NO_SETUP: (BadSetup, "the text sets up no cable"),
    library.NO_SUCH_NODE: (NoSuchNode, "the cable has no node of this number"),
    library.NO_EVENT: (NoEvent, "this is no call and no timer"),
    library.NOT_OPEN: (Closed, "the node is closed"),
}


def _fault(status: int, what: str) -> Fault:
    """The exception for a status other than OK, about some words of the caller."""
    kind, sentence = _FAULTS[status]
    return kind(f"{sentence}: {what}" if what else sentence)


class _Room:
    """Memory that the library fills, which grows where what is handed out is longer."""

    def __init__(self, size: int) -> None:
        self.bytes = ctypes.create_string_buffer(size)
        self.length = ctypes.c_size_t()

    def words(self) -> Tuple[Any, ...]:
        """The room as the functions of the library take it."""
        return self.bytes, len(self.bytes), ctypes.byref(self.length)

    def fill(self, function: Any, *before: Any) -> Optional[bytes]:
        """What a function hands out, or None if there is nothing. Raises Fault."""
        status = function(*before, *self.words())
        if status == library.NO_ROOM:
            self.bytes = ctypes.create_string_buffer(self.length.value)
            status = function(*before, *self.words())
        if status == library.MISSING:
            return None
        if status != library.OK:
            raise _fault(status, "")
        return ctypes.string_at(self.bytes, self.length.value)


class Node:
    """A node of a cable, by the number of its setup. It is used on one thread.

    Example:

        with Node("net 10\\nnode 5\\n", 5) as node:
            node.call("find = LaserWriter")          # Report('looking 0')
            for to, datagram in node.datagrams():
                send_on_the_cable(to, datagram)
    """

    def __init__(self, setup: Union[str, bytes], number: int) -> None:
        """Opens the node of a number from 1 to 254, of the cable that `setup` describes.

        `setup` has the first lines of a schedule, each ended by a line feed. Raises BadSetup,
        NoSuchNode, OutOfMemory or LibraryMissing.
        """
        self._library = library.load()
        self._handle = library.Handle()
        self._reference = ctypes.byref(self._handle)
        self._thread = threading.get_ident()
        self._text = _Room(1 << 14)
        self._datagram = _Room(library.MAX_DATAGRAM)
        self._number = ctypes.c_uint8()
        if not 1 <= number <= 254:
            raise NoSuchNode(f"a node's number is 1 to 254, and not {number}")
        text = setup.encode("ascii") if isinstance(setup, str) else setup
        status = self._library.at_node_open(self._reference, text, len(text), number)
        if status != library.OK:
            raise _fault(status, f"node {number} of {text[:200]!r}")

    def _play(self, line: bytes) -> Report:
        self._check_thread()
        status = self._library.at_node_play(self._reference, line, len(line))
        if status != library.OK:
            raise _fault(status, line.decode("ascii"))
        report = self._report()
        if report.refusal is not None:
            raise Refused(*report.refusal)
        return report

    def _report(self) -> Report:
        text = self._text.fill(self._library.at_node_report, self._reference, 0)
        assert text is not None, "a node that played has a report"
        line = text[2:-1].decode("ascii")
        return Report(line, self._refusal() if line.startswith("refused ") else None)

    def _refusal(self) -> Refusal:
        number = ctypes.byref(self._number)
        sentence = self._text.fill(self._library.at_node_refusal, self._reference, number)
        assert sentence is not None, "a node that refused says why"
        return Refusal(self._number.value, sentence.decode("utf-8"))

    def _check_thread(self) -> None:
        if threading.get_ident() != self._thread:
            raise WrongThread("a node is used on the thread that opened it")

    def call(self, words: str) -> Report:
        """Plays a call, such as `find = LaserWriter`: a line of a schedule without its number.

        Characters that are not ASCII are spelled by Mac Roman, but spaces in a text are written
        `%20` (`at_node.word_of_text`). Raises Refused, NoEvent, OutOfMemory or Closed.
        """
        return self._play(line_of_words("call " + words))

    def timer(self, words: str) -> Report:
        """Plays a timer, such as `retry 0`. Raises as `call` does."""
        return self._play(line_of_words("timer " + words))

    def receive(self, datagram: bytes) -> Report:
        """Takes the bytes of a datagram that came, whatever they are. `bytes` are not copied.

        What is refused is no fault of the caller: the report is `refused NUMBER`, and its
        `refusal` says why. Raises OutOfMemory or Closed.
        """
        self._check_thread()
        bytes_ = datagram if isinstance(datagram, bytes) else bytes(datagram)
        status = self._library.at_node_receive(self._reference, bytes_, len(bytes_))
        if status != library.OK:
            raise _fault(status, "")
        return self._report()

    def datagrams(self) -> Iterator[Tuple[int, bytes]]:
        """Hands out what the node sent, each once and in order: for which node, and its bytes.

        The number is 255 for everyone. What is not taken is handed out the next time. Raises
        Closed.
        """
        number = ctypes.byref(self._number)
        while True:
            self._check_thread()
            function = self._library.at_node_next_datagram
            datagram = self._datagram.fill(function, self._reference, number)
            if datagram is None:
                return
            yield self._number.value, datagram

    def timers(self) -> List[str]:
        """The timers that would do something now, such as `retry 0`, each for `timer`.

        After each call, timer and datagram the list is read anew. `at_node.Alarms` keeps time by
        it. Raises OutOfMemory or Closed.
        """
        self._check_thread()
        text = self._text.fill(self._library.at_node_timers, self._reference)
        assert text is not None, "an open node has a list"
        return [it[len("timer "):] for it in text.decode("ascii").splitlines()]

    def close(self) -> None:
        """Frees all that the node has. A second time it does nothing."""
        self._check_thread()
        self._library.at_node_close(self._reference)

    def __enter__(self) -> Node:
        return self

    def __exit__(
        self,
        kind: Optional[Type[BaseException]],
        error: Optional[BaseException],
        trace: Optional[TracebackType],
    ) -> None:
        self.close()

    def __del__(self) -> None:
        # No other thread can use it any more.
        if hasattr(self, "_reference"):
            self._library.at_node_close(self._reference)


def show(datagram: bytes) -> str:
    """The lines that say what the bytes of a datagram are. Raises OutOfMemory."""
    shown = _Room(library.MAX_SHOWN).fill(library.load().at_node_show, datagram, len(datagram))
    assert shown is not None, "bytes have lines"
    return shown.decode("ascii")


def version() -> int:
    """The number of the library. Raises LibraryMissing."""
    return int(library.load().at_node_version())
