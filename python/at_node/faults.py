"""What a node answers in place of a report, as exceptions."""

from __future__ import annotations


class Fault(Exception):
    """Whatever this package raises of its own. The node is then as it was before the call."""


class Refused(Fault):
    """The node refused a call or a timer, which changed nothing and sent nothing.

    `number` is that of the report `refused NUMBER`, and `sentence` says why in English.
    """

    def __init__(self, number: int, sentence: str) -> None:
        super().__init__(f"{sentence} (refusal {number})")
        self.number = number
        self.sentence = sentence


class OutOfMemory(Fault, MemoryError):
    """There was no memory. The same call can be made again."""


class BadSetup(Fault, ValueError):
    """The text is not the first lines of a schedule, so it sets up no cable."""


class NoSuchNode(Fault, ValueError):
    """The cable has no node of this number."""


class NoEvent(Fault, ValueError):
    """The words say no call and no timer."""


class Closed(Fault, ValueError):
    """The node is closed."""


class WrongThread(Fault, RuntimeError):
    """A node is used on another thread than the one that opened it."""


class LibraryMissing(Fault, ImportError):
    """The shared library is not there, or is of another number than this package."""


class CableFault(Fault, OSError):
    """A cable can't be joined. The text says what to do."""


class NumberTaken(CableFault):
    """Each node number that was asked for belongs to another node of the cable."""
