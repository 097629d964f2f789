"""A proved AppleTalk node in Python, over the shared library `libat_node.so.1`.

`Node` is the node, `Alarms` keeps time for it, and `Station` (`at_node.station`) runs it on a cable
(`at_node.udp`, `at_node.ltoudp`). `python3 -m at_node` has commands.
"""

from .alarms import INTERVALS, Alarms
from .faults import (
    BadSetup, CableFault, Closed, Fault, LibraryMissing, NoEvent, NoSuchNode, NumberTaken,
    OutOfMemory, Refused, WrongThread,
)
from .node import Node, show, version
from .report import Find, Packet, Refusal, Report
from .words import bytes_of_word, text_of_word, word_of_bytes, word_of_text

__all__ = [
    "INTERVALS", "Alarms", "BadSetup", "CableFault", "Closed", "Fault", "Find", "LibraryMissing",
    "NoEvent", "NoSuchNode", "Node", "NumberTaken", "OutOfMemory", "Packet", "Refusal", "Refused",
    "Report", "WrongThread", "bytes_of_word", "show", "text_of_word", "version", "word_of_bytes",
    "word_of_text",
]
