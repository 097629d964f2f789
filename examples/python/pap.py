"""The Printer Access Protocol, as far as a printer and a client share it.

Each packet is one of a transaction. Its user bytes are a connection's number, a function, and two
bytes more: the sequence number of SEND_DATA, or in DATA whether it ends a file.
"""

from __future__ import annotations

from typing import List, NamedTuple

from at_node import Packet, bytes_of_word

OPEN, OPEN_REPLY, SEND_DATA, DATA, TICKLE, CLOSE, CLOSE_REPLY, SEND_STATUS, STATUS = range(1, 10)
# The socket of a node's service, where requests come.
SERVICE = 129
# The most packets of a response, and the most bytes of data in each.
QUANTUM, PACKET = 8, 512
# The result of OPEN_REPLY while another client prints.
OPENED, BUSY = 0, 0xFFFF
# Each side tickles the other so often, and gives it up after so many seconds of silence.
TICKLES, SILENCE = 60.0, 120.0
# SEND_DATA is sent again so often, each 2 s; OPEN, CLOSE and SEND_STATUS so often.
PATIENT, RETRIES = 255, 5


class Asked(NamedTuple):
    """A request that came. `key` names it to the node: who, socket and number. It is empty where
    the node keeps nothing of it."""

    who: str
    key: str
    connection: int
    function: int
    sequence: int
    data: bytes


def asked_of(words: List[str]) -> Asked:
    """The request of a report `asked WHO SOCKET NUMBER USER DATA`."""
    user, data = bytes_of_word(words[4]), bytes_of_word(words[5])
    sequence = int.from_bytes(user[2:], "big")
    return Asked(words[1], " ".join(words[1:4]), user[0], user[1], sequence, data)


def user_bytes(connection: int, function: int, rest: int = 0) -> bytes:
    """The user bytes of a packet."""
    return bytes([connection, function]) + rest.to_bytes(2, "big")


def after(number: int) -> int:
    """The sequence number after another. They run from 1 to 65,535."""
    return number % 0xFFFF + 1


def data_packets(connection: int, data: bytes, ends: bool) -> List[Packet]:
    """The packets of DATA. Some read the end of a file in the first, and some in the last of
    them, so each has it."""
    user = user_bytes(connection, DATA, 0x100 * ends)
    places = range(0, max(len(data), 1), PACKET)
    return [Packet(user, data[at:at + PACKET]) for at in places]


def counted(text: str) -> bytes:
    """A text with its length before it, as a status is."""
    spelled = text.encode("mac_roman", "replace")[:255]
    return bytes([len(spelled)]) + spelled


def text_of(data: bytes) -> str:
    """The text of a status. Where its length is wrong, it is what is there."""
    return data[1:1 + data[0]].decode("mac_roman") if data else ""
