"""How a node of LocalTalk over UDP gets its number: it asks whether another one has it."""

from __future__ import annotations

import random
import select
import time
from typing import List, Optional

from .faults import CableFault, NumberTaken
from .llap import ACK, ENQ, Frame
from .wire import SENDER, Wire, advice

# An asking: so many times, and so many seconds for an answer to each.
ASKINGS, PATIENCE = 8, 0.2
USERS, SERVERS = range(1, 128), range(128, 255)
# So many payloads are looked at before the clock is.
MAX_AT_ONCE = 64


def is_taken(wire: Wire, number: int) -> bool:
    """Asks for a number, and says whether another node has it, or gets it now.

    Of two that ask at once, the one of the greater sender gets it: it answers the other's
    question. Raises CableFault if nothing can be sent.
    """
    for _ in range(ASKINGS):
        _send(wire, Frame(number, number, ENQ, b""))
        end = time.monotonic() + PATIENCE
        while time.monotonic() < end:
            if _is_denied(wire, number):
                return True
            _wait(wire, end - time.monotonic())
    return False


def _send(wire: Wire, frame: Frame) -> None:
    try:
        wire.send(frame)
    except OSError as error:
        raise CableFault(error.errno, advice(error, None)) from error


def _wait(wire: Wire, seconds: float) -> None:
    poll = select.poll()
    poll.register(wire, select.POLLIN)
    poll.poll(max(0.0, seconds) * 1000)


def _is_denied(wire: Wire, number: int) -> bool:
    """Whether one of the payloads that wait denies the number."""
    for _ in range(MAX_AT_ONCE):
        payload = wire.receive()
        if payload is None:
            return False
        frame = wire.frame_of(payload)
        if frame is None or frame.to != number:
            continue
        if frame.kind == ACK or frame.kind == ENQ and payload[:SENDER] > wire.sender:
            return True
        if frame.kind == ENQ:
            _send(wire, Frame(number, number, ACK, b""))
    return False


def take_number(wire: Wire, wanted: Optional[int] = None, server: bool = False) -> int:
    """The number of this node: the wanted one, or a free one of the users' (1 to 127) or the
    servers' (128 to 254), begun at random. Raises NumberTaken or CableFault."""
    numbers: List[int] = [wanted] if wanted is not None else list(SERVERS if server else USERS)
    random.shuffle(numbers)
    for number in numbers:
        if not is_taken(wire, number):
            return number
    if wanted is not None:
        raise NumberTaken(f"node number {wanted} is taken: name another, or leave --node out")
    raise NumberTaken("all node numbers are taken")
