#!/usr/bin/env python3
"""Random frames at full speed to a live node on LocalTalk over UDP, and then a lookup:

    python/in_namespace bench/live_hostile.py FRAMES [SEED]

The package `at_node` is to be on PYTHONPATH. Some frames are any bytes, some are for the node, some
are datagrams with random bytes in them, and a fifth goes to socket 1. Half of those tell of a
router, each of another network, and whoever is asked for a zone then names one. In the first tenth
no frame tells of a router soundly, and the node is to stay where it is. In the first two tenths
none asks the service for anything, so the node can move, and has time for it then.

It tells how many frames the node took: what its socket has no room for is lost. The status is 1 if
the node does not answer the lookup, ended, moved before it heard a sound word of a router, moved
more often than once in 50 seconds, did not move, or has more memory than 5 % over that after a
tenth of the frames.
"""

from __future__ import annotations

import random
import re
import select
import signal
import subprocess
import sys
import threading
import time
from pathlib import Path
from typing import Any, List, NamedTuple

from at_node.moving import PAUSE
from at_node.wire import GROUP, PORT, Wire

NODE, INTERFACE, PARTS, FLAT = 7, "127.0.0.1", 10, 0.05
# So many frames are made before the first is sent, so that making them takes no time of sending.
MADE = 20_000
# The seconds of quiet after the first parts: for what is said, and for a move.
REST = 0.5, 5.0
MOVED = f"at_node: node {NODE} of network "


def short(to: int, source: int, body: bytes) -> bytes:
    """A payload that carries a datagram with the short header: sockets, type and data."""
    return b"HOST" + bytes([to, source, 1]) + (len(body) + 2).to_bytes(2, "big") + body


def unsound(chance: random.Random) -> bytes:
    """A word of a router that is to be believed in no case."""
    source, network = chance.randrange(1, 255), chance.randrange(1, 65_536).to_bytes(2, "big")
    body = chance.choice([
        network + bytes([chance.choice([0, 7, 9, 255]), source]), network + b"\x08\0",
        b"\0\0\x08" + bytes([source]), network + bytes([8, source % 254 + 1]), network + b"\x08",
        chance.randbytes(chance.randrange(4)),
    ])
    return short(chance.choice([NODE, 255]), source, b"\1\1\1" + body)


def sound(chance: random.Random) -> bytes:
    """A word of a router that is there for nobody."""
    source, network = chance.randrange(8, 255), chance.randrange(1, 65_536).to_bytes(2, "big")
    return short(chance.choice([NODE, 255]), source, b"\1\1\1" + network + bytes([8, source]))


class Kind(NamedTuple):
    """Whether frames tell of a router soundly, and whether they ask the node's service."""

    has_sound: bool
    has_requests: bool


def kind_of(part: int) -> Kind:
    """The kind of the frames of a part."""
    return Kind(has_sound=part > 0, has_requests=part > 1)


def frame(chance: random.Random, which: Kind) -> bytes:
    """A payload at random, of some kind."""
    data = chance.randbytes(chance.randrange(600))
    if chance.randrange(5) == 0:
        return sound(chance) if which.has_sound and chance.randrange(2) else unsound(chance)
    kind = chance.randrange(6)
    if kind == 0:
        return data
    to = chance.choice([NODE, NODE, 255])
    head = b"HOST" + bytes([to, chance.randrange(256)])
    if kind == 1:
        return head + bytes([chance.choice([0x81, 0x82, 0x84, 0x85, 3])]) + data
    socket = chance.choice([2, 4, 6, 128, 129 if which.has_requests else 131, 130])
    type_ = chance.choice([1, 2, 3, 5, 6, 7])
    body = bytes([socket, chance.randrange(256), type_]) + data
    if kind == 2:
        net = chance.choice([b"\0\0", b"\0\x0a", b"\0\x0c"])
        length, source = (len(data) + 13).to_bytes(2, "big"), bytes([to, chance.randrange(256)])
        return head + b"\2" + length + b"\0\0" + net * 2 + source + body
    return head + b"\1" + (len(data) + 5).to_bytes(2, "big") + body


class Liar(threading.Thread):
    """Names a zone to whoever asks any node for one, until `is_over` is set."""

    def __init__(self) -> None:
        super().__init__()
        self.is_over = threading.Event()
        self._wire = Wire(INTERFACE)

    def run(self) -> None:
        while not self.is_over.is_set():
            select.select([self._wire], [], [], 0.1)
            payload = self._wire.receive()
            if payload is not None and payload[9:10] == b"\6" and payload[16:17] == b"\7":
                answer = b"\x90\0" + payload[14:16] + b"\0\0\0\1\3Lie"
                asker, asked = payload[5], payload[4]
                body = bytes([payload[10], 6, 3]) + answer
                self._wire._socket.sendto(short(asker, asked, body), (GROUP, PORT))
        self._wire.close()


class Told(threading.Thread):
    """What the node says on standard error, as it comes."""

    def __init__(self, live: "subprocess.Popen[str]") -> None:
        super().__init__()
        self.lines: List[str] = []
        self._live = live

    def run(self) -> None:
        assert self._live.stderr is not None
        self.lines.extend(iter(self._live.stderr.readline, ""))

    def moves(self) -> int:
        """How often the node moved."""
        return sum(it.startswith(MOVED) for it in self.lines) - 1


def resident(process: "subprocess.Popen[str]") -> int:
    """The memory of a process, in kB."""
    return int(Path(f"/proc/{process.pid}/statm").read_text().split()[1]) * 4


def start() -> "subprocess.Popen[str]":
    """A live node with a name, once it is there."""
    how: Any = {"stdin": subprocess.PIPE, "stdout": subprocess.PIPE, "stderr": subprocess.PIPE}
    words = [sys.executable, "-W", "error", "-m", "at_node", "live", "--interface", INTERFACE]
    live = subprocess.Popen([*words, "--node", str(NODE), "--script", "-"], text=True, **how)
    assert live.stdin is not None and live.stdout is not None
    live.stdin.write("register Here LaserWriter 129\nwait 600\n")
    live.stdin.close()
    live.stdout.readline()
    return live


def answers() -> bool:
    """Whether the node answers a lookup."""
    words = [sys.executable, "-m", "at_node", "names", "Here:LaserWriter", "--interface", INTERFACE]
    ran = subprocess.run([*words, "--node", "9", "--no-place"], stdout=subprocess.PIPE, text=True)
    return "\t7.129" in ran.stdout


def flood(wire: Wire, frames: List[bytes], count: int) -> None:
    """Sends so many of the frames, again and again."""
    send, to = wire._socket.sendto, (GROUP, PORT)
    wire._socket.setblocking(True)
    for at in range(count):
        send(frames[at % len(frames)], to)


def main(words: List[str]) -> int:
    """Sends the frames, and returns the status."""
    count = int(words[0])
    chance = random.Random(int(words[1]) if len(words) > 1 else 1)
    frames = {kind: [frame(chance, kind) for _ in range(MADE)] for kind in map(kind_of, range(3))}
    live, wire, liar = start(), Wire(INTERFACE), Liar()
    told = Told(live)
    told.start()
    liar.start()
    memory, early = [], 0
    begun = time.monotonic()
    for part in range(PARTS):
        flood(wire, frames[kind_of(part)], count // PARTS)
        memory.append(resident(live))
        if part < len(REST):
            time.sleep(REST[part])
            early = early or len(told.lines)
    time.sleep(1.5)
    seconds = time.monotonic() - begun
    liar.is_over.set()
    memory.append(resident(live))
    is_there = answers()
    live.send_signal(signal.SIGTERM)
    status = live.wait(10)
    told.join(10)
    liar.join(10)
    received = re.findall(r"received (\d+)", told.lines[-1])
    is_flat = memory[-1] <= (1 + FLAT) * memory[0]
    is_steady = early == 1 and 1 <= told.moves() <= 1 + seconds // PAUSE
    print(f"{count} frames in {seconds:.1f} s, of which the node took {(received or ['none'])[-1]};"
          f" moves {told.moves()}; memory {memory[0]} kB, then {memory[-1]} kB; status {status}")
    print("the node answers a lookup" if is_there else "the node does NOT answer a lookup")
    if not (is_there and is_flat and is_steady and status == 143 and received):
        print("".join(told.lines))
        return 1
    return 0


if __name__ == "__main__":
    sys.exit(main(sys.argv[1:]))
