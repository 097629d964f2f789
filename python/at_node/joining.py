"""The words of a command line that say where a node is, and the station that they mean."""

from __future__ import annotations

import argparse
import contextlib
import random
from typing import Any, Iterator, List, Optional, Tuple

from . import ltoudp, rtmp
from .beside import Beside, Routing
from .cable import Cable
from .ltoudp import LtoudpCable
from .moving import Mover, Tell
from .node import Node
from .place import LONG_SEARCH, SHORT_SEARCH, Place, find
from .rtmp import Router
from .station import Station, pass_numbers, setup_of
from .udp import UdpCable
from .words import CHARSET, word_of_text

# A stream's end has so many items of room in each direction, unless others are named.
ROOMS = 4_096
# After so many seconds what is not acknowledged is sent again: cables of UDP are fast.
RESEND = 0.25
NETWORK = 10
# A node begins at one of so many numbers of transactions, so that the answers to a program that was
# here before are not taken for its own. It takes a third of a second at most.
PASSED = 8_192


def _number(first: int, last: int) -> Any:
    def number_in(word: str) -> int:
        number = int(word)
        if not first <= number <= last:
            raise argparse.ArgumentTypeError(f"{word} is not from {first} to {last}")
        return number

    return number_in


def _numbers(word: str) -> List[int]:
    return [_number(1, 254)(it) for it in word.split(",")]


def add_words(parser: argparse.ArgumentParser) -> None:
    """Adds the words to a command line."""
    add = parser.add_argument
    kind = parser.add_mutually_exclusive_group()
    kind.add_argument("--udp", metavar="FIRST", type=_number(0, 65_534),
                      help="node n is at port FIRST + n of 127.0.0.1, as `atnode udp` has it")
    kind.add_argument("--ltoudp", action="store_true",
                      help="LocalTalk over UDP, with emulators and bridges; also without this word")
    add("--interface", metavar="ADDRESS", help="the interface of LocalTalk over UDP")
    add("--others", metavar="N,N", type=_numbers,
        help="the nodes that broadcasts over UDP go to; else all numbers")
    add("--net", metavar="N", type=_number(1, 65_535),
        help=f"the network's number; else the router's, or {NETWORK} without a router")
    add("--node", metavar="N", type=_number(1, 254),
        help="the node's number; else a free one, which only LocalTalk over UDP can find")
    add("--server", action="store_true", help="a free number from 128 to 254")
    add("--zone", metavar="NAME", help="the node's zone, if there is a router")
    add("--router", metavar="N", type=_number(1, 254),
        help="the router's number; this node is the router if it is its own")
    add("--no-place", action="store_true",
        help="asks for no router; LocalTalk over UDP is asked without --net and --router alone")
    add("--wait-router", action="store_true",
        help=f"waits {LONG_SEARCH} s for a router, and not {SHORT_SEARCH}")
    add("--rooms", metavar="ITEMS", type=_number(1, 65_535), default=ROOMS,
        help=f"what a stream's end holds in each direction; {ROOMS} if left out")
    add("--resend", metavar="SECONDS", type=float, default=RESEND,
        help=f"when what is not acknowledged is sent again; {RESEND} if left out")


def check_words(parser: argparse.ArgumentParser, words: argparse.Namespace) -> None:
    """Refuses what does not go together. Ends the program with status 2."""
    if words.udp is not None and words.node is None:
        parser.error("--udp needs --node: nobody hands out numbers there")
    if words.router is not None and words.zone is None:
        parser.error("--router needs --zone: with a router, each node has a zone")


def looks_for_router(words: argparse.Namespace) -> bool:
    """Whether the node asks its cable where it is."""
    is_named = words.router is not None or words.net is not None
    return words.udp is None and not is_named and not words.no_place


def _join(words: argparse.Namespace) -> Tuple[int, Cable]:
    """The node's number and its cable. Raises CableFault."""
    if words.udp is not None:
        return words.node, UdpCable(words.udp, words.node, words.others)
    network = words.net or NETWORK
    return ltoudp.join(network, words.node, words.router, words.interface, words.server)


class Home:
    """What a command line says of a node on LocalTalk over UDP, as it is opened and opened anew."""

    def __init__(self, words: argparse.Namespace, number: int, cable: Cable) -> None:
        self.number, self.cable = number, cable
        self.zone: Optional[bytes] = None if words.zone is None else words.zone.encode(CHARSET)
        self._words = words

    def place(self) -> Place:
        """Where the node is: as the cable tells, if it is asked, or as the words have it. Raises
        CableFault."""
        words = self._words
        found = None
        if looks_for_router(words) and isinstance(self.cable, LtoudpCable):
            seconds = LONG_SEARCH if words.wait_router else SHORT_SEARCH
            found = find(self.cable, self.number, seconds, self.zone)
        zone = None if words.router is None else self.zone
        place = found or Place(words.net or NETWORK, words.router, zone)
        if isinstance(self.cable, LtoudpCable):
            self.cable.move(place.network, place.router)
        return place

    def open(self, place: Place) -> Node:
        """The node at a place. Raises Fault."""
        zone = None if place.zone is None else word_of_text(place.zone)
        setup = setup_of(place.network, self.number, zone, place.router, self._words.rooms)
        node = Node(setup, self.number)
        pass_numbers(node, self.number, random.randrange(PASSED))
        return node

    def furnish(self, station: Station, place: Place, tell: Tell) -> None:
        """Puts beside a node what it answers for its cable, and what it hears of it."""
        if not isinstance(self.cable, LtoudpCable):
            return
        routing = None
        if place.router == self.number and place.zone is not None:
            routing = Routing(Router(place.network, self.number), place.zone)
        beside = Beside(self.cable, self.number, routing)
        station.every(rtmp.EACH, beside.send_routes)
        if looks_for_router(self._words):
            Mover(station, self.cable, self, place, tell)


def _tell_nobody(sentence: str) -> None:
    pass


@contextlib.contextmanager
def station_of(
    words: argparse.Namespace, tell: Tell = _tell_nobody
) -> Iterator[Tuple[int, Station]]:
    """The node's number and its station, to the end of a block. `tell` takes the sentences that say
    where the node is, now and later. Raises Fault."""
    number, cable = _join(words)
    with contextlib.closing(cable):
        home = Home(words, number, cable)
        place = home.place()
        station = Station(home.open(place), cable, intervals={"resend": words.resend})
        try:
            home.furnish(station, place, tell)
            tell(place.of_node(number))
            yield number, station
        finally:
            station.close()
            station.node.close()
