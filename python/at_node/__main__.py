"""The commands of `python3 -m at_node`: live, names, zones and chat."""

from __future__ import annotations

import argparse
import os
import signal
import sys
from typing import List, Optional

from . import commands
from .faults import Fault, Refused
from .joining import add_words, check_words, looks_for_router, station_of
from .live import Live, read_script
from .station import Station


def _parser() -> argparse.ArgumentParser:
    parser = argparse.ArgumentParser(prog="python3 -m at_node", description=__doc__)
    kinds = parser.add_subparsers(dest="command", required=True)
    live = kinds.add_parser("live", help="a node that takes calls from lines")
    live.add_argument("--script", metavar="FILE", help="plays these lines, and ends")
    live.add_argument("--all", action="store_true", help="prints each report")
    live.add_argument("--patience", metavar="SECONDS", type=float, default=60.0,
                      help="how long `until` waits; 60 if left out")
    names = kinds.add_parser("names", help="looks names up, and prints them")
    names.add_argument("pattern", nargs="?", default="=:=@*", metavar="OBJECT:TYPE@ZONE")
    names.add_argument("--seconds", type=float, default=2.0, help="how long; 2 if left out")
    zones = kinds.add_parser("zones", help="prints the router's zone list")
    zones.add_argument("--local", action="store_true", help="the zones of this cable alone")
    chat = kinds.add_parser("chat", help="talks by a stream, line by line")
    chat.add_argument("address", nargs="?", metavar="NODE[.SOCKET]",
                      help="whom to call; without it a call is waited for")
    chat.add_argument("--name", default="Chat", help="the name that is registered meanwhile")
    for each in (live, names, zones, chat):
        add_words(each)
    return parser


def _check(parser: argparse.ArgumentParser, words: argparse.Namespace) -> None:
    """Refuses what does not go together. Ends the program with status 2."""
    check_words(parser, words)
    if words.command == "zones" and words.router is None and not looks_for_router(words):
        parser.error("zones needs --router: a zone list is asked of a router")
    if words.command == "chat" and words.address is not None:
        try:
            commands.address_of(words.address)
        except ValueError:
            parser.error(f"{words.address} is no address: write NODE or NODE.SOCKET, as in 7.130")


def _tell(sentence: str) -> None:
    print(f"at_node: {sentence}", file=sys.stderr, flush=True)


def _live(station: Station, words: argparse.Namespace) -> bool:
    live = Live(station, sys.stdout, sys.stderr, words.all, words.patience)
    if words.script is None:
        live.feed_from(sys.stdin.fileno())
    else:
        live.feed(read_script(words.script))
        live.end()
    return live.run()


def _chat(station: Station, words: argparse.Namespace) -> bool:
    chat = commands.Chat(station, sys.stdout, sys.stderr)
    if words.address is None:
        chat.listen(words.name)
    else:
        chat.connect(*commands.address_of(words.address))
    return chat.run(sys.stdin.fileno())


def _names(station: Station, words: argparse.Namespace) -> bool:
    found = commands.names(station, words.pattern, words.seconds, sys.stdout)
    if not found:
        _tell("no such name answered")
    return found


def _zones(station: Station, words: argparse.Namespace) -> bool:
    try:
        came = commands.zones(station, words.local, sys.stdout)
    except Refused:
        _tell("no router answered, so there is no zone list; --router names one")
        return False
    if not came:
        _tell("the router gave no zone list; is it there?")
    return came


COMMANDS = {"live": _live, "names": _names, "zones": _zones, "chat": _chat}


def _run(words: argparse.Namespace) -> bool:
    """Joins the cable, runs the command, and leaves. Raises Fault or OSError."""
    if words.command not in ("live", "chat"):
        with station_of(words) as (_, station):
            return COMMANDS[words.command](station, words)
    with station_of(words, _tell) as (_, station):
        counts = station.cable.counts
        signal.signal(signal.SIGUSR1, lambda *_: _tell(counts.line()))
        try:
            return COMMANDS[words.command](station, words)
        finally:
            _tell(counts.line())


def main(arguments: Optional[List[str]] = None) -> int:
    """Runs a command line. The status is 0, 1 if it failed, or 2 for another command line."""
    parser = _parser()
    words = parser.parse_args(arguments)
    _check(parser, words)
    signal.signal(signal.SIGTERM, lambda *_: sys.exit(143))
    try:
        return 0 if _run(words) else 1
    except BrokenPipeError:
        # Nobody reads any more, so Python is not to write at its end either.
        os.dup2(os.open(os.devnull, os.O_WRONLY), sys.stdout.fileno())
        return 1
    except (Fault, OSError) as error:
        _tell(str(error.args[-1]) if isinstance(error, Fault) else str(error))
        return 1
    except KeyboardInterrupt:
        return 130


if __name__ == "__main__":
    sys.exit(main())
