#!/usr/bin/env python3
"""Counts the instructions of one event of each kind of schedule, by callgrind, and prints them as rows of a table.

    python3 bench/instructions.py [PROGRAM [OTHER]]

PROGRAM is the built `atnode`; without it, the one that `rt ci` or the script `atnode` leaves in crates/atnode/out. With
OTHER, another build of it, each row has the count of both, and the second in parts of the first. A count is that between
400 and 2,400 events, and does not depend on what else runs.
"""

from __future__ import annotations

import pathlib
import re
import subprocess
import sys
import tempfile
from collections.abc import Callable, Iterator

from schedules import KINDS, LARGE

FEW, MANY = 400, 2_400
TOP = pathlib.Path(__file__).resolve().parents[1]


def instructions(program: str, lines: list[str], room: pathlib.Path) -> int:
    """The instructions of one play of these lines."""
    schedule = room / "schedule"
    schedule.write_text("".join(f"{line}\n" for line in lines))
    command = ["valgrind", "--tool=callgrind", f"--callgrind-out-file={room}/out", program, "play", str(schedule)]
    ran = subprocess.run(command, stdout=subprocess.DEVNULL, stderr=subprocess.PIPE, text=True, check=True)
    counted = re.search(r"Collected : (\d+)", ran.stderr)
    if not counted:
        sys.exit(f"callgrind counted nothing:\n{ran.stderr}")
    return int(counted[1])


def is_event(line: str) -> bool:
    return line.split(" ")[0] in ("call", "deliver", "timer", "forge")


def first(lines: Iterator[str], count: int) -> list[str]:
    """The lines before the first events, and so many events. A schedule that is cut off is one too."""
    taken, events = [], 0
    for line in lines:
        events += is_event(line)
        if events > count:
            break
        taken.append(line)
    return taken


def of_one_event(program: str, make: Callable[[int], Iterator[str]]) -> int:
    spent = []
    for count in (FEW, MANY):
        with tempfile.TemporaryDirectory() as room:
            spent.append(instructions(program, first(make(LARGE), count), pathlib.Path(room)))
    return round((spent[1] - spent[0]) / (MANY - FEW))


def main() -> None:
    programs = sys.argv[1:] or [str(TOP / "crates/atnode/out/atnode")]
    for name, make in KINDS:
        counts = [of_one_event(program, make) for program in programs]
        row = [f"{it:,}" for it in counts] + [f"{it / counts[0]:.2f}" for it in counts[1:]]
        print(f"| {name} | {' | '.join(row)} |", flush=True)


if __name__ == "__main__":
    main()
