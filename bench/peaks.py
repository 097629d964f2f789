#!/usr/bin/env python3
"""Measures how much memory drives of more and more polls need: `python3 bench/peaks.py ATNODE`.

ATNODE is the program that the crate `atnode` builds. A node polls over and over, and nothing waits for it. The last
drive is of a file of 64 megabytes, most of which are comments. The figure is the least limit of writable memory
(`prlimit --data`, in pages of 4 kB) under which a drive ends well. So it is the same in each run, whatever else the
machine does. The status is 1 if two figures differ by more than 5 in 100.
"""

import os
import pathlib
import subprocess
import sys
import tempfile

PAGE = 4096
MOST_APART = 1.05
SETUP = "net 10\nport 47300\nnode 5\n"
POLL = "poll 5\n"
COMMENTED = "# " + "-" * 74 + "\n" + POLL
SCHEDULES = {
    "2,000 polls": SETUP + POLL * 2_000,
    "20,000 polls": SETUP + POLL * 20_000,
    "2,000,000 polls": SETUP + POLL * 2_000_000,
    "780,000 polls and comments, 64 MB": SETUP + COMMENTED * 780_000,
}


def is_enough(program: str, file: pathlib.Path, pages: int) -> bool:
    """Whether a drive ends well with so many pages."""
    words = ["prlimit", f"--data={pages * PAGE}", "--", os.path.abspath(program), "udp", str(file)]
    away = subprocess.DEVNULL
    return subprocess.run(words, stdout=away, stderr=away, check=False).returncode == 0


def least_of(program: str, file: pathlib.Path, guess: int) -> int:
    """The least number of pages that is enough, which is looked for from a guess on."""
    enough = guess
    while not is_enough(program, file, enough):
        enough *= 2
    lacking = enough // 2 if enough > guess else guess - 1
    while lacking > 0 and is_enough(program, file, lacking):
        enough, lacking = lacking, lacking // 2
    while enough - lacking > 1:
        middle = (enough + lacking) // 2
        if is_enough(program, file, middle):
            enough = middle
        else:
            lacking = middle
    return enough


def main() -> int:
    """Measures, and gives the status."""
    if len(sys.argv) != 2:
        sys.exit(f"usage: {sys.argv[0]} ATNODE")
    needs = [16]
    with tempfile.TemporaryDirectory() as folder:
        file = pathlib.Path(folder) / "schedule"
        for name, schedule in SCHEDULES.items():
            file.write_text(schedule)
            needs.append(least_of(sys.argv[1], file, needs[-1]))
            print(f"{name}: {needs[-1] * PAGE // 1024} kB")
    return int(max(needs[1:]) > min(needs[1:]) * MOST_APART)


if __name__ == "__main__":
    sys.exit(main())
