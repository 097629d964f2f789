#!/usr/bin/env python3
"""Runs the gate, and tells where its processor time goes: a table of crates by proofs, tests, edits and groups.

    bench/gate.py [--table FILE] [COMMAND ..]

It runs `rt ci`, or the command that is given, and looks four times a second at the prover's processes below it. What
such a process does in its last quarter of a second is not counted. What the command prints is printed as it comes. The
status is the command's. The table is written to FILE too: bench/gate.txt is such a one, of which `gate/changed` makes its
forecast. Groups are those of `gate/wrong`.
"""

import collections
import os
import pathlib
import subprocess
import sys
import time

PERIOD = 0.25
TICKS = os.sysconf("SC_CLK_TCK")


def arguments_of(pid):
    with open(f"/proc/{pid}/cmdline", "rb") as file:
        return file.read().decode(errors="replace").split("\0")


def numbers_of(pid):
    """What the system tells of a process, from its state on."""
    with open(f"/proc/{pid}/stat") as file:
        return file.read().rpartition(")")[2].split()


def seconds_of(pid):
    """The processor seconds of a process and of its ended children."""
    return sum(int(it) for it in numbers_of(pid)[11:15]) / TICKS


def is_below(pid, command):
    """Whether the command began this process, or one that began it."""
    while pid not in (command, 0):
        pid = int(numbers_of(pid)[1])
    return pid == command


def kind_of(words):
    """What a process of the prover is for: that of a wrong body runs over kept work, whose folder's name tells it."""
    kept = next((words[at + 1] for at, it in enumerate(words[:-1]) if it == "--incremental"), "")
    if "rt-edits-" in kept:
        return "seeds" if kept.endswith("/seed") else "edits"
    if "/wrong-" in kept:
        return "groups"
    return "tests" if "--test" in words else "proofs"


def looked_at(found, command):
    """Notes the time of each process of the prover that runs now, below this command."""
    for pid in filter(str.isdigit, os.listdir("/proc")):
        try:
            words = arguments_of(pid)
            if words[0].endswith("/rattle") and "--crate-name" in words and is_below(int(pid), command):
                crate = words[words.index("--crate-name") + 1]
                found[pid, crate, kind_of(words)] = seconds_of(pid)
        except (OSError, IndexError, ValueError):
            pass


def told(found, clock):
    """The lines of the table."""
    kinds = ("proofs", "tests", "seeds", "edits", "groups")
    crates = collections.defaultdict(lambda: dict.fromkeys(kinds, 0))
    count = collections.Counter(crate for _, crate, kind in found if kind == "edits")
    for (_, crate, kind), seconds in found.items():
        crates[crate][kind] += seconds
    yield f"{'processor seconds':20}" + "".join(f"{it:>9}" for it in (*kinds, "all", "an edit"))
    for crate, by in sorted(crates.items(), key=lambda it: -sum(it[1].values())):
        one = by["edits"] / count[crate] if count[crate] else 0
        yield f"{crate:20}" + "".join(f"{it:9.0f}" for it in (*by.values(), sum(by.values()), one))
    sums = [sum(by[it] for by in crates.values()) / 60 for it in kinds]
    yield f"{'processor minutes':20}" + "".join(f"{it:9.1f}" for it in (*sums, sum(sums)))
    yield f"{'minutes of the clock':20}{clock / 60:9.1f}"


def main():
    words, table = sys.argv[1:], None
    if words[:1] == ["--table"]:
        table, words = pathlib.Path(words[1]), words[2:]
    found, begun = {}, time.monotonic()
    command = subprocess.Popen(words or ["rt", "ci"], stdin=subprocess.DEVNULL)
    while command.poll() is None:
        looked_at(found, command.pid)
        time.sleep(PERIOD)
    lines = [*told(found, time.monotonic() - begun)]
    print(*lines, sep="\n")
    if table:
        table.write_text("".join(f"{it}\n" for it in lines))
    return command.returncode


if __name__ == "__main__":
    sys.exit(main())
