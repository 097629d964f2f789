#!/usr/bin/env python3
"""Plays eleven kinds of schedules at two sizes, and one schedule of many datagrams, and prints how fast they were
played and the memory that it took.

    python3 bench/measure.py [PROGRAM [OTHER]]

PROGRAM is the built `atnode`; without it, the one that `rt ci` or the script `atnode` leaves in crates/atnode/out. With
OTHER, another build of it, only the large schedules are played, by both in turn, and their seconds are compared. Each
schedule is played some times, of which the fastest counts. Beside each play stands a plain sum over the same bytes,
those of the schedule and of what was printed; of these too the fastest counts. A schedule that an older PROGRAM does not
know is passed over.
"""

import pathlib
import subprocess
import sys
import tempfile
import time

from schedules import KINDS, LARGE, SMALL, ends_of_messages

# How often each schedule is played, and its bytes are summed.
PLAYS = 5


def write_schedule(path, lines):
    with open(path, "w") as schedule:
        for line in lines:
            print(line, file=schedule)


# A process of its own starts the program, so that the peak is not that of this script before it.
STARTER = """
import os, sys
program, schedule, printed = sys.argv[1:]
child = os.fork()
if child == 0:
    os.dup2(os.open(printed, os.O_WRONLY | os.O_CREAT | os.O_TRUNC), 1)
    os.execv(program, [program, "play", schedule])
_, status, usage = os.wait4(child, 0)
print(usage.ru_utime + usage.ru_stime, usage.ru_maxrss * 1024, status)
"""


def play(program, schedule, printed):
    """Seconds of the processor, which other work on the machine changes little, and the peak of the memory in bytes, which
    a starting process of some 10 megabytes bounds from below."""
    said = subprocess.run(
        [sys.executable, "-c", STARTER, program, str(schedule), str(printed)], capture_output=True, check=True
    )
    seconds, peak, status = said.stdout.split()
    if int(status) != 0:
        sys.exit(f"{schedule}: the program ended with {int(status)}")
    return float(seconds), int(peak)


def count(printed):
    """The events that were played, the datagrams that were sent, and the bytes of these."""
    events = datagrams = size = 0
    with open(printed, "rb") as lines:
        for line in lines:
            if line.startswith(b"sent "):
                datagrams += 1
                size += len(line.split()[3]) // 2
            else:
                events += 1
    return events, datagrams, size


def plain_sum(schedule, printed):
    """Seconds of the processor that a sum over all bytes of these files takes."""
    bytes_ = schedule.read_bytes() + printed.read_bytes()
    begun = time.process_time()
    sum(bytes_)
    return time.process_time() - begun


class Measured:
    """A schedule, and what its plays took."""

    def __init__(self, schedule, lines):
        self.schedule, self.printed = schedule, schedule.with_suffix(".out")
        self.seconds, self.peaks, self.sums = [], [], []
        write_schedule(schedule, lines)

    def play(self, program):
        seconds, peak = play(program, self.schedule, self.printed)
        self.seconds.append(seconds)
        self.peaks.append(peak)
        self.sums.append(plain_sum(self.schedule, self.printed))

    def show(self, name):
        """Prints a row, and returns the seconds of an event."""
        events, datagrams, sent = count(self.printed)
        seconds, peak = min(self.seconds), max(self.peaks)
        bound = sent + 48 * datagrams + 20_000_000
        print(
            f"| {name} | {events:,} | {events / seconds:,.0f} | {seconds / min(self.sums):.2f} |"
            f" {peak / 1e6:.1f} | {bound / 1e6:.1f} |"
        )
        return seconds / events


def measure(program, folder, name, schedules):
    """Plays these schedules in turn, so that other work is beside each alike. Returns the seconds by event of each."""
    measured = [Measured(folder / f"{number}.txt", lines) for number, lines in enumerate(schedules)]
    for _ in range(PLAYS):
        for one in measured:
            one.play(program)
    return [one.show(name) for one in measured]


def knows(program, schedule):
    """Whether a program plays a schedule. An older one may not know its words."""
    command = [program, "play", str(schedule)]
    return subprocess.run(command, stdout=subprocess.DEVNULL, stderr=subprocess.DEVNULL).returncode == 0


def compare(program, other, folder, name, lines):
    """Plays a schedule by both programs in turn, and prints their seconds and the ratio."""
    one, two = (Measured(folder / f"{number}.txt", lines) for number in range(2))
    if not knows(program, one.schedule):
        print(f"| {name} | not known | | |", flush=True)
        return
    for _ in range(PLAYS):
        one.play(program)
        two.play(other)
    if one.printed.read_bytes() != two.printed.read_bytes():
        sys.exit(f"{name}: the two programs print other lines")
    first, second = min(one.seconds), min(two.seconds)
    print(f"| {name} | {first:.3f} | {second:.3f} | {second / first:.2f} |", flush=True)


def compare_all(program, other, folder):
    print("| Schedule | Seconds of the first | Of the second | Second by first |")
    print("|---|---|---|---|")
    for kind, lines in KINDS:
        compare(program, other, folder, kind, tuple(lines(LARGE)))
    compare(program, other, folder, "ends of messages, sent again", tuple(ends_of_messages()))


def main():
    here = pathlib.Path(__file__).resolve().parent.parent
    program = sys.argv[1] if len(sys.argv) > 1 else str(here / "crates/atnode/out/atnode")
    if len(sys.argv) > 2:
        with tempfile.TemporaryDirectory() as name:
            compare_all(program, sys.argv[2], pathlib.Path(name))
        return
    print("| Schedule | Events | Events a second | Times a plain sum | Peak, MB | Bound, MB |")
    print("|---|---|---|---|---|---|")
    with tempfile.TemporaryDirectory() as name:
        folder = pathlib.Path(name)
        for kind, lines in KINDS:
            small, large = measure(program, folder, kind, (lines(SMALL), lines(LARGE)))
            print(f"| {kind}, by event | | {large / small:.2f} of the smaller | | | |")
        measure(program, folder, "ends of messages, sent again", (ends_of_messages(),))


main()
