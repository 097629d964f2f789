#!/usr/bin/env python3
"""Measures how fast captures are shown, and in how much memory: `python3 bench/captures.py ATNODE`.

ATNODE is the program that the crate `atnode` builds. A capture of 200,000 frames is read by `atnode capture FILE`, by
`tcpdump -nr FILE` and by `tshark -n -r FILE`, each of which prints to a device that keeps nothing, as classic pcap and
as pcapng. They take turns, and the fastest turn of each counts. Beside it stands what part of tcpdump's time it is, in
the fastest and in the middle turn. A program that is not installed is passed over. Then the peak of the memory of
`atnode capture` is read from the system (VmHWM), when all of 2,000, 20,000, 200,000 and 2,000,000 frames were read. The
frames are EtherTalk: requests for zones, their answers, lookups and replies. In two forms all have the same numbers. In
the third, classic pcap too, each request and each lookup has numbers of its own, so that each is kept. The status is 1
if the peaks of one of the first two forms differ by more than 20 in 100.
"""

import fcntl
import os
import pathlib
import re
import shutil
import statistics
import struct
import subprocess
import sys
import tempfile
import termios
import time

FRAMES, TURNS = 200_000, 7
SIZES = 2_000, 20_000, 200_000, 2_000_000
MOST_APART = 1.2
# How long the program gets to print what it has read.
PAUSE = 0.2
PEAK = re.compile(r"(?m)^VmHWM:\s+(\d+) kB$")
ETHERNET, SNAP = 1, bytes.fromhex("AAAA03080007809B")
ENHANCED = 6
# Node 5 of network 10 asks router 1 for its zones and for printers, and gets both.
ZONES_ASKED = bytes.fromhex("00156711000A000A01050680034001000008000001")
ZONES_TOLD = bytes.fromhex("0020CA71000A000A05018006039000000001000002034C6162064F6666696365")
LOOKED_UP = bytes.fromhex("1107000A05FE00") + b"\x01=\x0bLaserWriter\x01*"
FOUND = bytes.fromhex("3107000A018200") + b"\x0bLab Printer\x0bLaserWriter\x01*"
NAMES, TRANSACTIONS = 2, 3
# A process of its own starts the program and takes the time, since this script is large.
STARTER = """
import os, sys, time
begun = time.perf_counter()
child = os.fork()
if child == 0:
    away = os.open(os.devnull, os.O_RDWR)
    for one in range(3):
        os.dup2(away, one)
    os.execvp(sys.argv[1], sys.argv[1:])
_, status, usage = os.wait4(child, 0)
print(time.perf_counter() - begun, usage.ru_utime + usage.ru_stime, status)
"""


def named(to, source, to_socket, source_socket, packet, kind=NAMES):
    """A datagram of NBP in network 10, or of another type, without a checksum."""
    body = struct.pack(">HHBBBBB", 10, 10, to, source, to_socket, source_socket, kind) + packet
    return struct.pack(">HH", 4 + len(body), 0) + body


DATAGRAMS = (
    ZONES_ASKED,
    ZONES_TOLD,
    named(1, 5, 2, 254, LOOKED_UP),
    named(5, 1, 254, 2, FOUND),
)


def frame(datagram):
    """A frame of EtherTalk, with the zeros that Ethernet wants."""
    to, source = datagram[8], datagram[9]
    stations = bytes([2, 0, 0, 0, 0, to, 2, 0, 0, 0, 0, source])
    return (stations + struct.pack(">H", 8 + len(datagram)) + SNAP + datagram).ljust(60, b"\0")


def classic(count):
    """A classic capture of so many frames, piece by piece: one frame in each millisecond."""
    yield struct.pack("<IHHIIII", 0xA1B2C3D4, 2, 4, 0, 0, 65_535, ETHERNET)
    frames = [frame(it) for it in DATAGRAMS]
    for at in range(count):
        one = frames[at % len(frames)]
        yield struct.pack("<IIII", 10**9 + at // 1000, at % 1000 * 1000, len(one), len(one)) + one


def exchange(number):
    """The same datagrams, each with this number: in ATP its lower part, and the rest in node and socket."""
    node, socket = 5 + number // 65_536, number % 250
    tid, lookup = struct.pack(">H", number % 65_536), number // 250 % 256
    question = struct.pack(">BBHBB", LOOKED_UP[0], lookup, 10, node, socket) + LOOKED_UP[6:]
    return (
        named(1, node, 6, 128, ZONES_ASKED[13:15] + tid + ZONES_ASKED[17:], TRANSACTIONS),
        named(node, 1, 128, 6, ZONES_TOLD[13:15] + tid + ZONES_TOLD[17:], TRANSACTIONS),
        named(1, node, 2, socket, question),
        named(node, 1, socket, 2, bytes([FOUND[0], lookup]) + FOUND[2:]),
    )


def asked(count):
    """A classic capture of so many frames, of exchanges that have numbers of their own."""
    yield struct.pack("<IHHIIII", 0xA1B2C3D4, 2, 4, 0, 0, 65_535, ETHERNET)
    for at in range(0, count, len(DATAGRAMS)):
        for place, datagram in enumerate(exchange(at // len(DATAGRAMS)), at):
            one = frame(datagram)
            yield struct.pack("<IIII", 10**9 + place // 1000, place % 1000 * 1000, len(one), len(one)) + one


def block(kind, body):
    """A block of pcapng."""
    body = body + bytes(-len(body) % 4)
    total = struct.pack("<I", 12 + len(body))
    return struct.pack("<I", kind) + total + body + total


def pcapng(count):
    """The same frames in pcapng, by one interface."""
    yield block(0x0A0D0D0A, struct.pack("<IHHq", 0x1A2B3C4D, 1, 0, -1))
    yield block(1, struct.pack("<HHI", ETHERNET, 0, 65_535))
    frames = [frame(it) for it in DATAGRAMS]
    for at in range(count):
        one, ticks = frames[at % len(frames)], 10**15 + at * 1000
        head = struct.pack("<IIIII", 0, ticks >> 32, ticks % 2**32, len(one), len(one))
        yield block(ENHANCED, head + one)


FORMS = {"pcap": classic, "pcapng": pcapng, "asked": asked}
FLAT = "pcap", "pcapng"


def written(folder, form, count):
    """The path of a capture of so many frames, which is written in this form."""
    path = folder / f"{count}.{form}"
    with open(path, "wb") as capture:
        capture.writelines(FORMS[form](count))
    return path


def seconds_of(command):
    """Seconds of the clock, and of the processor, that a command takes, which has to succeed."""
    said = subprocess.run([sys.executable, "-c", STARTER, *command], capture_output=True, check=True, text=True)
    clock, processor, status = said.stdout.split()
    if int(status):
        sys.exit(f"{' '.join(command)}: status {status}")
    return float(clock), float(processor)


def measure_time(atnode, path):
    """Reads a capture by each program in turn, and prints a row of each."""
    commands = {
        "`atnode capture`": [atnode, "capture", str(path)],
        "`tcpdump -nr`": ["tcpdump", "-nr", str(path)],
        "`tshark -n -r`": ["tshark", "-n", "-r", str(path)],
    }
    commands = {name: it for name, it in commands.items() if shutil.which(it[0])}
    turns = [{name: seconds_of(it) for name, it in commands.items()} for _ in range(TURNS)]
    best = {name: min(turn[name] for turn in turns) for name in commands}
    base = "`tcpdump -nr`" if "`tcpdump -nr`" in commands else "`atnode capture`"
    for name, (clock, _) in best.items():
        processor = min(turn[name][1] for turn in turns)
        middle = statistics.median(turn[name][0] / turn[base][0] for turn in turns)
        part = clock / best[base][0]
        print(f"| {name} | {path.suffix[1:]} | {clock:.3f} | {processor:.3f} | {part:.2f} | {middle:.2f} |", flush=True)


def waiting_in(pipe):
    """How many bytes wait in a pipe."""
    room = fcntl.ioctl(pipe, termios.FIONREAD, bytes(4))
    return struct.unpack("i", room)[0]


def peak_of(atnode, pieces):
    """The peak of the memory of `atnode capture` in kB, when it has read all of a capture that does not end yet."""
    away = subprocess.DEVNULL
    command = [atnode, "capture", "/dev/stdin"]
    with subprocess.Popen(command, stdin=subprocess.PIPE, stdout=away, stderr=away) as child:
        child.stdin.writelines(pieces)
        child.stdin.flush()
        while waiting_in(child.stdin):
            time.sleep(PAUSE)
        time.sleep(PAUSE)
        peak = int(PEAK.search(pathlib.Path(f"/proc/{child.pid}/status").read_text())[1])
        child.stdin.close()
        if child.wait():
            sys.exit(f"{' '.join(command)}: status {child.returncode}")
    return peak


def main():
    if len(sys.argv) != 2 or not os.access(sys.argv[1], os.X_OK):
        sys.exit(f"usage: {sys.argv[0]} ATNODE")
    atnode = os.path.abspath(sys.argv[1])
    print("| What reads 200,000 frames | Form | Seconds | Of the processor | Of tcpdump's | In the middle turn |")
    print("|---|---|---|---|---|---|")
    with tempfile.TemporaryDirectory() as name:
        for form in FORMS:
            measure_time(atnode, written(pathlib.Path(name), form, FRAMES))
    print()
    print("| Form |", *(f"{size:,} frames, kB |" for size in SIZES))
    print("|---|" + "---|" * len(SIZES))
    is_flat = True
    for form, pieces in FORMS.items():
        peaks = [peak_of(atnode, pieces(size)) for size in SIZES]
        is_flat &= form not in FLAT or max(peaks) <= min(peaks) * MOST_APART
        print(f"| {form} |", *(f"{it:,} |" for it in peaks), flush=True)
    return int(not is_flat)


if __name__ == "__main__":
    sys.exit(main())
