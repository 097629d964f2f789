#!/usr/bin/env python3
"""Measures how many datagrams a second two nodes exchange over UDP: `python3 bench/udp.py ATNODE`.

ATNODE is the program that the crate `atnode` builds. A node asks its router for the zone list, over and over, and each
of them polls once for what the other sent. `nodes.c`, over the library for C, has the nodes, their sockets and no more.
`atnode udp` reads each step as a line of text too, and prints what came of it. Beside them a loop in C sends and
receives payloads of the same sizes between two such sockets, in one process and with nothing around it. All three run
in turn, over and over, each for a short time and on the same processor, since those of a machine that others use too
differ. The fastest turn of each counts. Beside it stands what part of the loop a program did in the middle turn. `cc`
has to be there, and the library, which `./atnode lib` builds if it is not.
"""

import os
import pathlib
import statistics
import subprocess
import sys
import tempfile
import time

ROUNDS = 25_000
TURNS = 25
TOP = pathlib.Path(__file__).resolve().parent.parent
FIRST = 47_200
SCHEDULE = f"net 10\nport {FIRST}\nnode 1 router zone Lab\nnode 5 zone Lab\nzones Lab Office\n"
ROUND = "call 5 zones\npoll 1\npoll 5\n"
# The sizes of the request and of its answer.
BARE = """
#include <arpa/inet.h>
#include <stdlib.h>
#include <string.h>
#include <sys/socket.h>
#include <unistd.h>

static int bound(int port, struct sockaddr_in *at) {
    int s = socket(AF_INET, SOCK_DGRAM, 0);
    memset(at, 0, sizeof *at);
    at->sin_family = AF_INET;
    at->sin_port = htons(port);
    at->sin_addr.s_addr = htonl(INADDR_LOOPBACK);
    if (s < 0 || bind(s, (struct sockaddr *)at, sizeof *at) != 0) exit(1);
    return s;
}

int main(int count, char **words) {
    struct sockaddr_in one_at, two_at;
    char bytes[600] = {0};
    int rounds = count > 2 ? atoi(words[1]) : 0;
    int one = bound(atoi(words[2]) + 1, &one_at), two = bound(atoi(words[2]) + 5, &two_at);
    for (int i = 0; i < rounds; i++) {
        if (sendto(two, bytes, 21, 0, (struct sockaddr *)&one_at, sizeof one_at) != 21) return 1;
        if (recv(one, bytes, 600, MSG_DONTWAIT) != 21) return 1;
        if (sendto(one, bytes, 32, 0, (struct sockaddr *)&two_at, sizeof two_at) != 32) return 1;
        if (recv(two, bytes, 600, MSG_DONTWAIT) != 32) return 1;
    }
    return 0;
}
"""


def printed_by(command):
    """What a command prints, which has to succeed."""
    return subprocess.run(command, check=True, stdin=subprocess.DEVNULL, capture_output=True, text=True).stdout


def build_nodes(program):
    """Builds the nodes over the library for C, whose files the script `atnode` names."""
    header, *libraries = printed_by([TOP / "atnode", "lib"]).split()
    include = pathlib.Path(header).parent
    command = ["cc", "-std=c99", "-O2", "-I", include, "-o", program, TOP / "bench" / "nodes.c", *libraries]
    subprocess.run(command, check=True)


def seconds_of(command):
    """How long a command takes, which has to succeed."""
    begun = time.perf_counter()
    subprocess.run(command, check=True, stdin=subprocess.DEVNULL, stdout=subprocess.DEVNULL)
    return time.perf_counter() - begun


with tempfile.TemporaryDirectory() as name:
    (atnode,) = sys.argv[1:]
    folder = pathlib.Path(name)
    bare, nodes, source, schedule = (folder / it for it in ("bare", "nodes", "bare.c", "schedule.txt"))
    source.write_text(BARE)
    subprocess.run(["cc", "-O2", "-o", bare, source], check=True)
    build_nodes(nodes)
    os.sched_setaffinity(0, {min(os.sched_getaffinity(0))})
    schedule.write_text(SCHEDULE + ROUND * ROUNDS)
    kinds = {
        "bare sockets": [bare, str(ROUNDS), str(FIRST)],
        "the nodes alone": [nodes, "udp", str(FIRST), str(ROUNDS)],
        "atnode udp": [atnode, "udp", schedule],
    }
    exchanged, played = printed_by(kinds["the nodes alone"]), printed_by(kinds["atnode udp"])
    idle = played.count(" idle\n")
    print(f"the nodes alone: {exchanged.strip()}")
    print(f"atnode udp: idle {idle}")
    runs = [[seconds_of(command) for command in kinds.values()] for _ in range(TURNS)]
    bests = [min(seconds) for seconds in zip(*runs)]
for kind, best, seconds in zip(kinds, bests, zip(*runs)):
    middle = statistics.median(bare / taken for (bare, *_), taken in zip(runs, seconds))
    rate, part = ROUNDS * 2 / best, bests[0] / best
    print(f"{kind}: {rate:,.0f} datagrams a second, {part:.2f} of the bare sockets, {middle:.2f} in the middle turn")
