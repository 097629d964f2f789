#!/usr/bin/env python3
"""Takes part in a cable of `atnode udp`: looks the streams of a node up, and prints the answer.

    look_up.py FIRST NODE

Node n is at port FIRST + n on 127.0.0.1. This program is node 9, which the schedule of `atnode udp` must not have.
"""

import socket
import struct
import sys

NET, OWN, OWN_SOCKET, NAMES = 10, 9, 130, 2
LOOK_UP, REPLY, ID = 0x21, 3, 77


def part(text):
    """A text with its length before it."""
    return bytes([len(text)]) + text


def datagram(node):
    """A lookup of every object of type Stream; 0 stands for no checksum."""
    tuple_ = struct.pack(">HBBB", NET, OWN, OWN_SOCKET, 0) + part(b"=") + part(b"Stream") + part(b"*")
    data = bytes([LOOK_UP, ID]) + tuple_
    header = struct.pack(">HHHHBBBBB", 13 + len(data), 0, NET, NET, node, OWN, NAMES, OWN_SOCKET, 2)
    return header + data


def names_in(reply):
    """The names of a reply, each with its address; a payload that is no reply to the lookup has none."""
    if len(reply) < 15 or reply[12] != 2 or reply[13] >> 4 != REPLY or reply[14] != ID:
        return
    at = 15
    for _ in range(reply[13] & 15):
        net, node, socket_, _enumerator = struct.unpack_from(">HBBB", reply, at)
        at += 5
        texts = []
        for _ in range(3):
            texts.append(reply[at + 1:at + 1 + reply[at]].decode())
            at += 1 + reply[at]
        yield "{}:{}@{} at {}.{}.{}".format(*texts, net, node, socket_)


first, node = int(sys.argv[1]), int(sys.argv[2])
own = socket.socket(socket.AF_INET, socket.SOCK_DGRAM)
own.bind(("127.0.0.1", first + OWN))
own.settimeout(0.2)
# A datagram may be lost, and the node may not be there yet. So the lookup is sent until its answer comes.
for _ in range(100):
    own.sendto(datagram(node), ("127.0.0.1", first + node))
    try:
        names = list(names_in(own.recv(600)))
    except TimeoutError:
        continue
    if names:
        print("\n".join(names))
        sys.exit(0)
sys.exit("look_up.py: no answer came")
