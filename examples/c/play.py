"""Plays a schedule by nodes in Python, and prints what `atnode play` prints of it. The library is made shared for it,
with KIT the folder of the toolchain, after ./atnode lib:

    gcc -shared -o libat_node.so -Wl,--whole-archive crates/at_c/out/libat_c.a -Wl,--no-whole-archive KIT/c/liblibc_c.a
    python3 examples/c/play.py ./libat_node.so examples/session.txt
"""
import ctypes
import sys

LIBRARY = ctypes.CDLL(sys.argv[1])
OK, MISSING = 0, 6
LINES = [line.split() for line in open(sys.argv[2]) if line.strip() and line[0] != "#"]
SETUP = "".join(" ".join(words) + "\n" for words in LINES if words[0] in ("net", "node", "zones", "local")).encode()
EVENTS = [words for words in LINES if words[0] in ("call", "timer", "deliver", "forge")]
nodes = {int(words[1]): ctypes.c_void_p() for words in LINES if words[0] == "node"}
room, length, to = ctypes.create_string_buffer(1 << 20), ctypes.c_size_t(), ctypes.c_uint8()
sent = []


def ask(name, number, *words, wanted=(OK,)):
    """Calls a function of the library. Bytes are passed as a pointer and their length."""
    passed = []
    for word in words:
        passed += [word, ctypes.c_size_t(len(word))] if isinstance(word, bytes) else [word]
    status = getattr(LIBRARY, "at_node_" + name)(ctypes.byref(nodes[number]), *passed)
    assert status in wanted, f"at_node_{name} of node {number}: status {status}"
    return status


for number in nodes:
    ask("open", number, SETUP, ctypes.c_uint8(number))
for event, (kind, *words) in enumerate(EVENTS):
    number = int(words.pop(1 if kind == "deliver" else 0))
    if kind in ("call", "timer"):
        ask("play", number, " ".join([kind, *words]).encode())
    else:
        ask("receive", number, sent[int(words[0])] if kind == "deliver" else bytes.fromhex(words[0].strip("-")))
    given = room, ctypes.c_size_t(len(room)), ctypes.byref(length)
    ask("report", number, ctypes.c_uint32(event), *given)
    print(ctypes.string_at(room, length.value).decode(), end="")
    while ask("next_datagram", number, ctypes.byref(to), *given, wanted=(OK, MISSING)) == OK:
        datagram = ctypes.string_at(room, length.value)
        print("sent", len(sent), to.value, datagram.hex().upper())
        sent.append(datagram)
for node in nodes.values():
    LIBRARY.at_node_close(ctypes.byref(node))
