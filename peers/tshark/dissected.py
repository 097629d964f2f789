"""What tshark reads of a capture, and what tcpdump prints of it.

Neither reads LocalTalk over UDP. So tshark reads UDP, and what it finds behind the identifier of
the sender it reads once more, as LocalTalk.
"""

import re
import subprocess
from pathlib import Path
from typing import Dict, List, NamedTuple, Optional, Tuple

import frames
import shown
from shown import Fields, Reading, Unread, billionths

SECONDS = 120
# Packets of ATP and fragments of IP are read one by one, not joined, and a length of 0 is 0.
CHOICES = "atp.desegment:FALSE", "ip.defragment:FALSE", "ip.tso_support:FALSE"
TSHARK = "tshark", "-n", *(word for it in CHOICES for word in ("-o", it))
NUMBERS = tuple(dict.fromkeys((
    *shown.NODE_FIELDS, *shown.LONG_FIELDS, *shown.NBP_FIELDS, *shown.ADDRESS_FIELDS,
    *shown.REQUEST_FIELDS, *shown.RESPONSE_FIELDS, "atp.treltimer", *shown.ASKED_FIELDS,
    *shown.ANSWERED_FIELDS, "zip.function",
)))
TEXTS = (
    *shown.STATION_FIELDS, shown.COOKED_FIELD, *shown.NAME_FIELDS, "zip.zone_name",
    *shown.DATA_FIELD,
)
# What is no field of ours, but tells how tshark came to its reading.
WAYS = (
    "sll.ltype", "ip.hdr_len", "ip.len", "ip.flags.mf", "ip.frag_offset", "udp.dstport",
    "udp.length",
)
ALWAYS = "frame.number", "frame.time_epoch", "frame.protocols", "_ws.malformed", "udp.payload"
IDENTIFIER_LEN, UDP_HEADER_LEN = 4, 8
# The first line of a frame, by tcpdump. Its further lines have no time, nor has an empty frame.
STAMPED = re.compile(r"(?m)^(?:(\d+\.\d{6}) (.*)|\[Invalid header: caplen==0\])$")
TRUTHS = {"True": 1, "False": 0}


def run(command: List[str]) -> str:
    """What a command prints, which has to succeed."""
    done = subprocess.run(command, stdin=subprocess.DEVNULL, capture_output=True, timeout=SECONDS)
    if done.returncode:
        raise Unread(f"{' '.join(command)}: status {done.returncode}: {done.stderr!r}")
    return done.stdout.decode()


def dissected(path: Path) -> List[Reading]:
    """What tshark reads of a capture, also of LocalTalk over UDP."""
    readings, payloads = once_dissected(path)
    carriers = [at for at, it in enumerate(readings) if is_ltoudp(it.fields)]
    carried = []
    for at in carriers:
        data = payloads[at][IDENTIFIER_LEN : readings[at].fields["udp.length"][0] - UDP_HEADER_LEN]
        carried.append(frames.Frame(data, len(data)))
    llap = path.with_suffix(".llap")
    llap.write_bytes(frames.capture(frames.KINDS["localtalk"], carried, 0))
    for at, inner in zip(carriers, once_dissected(llap)[0]):
        fields = {**readings[at].fields, **inner.fields}
        outer = readings[at].carrier
        readings[at] = Reading(*readings[at][:2], f"{outer}:{inner.carrier}", inner.refused, fields)
    return readings


def is_ltoudp(fields: Fields) -> bool:
    """Whether this is a whole datagram of IP that has one of LocalTalk over UDP. tshark reads UDP
    in the first fragment too, and goes on to the end of IP's datagram."""
    if fields.get("udp.dstport") != (frames.LTOUDP_PORT,) or "udp.length" not in fields:
        return False
    most = fields["ip.len"][0] - fields["ip.hdr_len"][0]
    is_whole = not fields["ip.flags.mf"][0] and not fields["ip.frag_offset"][0]
    return is_whole and UDP_HEADER_LEN + IDENTIFIER_LEN <= fields["udp.length"][0] <= most


def once_dissected(path: Path) -> Tuple[List[Reading], List[bytes]]:
    """What tshark reads of a capture by itself, and the payload of UDP in each frame."""
    names = *ALWAYS, *NUMBERS, *WAYS, *TEXTS
    words = [word for name in names for word in ("-e", name)]
    *lines, _ = run([*TSHARK, "-r", str(path), "-T", "fields", *words]).split("\n")
    values = [dict(zip(names, line.split("\t"))) for line in lines]
    payloads = [it["udp.payload"] for it in values]
    return [reading(it) for it in values], [bytes.fromhex(it) for it in payloads]


def reading(values: Dict[str, str]) -> Reading:
    """What a line of tshark says. Several values of a field stand with commas between them."""
    fields: Fields = {}
    for name in (*NUMBERS, *WAYS):
        if values[name]:
            fields[name] = tuple(map(number, values[name].split(",")))
    for name in TEXTS:
        if values[name]:
            fields[name] = tuple(values[name].split(","))
    when, malformed = billionths(values["frame.time_epoch"]), bool(values["_ws.malformed"])
    return Reading(int(values["frame.number"]), when, values["frame.protocols"], malformed, fields)


def number(text: str) -> int:
    """A number, as tshark writes it."""
    return TRUTHS[text] if text in TRUTHS else int(text, 0)


class Line(NamedTuple):
    """A line of tcpdump: the time in millionths of a second, and the rest."""

    time: int
    text: str


def lines_of_tcpdump(path: Path) -> List[Optional[Line]]:
    """What tcpdump prints of each frame. Of a frame without a byte that is no line."""
    printed = run(["tcpdump", "-nttr", str(path)])
    found = STAMPED.findall(printed)
    return [Line((billionths(time) or 0) // 1000, text) if time else None for time, text in found]
