"""What `atnode capture` prints of a capture, in the names that tshark has for its fields.

A reading of a frame has, for each field, its values in the order in which the frame has them: as
numbers, or as text where they are no numbers.
"""

import re
from typing import Callable, Dict, Iterable, List, NamedTuple, Optional, Pattern, Sequence, Tuple
from typing import Union
from urllib.parse import unquote_to_bytes

Value = Union[int, str]
Fields = Dict[str, Tuple[Value, ...]]
FRAME = re.compile(
    r"frame (\d+) (-|\d+(?:\.\d+)?) (?:other (aarp|llap|ip|link|cut|foreign)"
    r"|(ethertalk|phase1|localtalk|ltoudp) (\S+) (\S+))"
)
LONG = re.compile(
    r"ddp length (\d+) hops (\d+) sum (none|[0-9A-F]{4}) from (\d+)\.(\d+)\.(\d+)"
    r" to (\d+)\.(\d+)\.(\d+) type (\d+) rest \d+"
)
SHORT = re.compile(r"ddp short length (\d+) from (\d+)\.(\d+) to (\d+)\.(\d+) type (\d+) rest \d+")
NAMES = re.compile(r"nbp (brrq|lkup|reply|fwdreq) id (\d+) count (\d+)")
TUPLE = re.compile(r"tuple (\S+):(\S+)@(\S+) (\d+)\.(\d+)\.(\d+) enumerator (\d+)")
REQUEST = re.compile(
    r"atp request mask ([0-9A-F]{2}) xo ([01]) timer (\d) id (\d+) user ([0-9A-F]{8}) data (\S+)"
)
RESPONSE = re.compile(
    r"atp response place (\d) eom ([01]) sts ([01]) id (\d+) user ([0-9A-F]{8}) data (\S+)"
)
RELEASE = re.compile(r"atp release id (\d+)")
RAW = re.compile(r"raw (-|[0-9A-F]+)")
# The line of a packet of a protocol that is not compared. tshark reads nothing of ADSP.
UNREAD = re.compile(
    r"(?!(?:answers|atp|ddp|fault|frames?|nbp|raw|refused|stopped|tuple)\b)[a-z]+ .+"
)
REFUSED = re.compile(r"refused (\d+)")
ANSWERS = re.compile(r"answers frame (\d+)")
END = re.compile(r"frames (\d+) datagrams (\d+) refused (\d+) other (\d+)")
FUNCTIONS = {"brrq": 1, "lkup": 2, "reply": 3, "fwdreq": 4}
REQUESTED, RESPONDED, RELEASED = 1, 2, 3
REPLY = FUNCTIONS["reply"]
ZONES = 6
LONG_FIELDS = (
    "ddp.len", "ddp.hopcount", "ddp.checksum", "ddp.src.net", "ddp.src.node", "ddp.src_socket",
    "ddp.dst.net", "ddp.dst.node", "ddp.dst_socket", "ddp.type",
)
SHORT_FIELDS = "ddp.len", "ddp.src_socket", "ddp.dst_socket", "ddp.type"
NODE_FIELDS = "llap.src", "llap.dst"
STATION_FIELDS = "eth.src", "eth.dst"
COOKED_FIELD = "sll.src.eth"
NBP_FIELDS = "nbp.op", "nbp.tid", "nbp.count"
NAME_FIELDS = "nbp.object", "nbp.type", "nbp.zone"
ADDRESS_FIELDS = "nbp.net", "nbp.node", "nbp.port", "nbp.enum"
REQUEST_FIELDS = "atp.function", "atp.bitmap", "atp.xo", "atp.tid"
RESPONSE_FIELDS = "atp.function", "atp.bitmap", "atp.eom", "atp.sts", "atp.tid"
RELEASE_FIELDS = "atp.function", "atp.tid"
# The names that tshark has for the user bytes, by whom it takes the packet to be of.
ASKED_FIELDS = (
    "zip.atp_function", "zip.start_index", "asp.function", "asp.session_id", "asp.seq",
    "prap.connid", "prap.function", "prap.seq",
)
ANSWERED_FIELDS = "zip.last_flag", "zip.count"
# tshark shows them whole of a release alone, and tcpdump of each packet.
USER_FIELD = ("user",)
# The data of a datagram of no protocol that tshark reads; of a response, from the user bytes on.
DATA_FIELD = ("data.data",)


class Unread(Exception):
    """What is printed is not of the language that is read here."""


class Reading(NamedTuple):
    """What is read of a frame."""

    number: int
    # In billionths of a second since 1970, or none.
    time: Optional[int]
    # The carrier, or the reason why there is no datagram. Of tshark it is the protocols.
    carrier: str
    # The number of the refusal, or 0. Of tshark it is 1 if it could not read all.
    refused: int
    fields: Fields
    # The frame that it answers, or 0. tshark names none.
    answers: int = 0


def billionths(seconds: str) -> Optional[int]:
    """A time that is written in seconds."""
    if not seconds or seconds == "-":
        return None
    whole, _, fraction = seconds.partition(".")
    return int(whole) * 10**9 + int((fraction + 9 * "0")[:9])


def add(fields: Fields, names: Sequence[str], values: Iterable[Value]) -> None:
    """Adds a value to each of these fields."""
    for name, value in zip(names, values):
        fields[name] = (*fields.get(name, ()), value)


def shown(printed: str) -> List[Reading]:
    """What the lines of a capture say."""
    *lines, last = printed.splitlines()
    frames: List[List[str]] = []
    for line in lines:
        if line.startswith("frame "):
            frames.append([])
        if not frames:
            raise Unread(line)
        frames[-1].append(line)
    readings = [frame_shown(it) for it in frames]
    check_answers(readings)
    others = sum(not it.fields for it in readings)
    refused = sum(it.refused > 0 for it in readings)
    counts = len(readings), len(readings) - others, refused, others
    found = END.fullmatch(last)
    if not found or tuple(map(int, found.groups())) != counts:
        raise Unread(last)
    return readings


def frame_shown(lines: List[str]) -> Reading:
    """What the lines of a frame say."""
    found = FRAME.fullmatch(lines[0])
    if not found:
        raise Unread(lines[0])
    number, time, reason, carrier, source, to = found.groups()
    if reason:
        if len(lines) > 1:
            raise Unread(lines[1])
        return Reading(int(number), billionths(time), reason, 0, {})
    fields = stations(carrier, source.lower(), to.lower())
    refused = answers = 0
    last = ANSWERS.fullmatch(lines[-1])
    if last:
        answers = int(last[1])
        lines = lines[:-1]
    for line in lines[1:]:
        found = REFUSED.fullmatch(line)
        if found:
            refused = int(found[1])
        else:
            add_line(fields, line)
    return Reading(int(number), billionths(time), carrier, refused, fields, answers)


def check_answers(readings: List[Reading]) -> None:
    """Looks whether each frame that answers one, and no other, names the last that asked. Who asks
    and who answers is told from what is shown of each: tshark ties no packets of ATP or NBP."""
    askers: Dict[Tuple[object, ...], int] = {}
    for it in readings:
        question = answered(it.fields)
        wanted = askers.get(question, 0) if question else 0
        if it.answers != wanted:
            raise Unread(f"frame {it.number} answers frame {it.answers}, not {wanted}")
        question = asked(it.fields)
        if question:
            askers[question] = it.number


def sockets(fields: Fields) -> List[Tuple[Value, ...]]:
    """Where a datagram comes from, and where it goes to. A short header has network 0."""
    found = []
    for side in ("src", "dst"):
        net = fields.get(f"ddp.{side}.net", (0,))
        node = fields.get(f"ddp.{side}.node", fields.get(f"llap.{side}", ()))
        found.append((*net, *node, *fields[f"ddp.{side}_socket"]))
    return found


def asked(fields: Fields) -> Optional[Tuple[object, ...]]:
    """What a frame asks, if it asks: a transaction of ATP, or a lookup of NBP."""
    if fields.get("atp.function") == (REQUESTED,) and fields["atp.bitmap"] != (0,):
        source, to = sockets(fields)
        return "atp", fields["atp.tid"], source, to
    if fields.get("nbp.op", (REPLY,)) != (REPLY,):
        return "nbp", fields["nbp.tid"], sum((fields[it] for it in ADDRESS_FIELDS[:3]), ())
    return None


def answered(fields: Fields) -> Optional[Tuple[object, ...]]:
    """What a frame answers, if it answers."""
    if fields.get("atp.function") == (RESPONDED,):
        source, to = sockets(fields)
        return "atp", fields["atp.tid"], to, source
    if fields.get("nbp.op") == (REPLY,):
        return "nbp", fields["nbp.tid"], sockets(fields)[1]
    return None


def stations(carrier: str, source: str, to: str) -> Fields:
    """Where a frame comes from, and where it goes to. That a field is not there is a value too."""
    if carrier != "ethertalk":
        return dict(zip(NODE_FIELDS, ((int(source),), (int(to),))))
    if to == "-":
        return {COOKED_FIELD: () if source == "-" else (source,)}
    return dict(zip(STATION_FIELDS, ((source,), (to,))))


def add_line(fields: Fields, line: str) -> None:
    """Adds the fields of a line below that of its frame."""
    for pattern, adder in ADDERS:
        found = pattern.fullmatch(line)
        if found:
            adder(fields, *found.groups())
            return
    raise Unread(line)


def add_long(fields: Fields, length: str, hops: str, total: str, *numbers: str) -> None:
    """Adds a long header. A checksum that was not computed is 0."""
    checksum = 0 if total == "none" else int(total, 16)
    add(fields, LONG_FIELDS, (int(length), int(hops), checksum, *map(int, numbers)))


def add_short(fields: Fields, length: str, *numbers: str) -> None:
    """Adds a short header, whose nodes are those of the frame."""
    source, source_socket, to, to_socket, kind = map(int, numbers)
    if (source, to) != (*fields["llap.src"], *fields["llap.dst"]):
        raise Unread(f"nodes {source} and {to} of a short header")
    add(fields, SHORT_FIELDS, (int(length), source_socket, to_socket, kind))


def add_names(fields: Fields, function: str, number: str, count: str) -> None:
    """Adds what a packet of NBP has before its tuples."""
    add(fields, NBP_FIELDS, (FUNCTIONS[function], int(number), int(count)))


def add_tuple(fields: Fields, *words: str) -> None:
    """Adds a tuple."""
    add(fields, NAME_FIELDS, map(name_of, words[:3]))
    add(fields, ADDRESS_FIELDS, map(int, words[3:]))


def name_of(text: str) -> str:
    """The name that a text is, in the letters of a Macintosh. The text `%` is the empty name."""
    return "" if text == "%" else unquote_to_bytes(text).decode("mac_roman")


def add_request(
    fields: Fields, mask: str, once: str, timer: str, number: str, user: str, _: str
) -> None:
    """Adds a request of ATP. There is a timer if it is exactly once."""
    add(fields, REQUEST_FIELDS, (REQUESTED, int(mask, 16), int(once), int(number)))
    if int(once):
        add(fields, ("atp.treltimer",), (int(timer),))
    first, second, *last = bytes.fromhex(user)
    last_word = int.from_bytes(last, "big")
    values = first, last_word, first, second, last_word, first, second, last_word
    add(fields, ASKED_FIELDS, values)
    add(fields, USER_FIELD, (int(user, 16),))


def add_response(
    fields: Fields, place: str, end: str, status: str, number: str, user: str, data: str
) -> None:
    """Adds a response of ATP, also as one that has zones."""
    add(fields, RESPONSE_FIELDS, (RESPONDED, int(place), int(end), int(status), int(number)))
    is_last, count = int(user[:2], 16), int(user[4:], 16)
    add(fields, ANSWERED_FIELDS, (is_last, count))
    add(fields, USER_FIELD, (int(user, 16),))
    packet = bytes.fromhex(user + data.replace("-", ""))
    add(fields, DATA_FIELD, (packet.hex(),))
    fields["zip.zone_name"] = zones_of(packet[4:])[:count]


def zones_of(data: bytes) -> Tuple[str, ...]:
    """The names, each behind its length."""
    names: List[str] = []
    while data:
        names.append(data[1 : 1 + data[0]].decode("mac_roman"))
        data = data[1 + data[0] :]
    return tuple(names)


def add_release(fields: Fields, number: str) -> None:
    """Adds a release of ATP."""
    add(fields, RELEASE_FIELDS, (RELEASED, int(number)))


def add_raw(fields: Fields, data: str) -> None:
    """Adds the data of a datagram, and the function of ZIP without ATP."""
    if data == "-":
        return
    add(fields, DATA_FIELD, (data.lower(),))
    if fields["ddp.type"] == (ZONES,):
        add(fields, ("zip.function",), (int(data[:2], 16),))


def add_unread(_: Fields) -> None:
    """Adds nothing, since the packet is not compared."""


ADDERS: Tuple[Tuple[Pattern[str], Callable[..., None]], ...] = (
    (LONG, add_long), (SHORT, add_short), (NAMES, add_names), (TUPLE, add_tuple),
    (REQUEST, add_request), (RESPONSE, add_response), (RELEASE, add_release), (RAW, add_raw),
    (UNREAD, add_unread),
)
