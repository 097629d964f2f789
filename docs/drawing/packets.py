"""What a datagram is, in a few words of the standard: `ATP TReq 0`, `ADSP data 2 EOM`."""

HEADER = 13
NBP, ATP, ADSP = 2, 3, 7
NBP_NAMES = {1: "BrRq", 2: "LkUp", 3: "LkUp-Reply", 4: "FwdReq"}
OPENINGS = {1: "open request", 2: "open ack", 3: "open request+ack", 4: "open denial"}
CONTROLS = {**OPENINGS, 5: "close", 6: "forward reset", 7: "reset ack", 8: "retransmit advice"}


def sender_of(datagram: bytes) -> int:
    """The node that a datagram says it is from, or 0 if its header is cut short."""
    return datagram[9] if len(datagram) >= HEADER else 0


def words_of(datagram: bytes) -> str:
    """What a datagram is. Nothing is checked: bytes that are no sound datagram have words too."""
    if len(datagram) < HEADER:
        return f"{len(datagram)} byte{'' if len(datagram) == 1 else 's'}"
    kind, data = datagram[12], datagram[HEADER:]
    if kind == ATP and len(data) >= 8:
        return atp_words(data)
    if kind == NBP and len(data) >= 2:
        return f"NBP {NBP_NAMES.get(data[0] >> 4, 'packet')} {data[1]}"
    if kind == ADSP and len(data) >= HEADER:
        return f"ADSP {adsp_words(data)}"
    return f"type {kind}, {len(data)} bytes"


def atp_words(data: bytes) -> str:
    """The words of an ATP packet: its function and number, and the place of a response."""
    control, place, number = data[0], data[1], int.from_bytes(data[2:4], "big")
    names = ("packet", f"TReq{' XO' if control & 0x20 else ''}", "TResp", "TRel")
    function = names[control >> 6]
    if function != "TResp":
        return f"ATP {function} {number}"
    return f"ATP TResp {number} place {place}{' EOM' if control & 0x10 else ''}"


def adsp_words(data: bytes) -> str:
    """The words of a segment. A probe asks for an acknowledgement, and one that does not is one."""
    descriptor, content = data[12], data[HEADER:]
    if not descriptor & 0x80:
        return f"data {len(content)}{' EOM' if descriptor & 0x20 else ''}"
    code = descriptor & 0x0F
    if code:
        return CONTROLS.get(code, "control packet")
    return "probe" if descriptor & 0x40 else "ack"
