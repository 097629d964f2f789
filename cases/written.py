"""The form in which README.md has cases, and what is told of the refusals of a play.

`run` and `refuse` share it. A file that is not in its form is `Malformed`.
"""

import itertools
import pathlib
import re
from collections.abc import Iterator
from typing import NamedTuple, Optional

import protocols

EVENTS = {b"call", b"deliver", b"timer", b"forge"}
ESCAPE = re.compile(rb"\\(?:[nrt\\]|x[0-9A-Fa-f]{2})")
# What comes of an input: `(nothing)`, or printed lines, with or without `...` before them; then
# lines that are told.
PRINTED = rb"\(nothing\)\n|(?:\.\.\.\n)?(?:(?!\(nothing\)\n|\.\.\.\n|!).+\n)+"
WANTED = re.compile(rb"(" + PRINTED + rb")((?:! .+\n)*)")

# The sentences that several cases have, and those of refusals that are no protocol's, by their numbers.
SENTENCES = pathlib.Path(__file__).parent / "sentences"

Line = tuple[int, bytes]


class Malformed(Exception):
    """The number of a line that is not in its form, and what the form is."""


class Case(NamedTuple):
    """An input, which is a schedule or a word to show, and what is printed and told of it."""

    place: str
    given: bytes
    is_word: bool
    printed: bytes
    told: bytes

    @property
    def name(self) -> str:
        """The sentence that the case has for its name."""
        return self.place.split(": ", 1)[1]


def sentences() -> dict[bytes, bytes]:
    """The sentence of each name, and of each number of a refusal."""
    *first, last = (f"`{word}`" for word in protocols.calls())
    lines = SENTENCES.read_text().replace("{calls}", f"{', '.join(first)} or {last}").splitlines()
    known = [line.split(" ", 1) for line in lines]
    known += [(str(number), text) for number, text in protocols.rows("SENTENCES").items()]
    return {name.encode(): text.encode() for name, text in known}


KNOWN = sentences()


def repeated(number: int, line: bytes) -> bytes:
    """The line with each `{TEXT*COUNT}` and the sentence of each `{NAME}` written out."""
    line = re.sub(rb"\{([^{}]+)\*(\d+)\}", lambda part: part[1] * int(part[2]), line)
    line = re.sub(rb"\{([a-z]+)\}", lambda part: KNOWN.get(part[1], part[0]), line)
    if b"{" in line or b"}" in line:
        form = "a brace is part of `{TEXT*COUNT}`, of the name of a sentence, or of a block of lines"
        raise Malformed(number, form)
    return line


def lines_of(path: pathlib.Path) -> Iterator[Line]:
    """The lines of a file with their numbers, those of a block as often as it says."""
    begun, counts = 0, range(0)
    block: Optional[list[Line]] = None
    for number, line in enumerate(path.read_bytes().split(b"\n"), 1):
        opened = re.fullmatch(rb"\{ (\d+) to (\d+)", line)
        if line[-1:].isspace():
            raise Malformed(number, "no line ends with a space")
        if opened and block is None:
            begun, counts, block = number, range(int(opened[1]), int(opened[2]) + 1), []
        elif line == b"}" and block is not None:
            for count in counts:
                here = [(at, part.replace(b"{}", b"%d" % count)) for at, part in block]
                yield from ((at, repeated(at, part)) for at, part in here)
            block = None
        elif block is not None:
            block.append((number, line))
        else:
            yield number, line if line.startswith((b"#", b"==")) else repeated(number, line)
    if block is not None:
        raise Malformed(begun, "a block of lines ends with a line `}`")


def kind_of(entry: Line) -> str:
    """Whether a line is of an input, of what comes of it, or of neither."""
    line = entry[1]
    if line.startswith((b"|", b"?")):
        return "input"
    return "apart" if not line or line.startswith((b"#", b"==")) else "wanted"


def schedule_part(number: int, line: bytes) -> bytes:
    """The bytes that a line gives to a schedule."""
    if line == b"|" or line.startswith(b"| "):
        return line[2:] + b"\n"
    if not (line + b" ").startswith(b"|= ") or b"\\" in ESCAPE.sub(b"", line):
        form = "`| TEXT`, and `|= TEXT` with the escapes that there are"
        raise Malformed(number, f"a schedule has lines {form}")
    return line[3:].decode("unicode_escape").encode("latin-1")


def input_of(entries: list[Line]) -> tuple[bytes, bool]:
    """The bytes of a schedule, and whether they are a word to show in its place."""
    number, line = entries[0]
    if not line.startswith(b"?"):
        return b"".join(schedule_part(*entry) for entry in entries), False
    if len(entries) > 1 or line[1:2].strip():
        raise Malformed(number, "a word is one line, `? WORD`")
    return line[2:], True


def cases_of(path: pathlib.Path) -> list[Case]:
    """The cases of a file."""
    cases: list[Case] = []
    name, before, names = "", "apart", list[str]()
    for kind, group in itertools.groupby(lines_of(path), kind_of):
        entries = list(group)
        number = entries[0][0]
        if (before == "input") != (kind == "wanted"):
            raise Malformed(number, "what comes of an input stands right under it")
        if kind == "apart":
            names = [line[2:].strip().decode() for _, line in entries if line.startswith(b"==")]
            if len(names) > 1:
                raise Malformed(number, "a name stands above its cases")
            name = names[0] if names else name
        elif kind == "input":
            begun, given = number, input_of(entries)
        else:
            wanted = WANTED.fullmatch(b"".join(line + b"\n" for _, line in entries))
            if not wanted or not name:
                form = "what is printed stands before what is told"
                raise Malformed(number, f"a case has a name, and {form}")
            cases.append(Case(f"{path}:{begun}: {name}", *given, wanted[1], wanted[2]))
        before = kind
    if before == "input" or (before == "apart" and names) or not cases:
        raise Malformed(number, "a file ends with a case, and with what comes of it")
    return cases


def places_of(schedule: bytes) -> list[int]:
    """The number of the line of each event."""
    lines = enumerate(schedule.split(b"\n"), 1)
    return [number for number, line in lines if EVENTS.intersection(line.split()[:1])]


def refusals_of(schedule: bytes, printed: bytes) -> bytes:
    """What is told of the refusals that a play printed: each number once, where it came first."""
    places = dict(enumerate(places_of(schedule)))
    told: dict[bytes, bytes] = {}
    for event, refusal in re.findall(rb"(?m)^(\d+) refused (\d+)$", printed):
        told.setdefault(refusal, event)
    line = b"! %d: event %s was refused: %s (refusal %s)\n"
    return b"".join(
        line % (places.get(int(event), 0), event, KNOWN.get(refusal, b"no reason"), refusal)
        for refusal, event in told.items()
    )
