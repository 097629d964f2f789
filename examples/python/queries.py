"""What a printer answers to the queries of a document, as netatalk's spooler does.

A query begins with a line `%%?BeginQuery: NAME`, or of another kind, and ends with a line
`%%?EndQuery: ANSWER`. That ANSWER is the client's own, for a printer that has none.
"""

from __future__ import annotations

from typing import Callable, Dict, FrozenSet, List, Mapping, NamedTuple, Optional

BEGIN, END, CONTINUED = b"%%?Begin", b"%%?End", b"%%+"
LAST = b"*\n"
# The fonts of each PostScript printer since the LaserWriter Plus.
FONTS = tuple(
    b"""AvantGarde-Book AvantGarde-BookOblique AvantGarde-Demi AvantGarde-DemiOblique
    Bookman-Demi Bookman-DemiItalic Bookman-Light Bookman-LightItalic
    Courier Courier-Bold Courier-BoldOblique Courier-Oblique
    Helvetica Helvetica-Bold Helvetica-BoldOblique
    Helvetica-Narrow Helvetica-Narrow-Bold Helvetica-Narrow-BoldOblique Helvetica-Narrow-Oblique
    Helvetica-Oblique
    NewCenturySchlbk-Bold NewCenturySchlbk-BoldItalic NewCenturySchlbk-Italic
    NewCenturySchlbk-Roman
    Palatino-Bold Palatino-BoldItalic Palatino-Italic Palatino-Roman
    Symbol Times-Bold Times-BoldItalic Times-Italic Times-Roman
    ZapfChancery-MediumItalic ZapfDingbats""".split()
)
# The general queries whose answer is the same for each printer: a spooler, which asks for no
# password, and takes each byte as it is.
GENERAL: Mapping[bytes, bytes] = {
    b"RBISpoolerID": b"(at_node printer) 1.0 (1)\n",
    b"RBIUAMListQuery": b"*\n",
    b"ADOIsBinaryOK?": b"true\n",
}
# What is told of a printer without a description: 32 megabytes of memory.
FEATURES: Mapping[bytes, bytes] = {b"*FreeVM": b"33554432"}


class Description(NamedTuple):
    """What a printer says of itself: features, such as `*Product`, and the fonts that it has."""

    features: Mapping[bytes, bytes] = FEATURES
    fonts: FrozenSet[bytes] = frozenset(FONTS)


class Answer(NamedTuple):
    """Bytes for the client. Old drivers want each line of a list of fonts alone."""

    data: bytes
    is_alone: bool = False


def _joined(*lines: bytes) -> List[Answer]:
    return [Answer(b"".join(lines))]


class Queries:
    """Answers the queries of one document, line by line."""

    def __init__(self, description: Description) -> None:
        self._description = description
        self._kinds: Dict[bytes, Callable[[bytes], Optional[List[Answer]]]] = {
            b"Query": self._general, b"FeatureQuery": self._feature, b"FontQuery": self._fonts,
            b"FontListQuery": self._font_list, b"PrinterQuery": self._printer,
        }
        # How the line begins that ends the query, while one is open; whether that line has the
        # answer; what else is answered then; and whether the next line may go on with fonts.
        self._end = b""
        self._is_default = False
        self._closing = b""
        self._goes_on = False

    def line(self, text: bytes, ending: bytes) -> List[Answer]:
        """What is answered to a line. `ending` is what it ended with."""
        if self._end:
            return self._next(text, ending)
        return self._begin(text) if text.startswith(BEGIN) else []

    def _begin(self, text: bytes) -> List[Answer]:
        kind, _, words = text[len(BEGIN):].partition(b":")
        answer = self._kinds.get(kind.strip())
        answers = None if answer is None else answer(words.strip())
        self._is_default = answers is None
        self._end = END if answers is None else END + kind.strip()
        self._goes_on = answer == self._fonts
        self._closing = LAST if self._goes_on else b""
        return answers or []

    def _next(self, text: bytes, ending: bytes) -> List[Answer]:
        if self._goes_on and text.startswith(CONTINUED):
            return self._fonts(text[len(CONTINUED):])
        self._goes_on = False
        if not text.startswith(self._end):
            return []
        self._end = b""
        if self._is_default:
            return _joined(text.partition(b":")[2].lstrip(b" ") + ending)
        return _joined(self._closing)

    def _general(self, name: bytes) -> Optional[List[Answer]]:
        name = name.partition(b" ")[0]
        if name == b"Product":
            return self._feature(b"*Product")
        value = GENERAL.get(name)
        return None if value is None else _joined(value)

    def _feature(self, name: bytes) -> Optional[List[Answer]]:
        """The value of a feature. A driver asks for some with a question mark in their names."""
        plain = b"*" + name[2:] if name.startswith(b"*?") else name
        value = self._description.features.get(plain)
        return None if value is None else _joined(value, b"\r")

    def _fonts(self, names: bytes) -> List[Answer]:
        has: Dict[bool, bytes] = {True: b":Yes\n", False: b":No\n"}
        lines = (b"/" + it + has[it in self._description.fonts] for it in names.split())
        return _joined(*lines)

    def _font_list(self, _: bytes) -> List[Answer]:
        return [Answer(it + b"\n", is_alone=True) for it in FONTS] + [Answer(LAST, is_alone=True)]

    def _printer(self, _: bytes) -> Optional[List[Answer]]:
        """Revision, version and product, if all are known."""
        features = self._description.features
        version, blank, revision = features.get(b"*PSVersion", b"").partition(b" ")
        product = features.get(b"*Product")
        if not blank or product is None:
            return None
        return _joined(revision, b"\r", version, b"\r", product, b"\r")
