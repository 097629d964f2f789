"""What a PostScript Printer Description (PPD) says of a printer, as far as queries ask for it."""

from __future__ import annotations

import re
from pathlib import Path
from typing import Dict, List

from queries import FEATURES, FONTS, Description

# The features that are told, as netatalk's spooler does.
TOLD = frozenset(
    b"""*LanguageLevel *PSVersion *FreeVM *Product *PCFileName *ModelName *NickName *ColorDevice
    *FaxSupport *TTRasterizer""".split()
)
_ENTRY = re.compile(rb"(\*[^\s:]+)[ \t]*([^:\r\n]*):[ \t]*([^\r\n]*)")


def description_of(path: Path) -> Description:
    """The description in a file. Raises OSError."""
    features: Dict[bytes, bytes] = {}
    fonts: List[bytes] = list(FONTS)
    for line in re.split(rb"[\r\n]+", path.read_bytes()):
        found = _ENTRY.match(line)
        keyword, option, value = found.groups() if found else (b"", b"", b"")
        if keyword == b"*Font":
            fonts.append(option.strip())
        elif keyword in TOLD and not option:
            # The first one holds.
            features.setdefault(keyword, value)
    return Description({**FEATURES, **features}, frozenset(fonts))
