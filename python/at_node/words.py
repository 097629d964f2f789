"""The words of calls and reports: texts, and bytes as hexadecimal digits.

Names of AppleTalk are bytes, which Macs show by the character set Mac Roman. So a text is given
as a `str`, and bytes that no text has can be given as `bytes`.
"""

from __future__ import annotations

import re
from typing import Union

CHARSET = "mac_roman"
# The character that stands for any bytes in a pattern of a lookup: byte C5.
WILDCARD = b"\xc5".decode(CHARSET)
_PLAIN = re.compile(rb"[A-Za-z0-9_.=*-]")
_SPELLED = re.compile(r"%([0-9A-Fa-f]{2})")


def word_of_text(text: Union[str, bytes]) -> str:
    """The word of a text: `Laser Jet` is `Laser%20Jet`, and the empty text `%`.

    Raises UnicodeEncodeError if Mac Roman lacks a character.
    """
    spelled = text.encode(CHARSET) if isinstance(text, str) else text
    parts = [chr(it) if _PLAIN.match(bytes([it])) else f"%{it:02X}" for it in spelled]
    return "".join(parts) or "%"


def text_of_word(word: str) -> str:
    """The text of a word."""
    return name_of_word(word).decode(CHARSET)


def name_of_word(word: str) -> bytes:
    """The bytes of a text, of its word."""
    if word == "%":
        return b""
    return _SPELLED.sub(lambda found: chr(int(found[1], 16)), word).encode("latin-1")


def word_of_bytes(data: bytes) -> str:
    """The word of bytes: pairs of hexadecimal digits, or `-` for none."""
    return data.hex().upper() or "-"


def bytes_of_word(word: str) -> bytes:
    """The bytes of a word. Raises ValueError if it is no such word."""
    return b"" if word == "-" else bytes.fromhex(word)


def line_of_words(words: str) -> bytes:
    """The bytes of a line. What is not ASCII is spelled as a text has it: `Café` as `Caf%8E`."""
    if not words.isascii():
        words = "".join(it if it.isascii() else word_of_text(it) for it in words)
    return words.encode("ascii")
