"""Patterns of the numbers, the names and the bytes that are printed."""

def number(first, last):
    """A pattern of the decimal numbers from 0 or 1 to the last, without a zero before them."""
    digits = str(last)
    parts = ["0"] * (first == 0) + [digits]
    if len(digits) > 1:
        parts.append(r"[1-9]\d{0,%d}" % (len(digits) - 2))
    for place, digit in enumerate(digits):
        least = 0 if place else 1
        if int(digit) > least:
            parts.append(f"{digits[:place]}[{least}-{int(digit) - 1}]" + r"\d{%d}" % (len(digits) - place - 1))
    return "(?:" + "|".join(parts) + ")"


BYTE, SHORT, END = number(0, 255), number(0, 65535), number(1, 65535)
# A byte of a text stands for itself, or else is two digits, and never both.
PLAIN = r"[A-Za-z0-9_.=*-]"
ESCAPED = r"%(?!2[ADE]|3[0-9D]|4[1-9A-F]|5[0-9AF]|6[1-9A-F]|7[0-9A])[0-9A-F]{2}"
NAME = f"(?:{PLAIN}|{ESCAPED}){{1,32}}"
TEXT = f"(?:{NAME}|%)"
HEX = "(?:[0-9A-F]{2})+"
DATA = f"(?:{HEX}|-)"
FIND = f"{TEXT}:{TEXT}@{TEXT},{BYTE},{BYTE},{BYTE}"


def word_of(data):
    """Bytes as a word of a schedule."""
    return data.hex().upper() or "-"
