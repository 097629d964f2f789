"""A picture as SVG: its shapes, and a title and a description for whoever hears it read."""

import re
from html import escape

INK = "#1f2328"
SOFT = "#6e7781"
PALE = "#f3f5f8"
PAPER = "#ffffff"
BLUE = "#0b57a4"
RED = "#b3261e"

# The letters of each text have one width, so what fits where is known without drawing.
FONT = "DejaVu Sans Mono, Menlo, Consolas, Liberation Mono, monospace"
LETTER = 0.605
# What XML can't hold.
STRANGE = re.compile("[^\t\n\x20-\ud7ff\ue000-\ufffd\U00010000-\U0010ffff]")


def sound(text: str) -> str:
    """The text, as XML can hold it."""
    return escape(STRANGE.sub("\ufffd", text), quote=True)


def width_of(text: str, size: float) -> float:
    """The width of a text of this size, in pixels."""
    return len(text) * LETTER * size


def cut(text: str, most: int) -> str:
    """The text, or as much of it as has `most` letters, with an ellipsis for the rest."""
    return text if len(text) <= most else text[: max(most - 1, 0)] + "\u2026"


class Picture:
    """Shapes on white paper, each drawn over those before it."""

    def __init__(self, title: str, description: str) -> None:
        """A picture without a shape. Its size is told once it is whole."""
        self.title, self.description = title, description
        self.shapes: list[str] = []

    def shape(self, name: str, content: str = "", /, **attributes: object) -> None:
        """Adds an element. An attribute `stroke_width` is `stroke-width` in SVG."""
        words = (f'{key.replace("_", "-")}="{value_of(it)}"' for key, it in attributes.items())
        self.shapes.append(f"<{name} {' '.join(words)}>{content}</{name}>")

    def line(
        self, x1: float, y1: float, x2: float, y2: float, ink: str = INK, /, **more: object
    ) -> None:
        """Adds a straight line."""
        self.shape("line", x1=x1, y1=y1, x2=x2, y2=y2, stroke=ink, **more)

    def box(
        self, x: float, y: float, width: float, height: float, fill: str = PALE, /, **more: object
    ) -> None:
        """Adds a rectangle."""
        self.shape("rect", x=x, y=y, width=width, height=height, fill=fill, **more)

    def text(
        self,
        x: float,
        y: float,
        words: str,
        size: float = 12,
        ink: str = INK,
        hint: str = "",
        /,
        **more: object,
    ) -> None:
        """Adds a line of text with its foot at y. A `hint` is shown when it is pointed at."""
        content = sound(words) + (f"<title>{sound(hint)}</title>" if hint else "")
        self.shape("text", content, x=x, y=y, font_size=size, fill=ink, **more)

    def svg(self, width: float, height: float) -> str:
        """The whole picture, of this size in pixels."""
        wide, high = value_of(width), value_of(height)
        head = (
            '<svg xmlns="http://www.w3.org/2000/svg" role="img" aria-labelledby="title description"'
            f' width="{wide}" height="{high}" viewBox="0 0 {wide} {high}" font-family="{FONT}">'
        )
        words = f'<title id="title">{sound(self.title)}</title>'
        told = f'<desc id="description">{sound(self.description)}</desc>'
        paper = f'<rect width="100%" height="100%" rx="6" fill="{PAPER}"></rect>'
        return "\n".join([head, words, told, paper, *self.shapes, "</svg>", ""])


def value_of(value: object) -> str:
    """An attribute's value. A number has one decimal at most, so all machines write the same."""
    if isinstance(value, float):
        value = f"{value:.1f}".removesuffix(".0")
    return sound(str(value))
