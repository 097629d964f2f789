"""The layers of the crates, and a picture of them. Both the layers and who uses whom are read from crates.txt. The
picture names no crate, so that a new one changes no picture."""

import re
from collections.abc import Iterator
from pathlib import Path
from typing import NamedTuple

from svg import INK, PALE, PAPER, SOFT, Picture, width_of


class Layer(NamedTuple):
    """A layer: its name, what it is for, and its crates."""

    name: str
    does: str
    crates: list[str]


# Rows of layers that are side by side, the highest first. A crate uses only crates of its own layer
# and of lower rows.
ROWS = [["program"], ["play", "drive", "C"], ["world", "text"], ["node"], ["cores"], ["wire"]]
BESIDE = "tests"
HEADING = re.compile(r"(?m)^# layer (\w+): (.+)$")

WIDTH, EDGE, BETWEEN, BELOW = 860, 20, 24, 26
HEIGHT, SMALL = 28, 11


class Wrong(Exception):
    """How crates.txt and the layers disagree."""


def uses_in(text: str) -> dict[str, list[str]]:
    """Each crate of crates.txt, with the crates of the repository that it uses."""
    rows = [it.partition("#")[0].partition(":") for it in text.splitlines()]
    found = {name.split()[0]: uses.split() for name, _, uses in rows if name.strip()}
    return {name: [it for it in uses if it in found] for name, uses in found.items()}


def layers_in(text: str) -> dict[str, Layer]:
    """The layers of crates.txt by their names: the crates of each stand under its heading."""
    parts = HEADING.split(text)
    headed = zip(parts[1::3], parts[2::3], parts[3::3])
    layers = {name: Layer(name, does, list(uses_in(under))) for name, does, under in headed}
    names = [name for row in [*ROWS, [BESIDE]] for name in row]
    if uses_in(parts[0]) or sorted(names) != sorted(parts[1::3]):
        raise Wrong("the layers of crates.txt are not those of docs/drawing/layers.py, or a crate has none")
    return layers


def height_in(layers: dict[str, Layer]) -> dict[str, tuple[int, str]]:
    """The row of each crate, counted from below, and the name of its layer."""
    rows = [[BESIDE], *ROWS]
    places = [(len(rows) - at, name) for at, row in enumerate(rows) for name in row]
    return {crate: (at, name) for at, name in places for crate in layers[name].crates}


def check(uses: dict[str, list[str]], layers: dict[str, Layer]) -> None:
    """Tests that each crate has one line, and uses only what lies below."""
    height = height_in(layers)
    listed = [crate for layer in layers.values() for crate in layer.crates]
    if len(listed) != len(set(listed)):
        odd = {it for it in listed if listed.count(it) > 1}
        raise Wrong(f"more than once in crates.txt: {' '.join(sorted(odd))}")
    for name, below in uses.items():
        for it in below:
            if height[it][1] != height[name][1] and height[it][0] >= height[name][0]:
                raise Wrong(f"{name} uses {it}, of which crates.txt has no lower layer")


def edges_of(uses: dict[str, list[str]], layers: dict[str, Layer]) -> list[tuple[str, str]]:
    """Which layer uses which, but for what is so through another layer."""
    height = height_in(layers)
    pairs = {(height[name][1], height[it][1]) for name, below in uses.items() for it in below}
    direct = {(a, b) for a, b in pairs if a not in (b, BESIDE)}
    through = {(a, b) for a, c in direct for _, b in direct if reaches(c, b, direct)}
    return sorted(direct - through)


def reaches(above: str, below: str, direct: set[tuple[str, str]]) -> bool:
    """Whether a layer uses another one, maybe through others."""
    return any(a == above and (b == below or reaches(b, below, direct)) for a, b in direct)


class Box(NamedTuple):
    """A layer, and where it is drawn."""

    layer: Layer
    x: float
    y: float
    width: float
    height: float


def boxes(layers: dict[str, Layer]) -> Iterator[Box]:
    """Where each layer is drawn: the rows from above, and at last what lies beside them."""
    y = 52.0
    for row in [[layers[name] for name in names] for names in [*ROWS, [BESIDE]]]:
        width = (WIDTH - 2 * EDGE - BETWEEN * (len(row) - 1)) / len(row)
        for at, layer in enumerate(row):
            yield Box(layer, EDGE + at * (width + BETWEEN), y, width, HEIGHT)
        y += HEIGHT + BELOW


def draw_box(picture: Picture, box: Box, fill: str) -> None:
    """Draws a layer: its name, and what it is for."""
    layer = box.layer
    dashes = {"stroke_dasharray": "4 3"} if layer.name == BESIDE else {}
    picture.box(box.x, box.y, box.width, box.height, fill, stroke=SOFT, rx=5, **dashes)
    picture.text(box.x + 12, box.y + 18, layer.name, 13, INK, font_weight="bold")
    after = box.x + 24 + width_of(layer.name, 13)
    picture.text(after, box.y + 18, layer.does, SMALL, INK)


def draw_arrow(picture: Picture, x: float, start: float, end: float) -> None:
    """Draws an arrow that goes down."""
    picture.line(x, start, x, end - 8, INK)
    points = f"{x:.1f},{end:.1f} {x - 4:.1f},{end - 9:.1f} {x + 4:.1f},{end - 9:.1f}"
    picture.shape("polygon", points=points, fill=INK)


def middle(above: Box, below: Box) -> float:
    """The middle of where two boxes are over each other."""
    left, right = max(above.x, below.x), min(above.x + above.width, below.x + below.width)
    return (left + right) / 2


def draw_bus(picture: Picture, above: list[Box], below: list[Box]) -> None:
    """Draws how each layer of a row uses each of the next row: through one line between them."""
    tops, foot = [middle(it, it) for it in above], above[0].y + above[0].height
    y, ends = foot + BELOW / 3, [middle(it, it) for it in below]
    picture.line(min(tops + ends), y, max(tops + ends), y, INK)
    for x in tops:
        picture.line(x, foot, x, y, INK)
    for x in ends:
        draw_arrow(picture, x, y, below[0].y)


def draw_uses(picture: Picture, placed: dict[str, Box], edges: list[tuple[str, str]]) -> None:
    """Draws which layer uses which, each in the next row."""
    for upper, lower in zip(ROWS, ROWS[1:]):
        above, below = [placed[it] for it in upper], [placed[it] for it in lower]
        pairs = [(a, b) for a in above for b in below if (a.layer.name, b.layer.name) in edges]
        if len(pairs) == len(above) * len(below) and len(above) > 1 and len(below) > 1:
            draw_bus(picture, above, below)
            continue
        for a, b in pairs:
            draw_arrow(picture, middle(a, b), a.y + a.height, b.y)


def draw_layers(top: Path) -> str:
    """The picture of all layers."""
    text = (top / "crates.txt").read_text("utf-8")
    uses, layers = uses_in(text), layers_in(text)
    check(uses, layers)
    edges, placed = edges_of(uses, layers), {it.layer.name: it for it in boxes(layers)}
    rows = [layers[name] for row in [*ROWS, [BESIDE]] for name in row]
    told = [f"{it.name}, {it.does}." for it in rows]
    told += [f"{above} uses {below}." for above, below in edges]
    picture = Picture("The layers of atnode", " ".join(told))
    picture.text(EDGE, 32, "An arrow leads from a layer to one that it uses.", 12, SOFT)
    draw_uses(picture, placed, edges)
    for box in placed.values():
        draw_box(picture, box, PAPER if box.layer.name == BESIDE else PALE)
    last = placed[BESIDE]
    return picture.svg(WIDTH, last.y + last.height + EDGE)
