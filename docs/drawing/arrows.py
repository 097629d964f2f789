"""The arrows of a ladder, and the words beside them."""

from typing import NamedTuple

from svg import BLUE, PAPER, RED, Picture, cut

# The most letters of the words at an arrow, and their size.
MOST, SIZE = 30, 10
# How far from a dot an arrow ends, how long its head is, and half of its width.
DOT, HEAD, HALF = 4, 9, 4
# An arrow from a node to itself goes so far out, and comes back so much lower at least.
BOW, DROP = 34, 8


class Point(NamedTuple):
    """A place in the picture."""

    x: float
    y: float


def draw_arrow(picture: Picture, start: Point, end: Point, again: bool) -> None:
    """Draws an arrow, dashed if its datagram came before."""
    dashes = {"stroke_dasharray": "5 3"} if again else {}
    if start.x == end.x:
        draw_bow(picture, start, end, **dashes)
    else:
        picture.line(start.x, start.y, end.x, end.y, BLUE, **dashes)
        draw_head(picture, start, end, BLUE)


def draw_bow(picture: Picture, start: Point, end: Point, **dashes: str) -> None:
    """Draws the arrow of what a node sends to itself."""
    far, low = start.x + BOW, max(end.y, start.y + DROP)
    turns = [Point(far, start.y), Point(far, low), Point(start.x + DOT, low)]
    way = " ".join(f"{it.x:.1f} {it.y:.1f}" for it in turns)
    begin = f"M {start.x:.1f} {start.y:.1f} C {way}"
    picture.shape("path", d=begin, fill="none", stroke=BLUE, **dashes)
    draw_head(picture, Point(far, low), Point(start.x, low), BLUE)


def draw_head(picture: Picture, start: Point, end: Point, ink: str) -> None:
    """Draws the head of an arrow, before the dot of what comes."""
    long = max(((end.x - start.x) ** 2 + (end.y - start.y) ** 2) ** 0.5, 1)
    x, y = (end.x - start.x) / long, (end.y - start.y) / long
    back = Point(end.x - (DOT + HEAD) * x, end.y - (DOT + HEAD) * y)
    sides = [Point(back.x + side * y, back.y - side * x) for side in (-HALF, HALF)]
    corners = [Point(end.x - DOT * x, end.y - DOT * y), *sides]
    points = " ".join(f"{it.x:.1f},{it.y:.1f}" for it in corners)
    picture.shape("polygon", points=points, fill=ink)


def draw_lost(picture: Picture, start: Point, end: Point) -> None:
    """Draws a datagram that never came: a line to a cross."""
    picture.line(start.x, start.y, end.x, end.y, RED)
    for slope in (-HALF, HALF):
        x, y = end
        picture.line(x - HALF, y - slope, x + HALF, y + slope, RED, stroke_width=1.5)


def draw_forged(picture: Picture, start: Point, end: Point) -> None:
    """Draws bytes that no node sent."""
    picture.line(start.x, start.y, end.x, end.y, RED, stroke_dasharray="2 2")
    draw_head(picture, start, end, RED)


def draw_words(picture: Picture, at: Point, toward: Point, words: str, ink: str = BLUE) -> None:
    """Writes words over the end of an arrow that is `at` a node, with paper around the letters."""
    side = 1 if toward.x >= at.x else -1
    halo = {"stroke": PAPER, "stroke_width": 3, "paint_order": "stroke", "stroke_opacity": 0.8}
    hint = words if len(words) > MOST else ""
    anchor = "start" if side == 1 else "end"
    place = (at.x + 8 * side, at.y - 3)
    picture.text(*place, cut(words, MOST), SIZE, ink, hint, text_anchor=anchor, **halo)
