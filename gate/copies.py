"""A second wrong body of a function, as a copy of the function beside it, so that one check tries both.

A copy has a name of its own, and the proof of the function under that name. Nobody calls it. It is proved from the
contracts of what it calls, as the function is, so it is refused where the function with that body would be."""

from __future__ import annotations

import re
from dataclasses import dataclass
from pathlib import Path
from typing import Any

IMPL = re.compile(r"(?:unsafe )?impl(?:<.*?>)? (?:(?P<trait>.*) for )?(?P<type>\w+)")
FN = re.compile(r"\bfn (\w+)")


@dataclass(frozen=True)
class Function:
    """A function of a source file: its first and last line, counted from 0, with the attributes and comments above it."""

    path: str
    head: int
    top: int
    end: int
    name: str
    # The type of whose impl it is a method; and whether that is an impl of a trait.
    type: str = ""
    is_of_trait: bool = False

    def can_be_copied(self) -> bool:
        """Whether a copy may stand beside it: no trait has a second method of it, and no program a second main."""
        return not self.is_of_trait and self.name != "main"

    def proofs(self, crate: Any) -> list[Path]:
        """The folders of its proof, which begins with a + where it calls itself."""
        module = re.sub(r"(/(lib|main|mod))?\.rt$", "", self.path).split("/")[1:]
        folder = Path(crate.folder, "proofs", *module, *([self.type] if self.type else []))
        return [it for it in (folder / self.name, folder / f"+{self.name}") if it.is_dir()]


def function_at(path: str, lines: list[str], head: int) -> Function:
    """The function that begins on this line."""
    indent = re.match(r" *", lines[head])[0]
    end = next(at for at in range(head + 1, len(lines)) if lines[at].startswith(indent + "}"))
    top = head
    while top > 0 and re.match(rf"{indent}(#\[|//)", lines[top - 1]):
        top -= 1
    name = FN.search(lines[head])[1]
    if not indent:
        return Function(path, head, top, end, name)
    impl = next((it for it in reversed(lines[:head]) if it.strip() and not it.startswith(indent)), "")
    above = next((it for it in reversed(lines[:head]) if re.match(r"(unsafe )?impl\b", it)), impl)
    found = IMPL.match(above)
    # (a method of no impl is of a trait)
    return Function(path, head, top, end, name, found["type"] if found else "", not found or bool(found["trait"]))


def lines_of_copy(function: Function, lines: list[str], changed: dict[int, str], name: str, calls_itself: bool) -> list[str]:
    """The lines of a copy under a name, with a body's lines in their places."""
    text = [changed.get(at, lines[at]) for at in range(function.top, function.end + 1)]
    old = re.compile(rf"\b{function.name}\b(?=[<(])" if calls_itself else rf"(?<=\bfn ){function.name}\b")
    return ["", *(old.sub(name, it) for it in text if not it.lstrip().startswith("//"))]


def proofs_of_copy(crate: Any, function: Function, name: str) -> dict[str, str]:
    """The files of a function's proof, as they are for a copy of this name."""
    made: dict[str, str] = {}
    for folder in function.proofs(crate):
        for file in sorted(folder.rglob("*.antt")):
            text = re.sub(rf"(proofs\.[\w.+]*?)\b{function.name}\.(Goals|Given)", rf"\g<1>{name}.\2", file.read_text("utf-8"))
            if folder.name.startswith("+"):
                text = re.sub(rf"\bc\.{function.name}\b", f"c.{name}", text)
                text = re.sub(rf"(decreases-|goal\.[\w-]*?){function.name}\b", rf"\g<1>{name}", text)
            place = folder.with_name(folder.name.replace(function.name, name)) / file.relative_to(folder)
            made[str(place.relative_to(crate.folder))] = text
    return made
