"""Wrong bodies as data: which lines of a crate each changes, and in which functions."""

from __future__ import annotations

import re
from dataclasses import dataclass, field
from pathlib import Path
from typing import Any

from copies import Function, function_at, lines_of_copy, proofs_of_copy

# A body that was tried so often is tried alone.
TRIES = 3
# A function by its file and the line, counted from 0, on which it begins. None is a place outside all bodies.
Place = tuple[str, int] | None
FN = re.compile(r'( *)(?:pub(?:\([^)]*\))? )?(?:const |unsafe |final |extern "C" )*fn (\w+)')
HEAD = re.compile(r" *(.*\bfn |\)|where\b)(.*[^{])?$")
CONSTANT = re.compile(r"\s*(?:pub(?:\([^)]*\))? )?(?:const |static )(\w+):")
# An import, or another constant, says nothing by itself.
NO_USE = re.compile(r"\s*(?:pub(?:\([^)]*\))? )?(?:use|const|static|ghost use) ")
NO_BODY = re.compile(r"ghost use ")
LAWS = re.compile(r"src/laws(/\w+)?\.rt$")


def head_of(lines: list[str], at: int) -> int | None:
    """The line on which the function begins in whose body a line stands. It goes by the layout of rt fmt."""
    for head in range(at - 1, -1, -1):
        found = FN.match(lines[head])
        if found and lines[at].startswith(found[1] + " "):
            edges = [it for it in range(head, len(lines)) if re.match(rf"{found[1]}\S", lines[it])]
            opens = next((it for it in edges if not HEAD.match(lines[it])), head)
            closes = next((it for it in edges if it > opens), -1)
            return head if lines[opens].endswith("{") and opens < at < closes else None
    return None


def law_of(lines: list[str], at: int) -> int | None:
    """The line on which the function begins in whose clauses a line stands. It goes by the layout of rt fmt."""
    for head in range(at, -1, -1):
        if FN.match(lines[head]):
            return head
        if re.match(r"[{}]", lines[head]):
            break
    return None


def name_of(lines: list[str], head: int, module: str, known: set[str]) -> str | None:
    """The name that a report has for the function that begins on this line, if it is one of the known ones."""
    found = FN.match(lines[head])
    assert found
    indent, name = str(found[1]), str(found[2])
    # A method's name has its type's module, and words of the line of the impl, with Any for a type parameter.
    above = [it for it in lines[:head] if it.strip() and not it.startswith(indent)]
    words = "|".join(["Any", *re.findall(r"\w+", "".join(above[-1:]))])
    method = rf"{module.partition('::')[0]}::(\w+::)*(?i:{words})+::{name}"
    fits = [it for it in known if re.fullmatch(method if indent else f"{module}::{name}", it)]
    return max(fits, key=lambda fit: (fit.startswith(module), len(fit))) if fits else None


def module_of(crate: str, path: str) -> str:
    """The module of a source file, as `at_zip::page` of `src/page.rt`."""
    return "::".join([crate, *re.sub(r"(/(lib|main|mod))?\.rt$", "", path).split("/")[1:]])


def users_of(crate: Any, line: str) -> set[Place]:
    """The functions in whose bodies the constant stands that a line defines; none if it defines none."""
    found = CONSTANT.match(line)
    places: set[Place] = set()
    for file in sorted(Path(crate.folder, "src").rglob("*.rt")) if found else ():
        lines = file.read_text("utf-8").split("\n")
        for at, it in enumerate(lines):
            if re.search(rf"\b{found[1]}\b", it.partition("//")[0]) and not NO_USE.match(it):
                head = head_of(lines, at)
                if head is not None:
                    places.add((str(file.relative_to(crate.folder)), head))
    return places


@dataclass
class Body:
    """A wrong body. `avoids` names functions that may not be wrong beside it, and `why` says why it can't be set in.
    `copy` is the name of the copy of its function that has it, where it is not set in in place."""

    name: str
    why: str = ""
    lines: dict[tuple[str, int], str] = field(default_factory=dict)
    places: set[Place] = field(default_factory=set)
    functions: set[str] = field(default_factory=set)
    avoids: set[str] = field(default_factory=set)
    tries: int = 0
    # The lines on which it stands in the files that were checked last.
    stands: set[tuple[str, int]] = field(default_factory=set)
    copy: str = ""
    # The function in which the body stands, if it is one alone and a copy of it may be made.
    function: Function | None = None
    # Whether the body is a constant, which is wrong for each copy of its users too.
    is_constant: bool = False

    def may_join(self, group: list[Body]) -> bool:
        """Whether it may be tried beside these: no function has two wrong bodies, none that it waits for has one. A
        second body of a function is set in as a copy, the first time that it is tried."""
        self.copy = ""
        if not group or any(it.tries >= TRIES for it in [self, *group]):
            return not group
        if any(self.functions & it.avoids or self.avoids & it.functions for it in group):
            return False
        beside = [it for it in group if self.places & it.places]
        if beside and self.function and not self.tries and not any(it.is_constant for it in beside):
            self.copy = f"{self.function.name}_w{len(beside) + 1}"
        return not beside or bool(self.copy)

    def name_functions(self, crate: Any, known: set[str]) -> None:
        """Looks up what a report calls its functions. A body outside them, or in one without a name, is tried alone."""
        for place in self.places:
            lines = Path(crate.folder, place[0]).read_text("utf-8").split("\n") if place else []
            name = place and name_of(lines, place[1], module_of(crate.name, place[0]), known)
            self.functions |= {name} if name else set()
            self.tries += 0 if name else TRIES

    def told(self) -> set[str]:
        """The functions of a report that tell of this body, as it was set in last."""
        if not self.copy:
            return self.functions
        return {f"{it.rpartition('::')[0]}::{self.copy}" for it in self.functions}


def read_body(rt: Any, crate: Any, edit: Path) -> Body:
    """Reads an edit, by the reader of the toolchain."""
    texts, why = rt.read_edit(edit, crate.folder)
    body = Body(edit.stem, why=why or "")
    for path, text in (texts or {}).items():
        was = Path(crate.folder, path).read_text("utf-8").split("\n")
        for at, new in enumerate(text.split("\n")):
            if was[at] != new:
                body.lines[path, at] = new
                note_place(crate, body, path, was, at)
    body.tries = TRIES if why or None in body.places else 0
    if body.is_constant or len(body.places) > 1 or (body.function and not body.function.can_be_copied()):
        body.function = None
    return body


def note_place(crate: Any, body: Body, path: str, lines: list[str], at: int) -> None:
    """Notes in which function a changed line stands, if it stands in one. A law has no body that could be wrong: its
    clauses are changed. An import changes nothing by itself."""
    if NO_BODY.match(lines[at]):
        return
    head = head_of(lines, at) if path.startswith("src/") else None
    if head is None and LAWS.match(path):
        head = law_of(lines, at)
    users = users_of(crate, lines[at]) if head is None else set()
    body.places |= {(path, head)} if head is not None else users or {None}
    body.is_constant |= bool(users)
    if head is not None and not LAWS.match(path):
        body.function = function_at(path, lines, head)


def texts_of(crate: Any, group: list[Body]) -> dict[str, str]:
    """The files of a crate with all bodies of a group in their places, or in copies of their functions. Each body is
    told on which lines it stands there."""
    files: dict[str, list[tuple[str, str]]] = {}
    texts: dict[str, str] = {}
    sources: dict[str, list[str]] = {}
    for path in {path for body in group for path, _ in body.lines}:
        sources[path] = Path(crate.folder, path).read_text("utf-8").split("\n")
        files[path] = [(line, "") for line in sources[path]]
    for body in group:
        for (path, at), line in body.lines.items():
            if not body.copy:
                files[path][at] = (line, body.name)
    # (from the last on, so that those above keep their lines)
    for body in sorted((it for it in group if it.copy), key=lambda it: -it.function.end):
        texts |= proofs_of_copy(crate, body.function, body.copy)
        add_copy(crate, body, sources[body.function.path], files[body.function.path])
    stands = {(path, at + 1): name for path, rows in files.items() for at, (_, name) in enumerate(rows) if name}
    for body in group:
        body.stands = {place for place, name in stands.items() if name == body.name}
    return texts | {path: "\n".join(line for line, _ in rows) for path, rows in files.items()}


def add_copy(crate: Any, body: Body, lines: list[str], rows: list[tuple[str, str]]) -> None:
    """Puts the copy of a body's function right below it."""
    calls_itself = any(it.name.startswith("+") for it in body.function.proofs(crate))
    changed = {at: line for (_, at), line in body.lines.items()}
    copy = lines_of_copy(body.function, lines, changed, body.copy, calls_itself)
    end = body.function.end + 1
    rows[end:end] = [(line, body.name) for line in copy]


def asked_of(crate: Any, group: list[Body], has_names: bool) -> set[str]:
    """What a check of a group is to prove: the functions of its bodies, or, before their names are known, the modules.

    Nothing stands for the whole crate, which a body outside functions may change.
    """
    places = {it for body in group for it in body.places}
    if None in places:
        return set()
    if has_names and all(body.functions for body in group):
        return {it.partition("::")[2] for body in group for it in body.told()}
    modules = {module_of(crate.name, it[0]).partition("::")[2] for it in places if it}
    return set() if "" in modules else modules
