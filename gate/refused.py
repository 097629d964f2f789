"""Which wrong bodies the prover refused, as gate/refused.txt has it: a body, a sum of all that its verdict rests on, the
verdict and its words, a line each. The file is committed, so that a body is tried again only where its verdict may be
another."""

from __future__ import annotations

import hashlib
import threading
from pathlib import Path
from types import TracebackType
from typing import Any

import toolchain
from report import Verdict

# Which way of trying bodies and reading reports a verdict is of. A change by which one may be another raises it.
READING = 2
# One in so many is drawn.
SHARE = 20
# The verdicts that are noted.
PASSED = ("refused", "name-only")
HEAD = "# The wrong bodies that were refused; gate/wrong writes this. A body, the sum of what it was tried over, and how.\n"


def drawn(names: list[str], word: str | None) -> set[str]:
    """One in twenty of these names, next to each other so that few crates are checked; which ones, a word chooses."""
    if word is None or not names:
        return set()
    ordered, count = sorted(names), -(-len(names) // SHARE)
    first = int(hashlib.sha256(word.encode()).hexdigest(), 16) % len(ordered)
    return set((ordered + ordered)[first : first + count])


class Refused:
    """The lines of the file. Those of the names in `again` count for nothing. At the end of a block the file is written."""

    def __init__(self, rt: Any, file: Path, again: set[str]) -> None:
        self.rt, self.file, self.again = rt, file, again
        self.lines: dict[str, tuple[str, Verdict]] = {}
        self.keys: dict[str, str] = {}
        self.lock, self.sums = threading.Lock(), {}
        for line in file.read_text("utf-8").splitlines() if file.is_file() else ():
            words = line.split(" ", 3)
            if len(words) == 4 and words[2] in PASSED:
                self.lines[words[0]] = (words[1], Verdict(words[2], words[3]))

    def __enter__(self) -> Refused:
        return self

    def __exit__(self, kind: type[BaseException] | None, error: BaseException | None, trace: TracebackType | None) -> None:
        self.write()

    def write(self) -> None:
        """Writes the file, if there is anything to write. A body that is gone has no line any more."""
        there = {f"{edit.parts[-3]}/{edit.stem}" for edit in Path("crates").glob("*/wrong/*.edit")}
        rows = [f"{name} {key} {verdict.kind} {verdict.words}" for name, (key, verdict) in sorted(self.lines.items())
                if name in there]
        if self.file.parent.is_dir():
            self.file.write_text(HEAD + "".join(f"{it}\n" for it in rows), "utf-8")

    def get(self, crate: Any, edit: Path) -> Verdict | None:
        """The verdict that is noted of a body, if nothing that it rests on has changed."""
        name = f"{crate.name}/{edit.stem}"
        with self.lock:
            self.keys[name] = toolchain.sum_of(self.rt, crate, self.sums, READING, edit)
        key, verdict = self.lines.get(name, ("", None))
        return verdict if key == self.keys[name] and name not in self.again else None

    def put(self, crate: Any, edit: str, verdict: Verdict) -> None:
        """Notes a verdict, or that there is none that stays."""
        name = f"{crate.name}/{edit}"
        with self.lock:
            self.lines.pop(name, None)
            if verdict.kind in PASSED:
                self.lines[name] = (self.keys[name], verdict)
            self.write()
