"""The command rt as a module, and the crates of the repository that a script runs at the top of."""

from __future__ import annotations

import hashlib
import os
import shutil
import subprocess
import sys
import tempfile
from importlib import machinery, util
from pathlib import Path
from typing import Any


def load() -> Any:
    """The module of the rt on the PATH, which reads edits, finds crates and runs checks. The repository is the folder
    that the script runs in."""
    found = shutil.which("rt") or sys.exit("no rt is on the PATH")
    loader = machinery.SourceFileLoader("rt", os.path.realpath(found))
    spec = util.spec_from_loader("rt", loader)
    assert spec
    sys.modules["rt"] = rt = util.module_from_spec(spec)
    loader.exec_module(rt)
    rt.Crate.allowed, rt.Crate.cuts_libraries, rt.rtlib.Crate = rt.handles_of(os.getcwd()), True, rt.Crate
    # (its first call sets a signal's handler, which only the main thread may)
    rt.rtlib.guarded()
    return rt


def crates(rt: Any) -> dict[str, Any]:
    """The crates of the repository, by their names."""
    return {it.name: it for it in rt.rtlib.crates_below(os.getcwd())}


def sum_of(rt: Any, crate: Any, known: dict[str, str], reading: int, edit: Path) -> str:
    """A sum of all that a verdict on a wrong body rests on: how it is read, the body, its crate's text, the toolchain, and
    the libraries below as they were built. The sums of crates that are known are kept."""
    if crate.name not in known:
        parts = [Path(rt.KIT, "KIT-ID").read_bytes(), repr((crate.said, sorted(rt.Crate.allowed))).encode()]
        for folder in ("src", "specs", "proofs"):
            for file in sorted(it for it in Path(crate.folder, folder).rglob("*") if it.is_file()):
                parts += [str(file.relative_to(crate.folder)).encode(), file.read_bytes()]
        # (a library's other files are held to the sums in this one)
        parts += [part for dep in crate.below() for part in (dep.name.encode(), Path(dep.rlib, "format").read_bytes())]
        known[crate.name] = hashlib.sha256(repr(parts).encode()).hexdigest()
    return hashlib.sha256(repr((reading, known[crate.name], edit.name, edit.read_bytes())).encode()).hexdigest()[:32]


def checked(rt: Any, crate: Any, texts: dict[str, str], flags: list[str], over: str) -> subprocess.CompletedProcess[str]:
    """Checks a copy of a crate with these texts in place of its own, or beside them, over what earlier checks proved."""
    with tempfile.TemporaryDirectory(prefix=f"wrong-{os.getpid()}-") as room:
        for part in rt.rtlib.PARTS:
            if Path(crate.folder, part).is_dir():
                shutil.copytree(Path(crate.folder, part), Path(room, part))
        for path, text in texts.items():
            place = Path(room, path)
            place.parent.mkdir(parents=True, exist_ok=True)
            place.write_text(text, "utf-8")
        words = [rt.rtlib.RATTLE, "check", *crate.words(flags, keeps=False), "--incremental", over]
        how = {"stdin": subprocess.DEVNULL, "stdout": subprocess.PIPE, "stderr": subprocess.STDOUT, "errors": "replace"}
        return subprocess.run([*rt.rtlib.guarded(), *words], cwd=room, text=True, **how)
