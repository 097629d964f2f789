"""The files of jobs. A job is written under another name until it is whole, and then gets the first
free number of its folder."""

from __future__ import annotations

import contextlib
import itertools
import os
from pathlib import Path
from typing import BinaryIO, Callable, Iterator, Optional, Tuple, TypeVar

T = TypeVar("T")


class Job:
    """A job that is being written. Its file is no `.ps` until `finish`. All raise OSError."""

    def __init__(self, folder: Path) -> None:
        self._folder = folder
        parts = (folder / f"job-{os.getpid()}-{it}.part" for it in itertools.count(1))
        self._part, self._file = _first_free(parts, _made)
        self.size = 0
        self.path: Optional[Path] = None

    def write(self, data: bytes) -> None:
        """Adds data."""
        self._file.write(data)
        self.size += len(data)

    def finish(self) -> Path:
        """Gives the job its number, once all of it is on the disk. Others may write to the folder,
        and no file is written over. After an error the job is still to be dropped."""
        self._file.flush()
        os.fsync(self._file.fileno())
        jobs = (self._folder / f"job-{it:04}.ps" for it in itertools.count(1))
        self.path, _ = _first_free(jobs, lambda path: os.link(self._part, path))
        _sync(self._folder)
        self.drop()
        return self.path

    def drop(self) -> None:
        """Removes what was written, but for a job that has its number."""
        with contextlib.suppress(OSError):
            # What could not be written is dropped as well.
            self._file.close()
        self._part.unlink()


def _first_free(paths: Iterator[Path], make: Callable[[Path], T]) -> Tuple[Path, T]:
    """The first path under which something can be made, and what was. Raises OSError."""
    for path in paths:
        try:
            return path, make(path)
        except FileExistsError:
            continue
    raise AssertionError("there are names without end")


def _made(path: Path) -> BinaryIO:
    return open(path, "xb")


def _sync(folder: Path) -> None:
    """Has the names of a folder on the disk, where its file system can."""
    file = os.open(folder, os.O_RDONLY)
    with contextlib.suppress(OSError):
        os.fsync(file)
    os.close(file)
