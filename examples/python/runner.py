"""Gives whole jobs to a command, one after the other, while the printer's node goes on."""

from __future__ import annotations

import contextlib
import subprocess
from collections import deque
from pathlib import Path
from typing import Callable, Deque, NamedTuple, Optional

# The seconds that a command may take to its end once the printer ends.
PATIENCE = 5.0


class Running(NamedTuple):
    """A command that runs, and the job that it reads."""

    path: Path
    process: "subprocess.Popen[bytes]"


class Runner:
    """Runs a command of the shell for each job, which is its standard input. What the command
    prints goes to the printer's standard error. `tell` is called with what failed."""

    def __init__(self, command: str, tell: Callable[[str], None]) -> None:
        self._command, self._tell = command, tell
        self._jobs: Deque[Path] = deque()
        self._running: Optional[Running] = None

    def add(self, path: Path) -> None:
        """Adds the file of a job. It is removed when the command succeeded."""
        self._jobs.append(path)
        self.step()

    def step(self) -> None:
        """Looks whether a command has ended, and begins the next."""
        if self._running is not None and self._running.process.poll() is not None:
            self._end(self._running)
            self._running = None
        while self._running is None and self._jobs:
            self._running = self._begin(self._jobs.popleft())

    def is_busy(self) -> bool:
        """Whether a job is in the command, or waits for it."""
        return self._running is not None or bool(self._jobs)

    def _begin(self, path: Path) -> Optional[Running]:
        try:
            with open(path, "rb") as file:
                # A session of its own, so that Ctrl-C ends the printer and not the command.
                process = subprocess.Popen(
                    self._command, shell=True, stdin=file, stdout=2, start_new_session=True
                )
        except OSError as error:
            self._tell(f"{path}: the command does not start, and the file is kept: {error}")
            return None
        return Running(path, process)

    def _end(self, running: Running) -> None:
        status = running.process.returncode
        if status != 0:
            how = f"ended with status {status}" if status > 0 else f"ended by signal {-status}"
            self._tell(f"{running.path}: the command {how}, and the file is kept")
            return
        try:
            running.path.unlink()
        except OSError as error:
            self._tell(f"{running.path}: it was printed, and can't be removed: {error.strerror}")

    def close(self) -> None:
        """Waits a while for the command, and tells which jobs it did not get to its end."""
        jobs, self._jobs = self._jobs, deque()
        if self._running is not None:
            with contextlib.suppress(subprocess.TimeoutExpired):
                self._running.process.wait(PATIENCE)
        self.step()
        if self._running is not None:
            self._tell(f"{self._running.path}: the command still runs, and the file is kept")
        for path in jobs:
            self._tell(f"{path}: it was not given to the command, and the file is kept")
