"""A cable of LocalTalk over UDP with live nodes, printers and netatalk's programs, for tests.

The environment variable NETATALK_PROGRAMS names the folder of netatalk's programs, as they are
built.
"""

from __future__ import annotations

import os
import subprocess
import sys
import tempfile
import threading
import time
from pathlib import Path
from typing import Dict, List, TextIO, Tuple

PROGRAMS = Path(os.environ.get("NETATALK_PROGRAMS", ""))
PRINTER = Path(__file__).resolve().parents[2] / "examples" / "python" / "printer.py"
INTERFACE = ["--interface", "127.0.0.1"]
# The seconds that a program has for what takes it two at most.
PATIENCE = 20.0


class Started:
    """A program that runs. Its lines are read as they come, each with its time."""

    def __init__(self, words: List[str], environment: Dict[str, str], folder: str) -> None:
        pipe = subprocess.PIPE
        self.process = subprocess.Popen(
            words, stdin=pipe, stdout=pipe, stderr=pipe, text=True, errors="replace", cwd=folder,
            env={**os.environ, **environment},
        )
        self.printed: List[Tuple[float, str]] = []
        self.told: List[Tuple[float, str]] = []
        self.ended = 0.0
        self._came = threading.Condition()
        assert self.process.stdout is not None and self.process.stderr is not None
        self._threads = [
            threading.Thread(target=self._read, args=(self.process.stdout, self.printed)),
            threading.Thread(target=self._read, args=(self.process.stderr, self.told)),
        ]
        for thread in self._threads:
            thread.start()

    def _read(self, file: TextIO, lines: List[Tuple[float, str]]) -> None:
        for line in file:
            with self._came:
                lines.append((time.monotonic(), line.rstrip("\n")))
                self._came.notify_all()
        self.ended = time.monotonic()

    def say(self, *lines: str) -> None:
        """Writes lines to its standard input."""
        assert self.process.stdin is not None
        self.process.stdin.write("".join(it + "\n" for it in lines))
        self.process.stdin.flush()

    def wait_for(self, text: str, seconds: float = PATIENCE, count: int = 1) -> float:
        """When the last of so many lines that have this text came, on either of its outputs."""
        def times() -> List[float]:
            return sorted(when for when, line in self.printed + self.told if text in line)

        with self._came:
            if not self._came.wait_for(lambda: len(times()) >= count, seconds):
                raise AssertionError((text, self.printed, self.told))
            return times()[count - 1]

    def wait(self, seconds: float) -> Tuple[int, str]:
        """Its status, and what it wrote on its standard error, once it ends."""
        status = self.process.wait(seconds)
        self._join()
        return status, "".join(line + "\n" for _, line in self.told)

    def end(self) -> None:
        """Ends it, if it is there, and whatever it does."""
        self.process.terminate()
        try:
            self.process.wait(PATIENCE)
        except subprocess.TimeoutExpired:
            self.process.kill()
            raise
        self._join()

    def _join(self) -> None:
        for thread in self._threads:
            thread.join()
        for file in (self.process.stdin, self.process.stdout, self.process.stderr):
            if file is not None and not file.closed:
                file.close()


class Cable:
    """What runs on one cable. Each client of netatalk's is a node of `network`."""

    def __init__(self, network: int = 10) -> None:
        self._network = network
        self._started: List[Started] = []
        self._folder = tempfile.TemporaryDirectory()

    def folder(self, name: str) -> Path:
        """A new folder, which goes with the cable."""
        path = Path(self._folder.name, name)
        path.mkdir()
        return path

    def start(self, *words: str, **environment: str) -> Started:
        """Starts a program, which ends with the cable at the latest."""
        started = Started(list(words), environment, self._folder.name)
        self._started.append(started)
        return started

    def live(self, number: int, words: List[str], *lines: str) -> Started:
        """Starts a live node, and has it play lines."""
        live = self.start(sys.executable, "-W", "error", "-m", "at_node", "live", *INTERFACE,
                          "--node", str(number), *words)
        live.say(*lines)
        return live

    def printer(self, number: int, name: str, folder: Path) -> Started:
        """Starts a printer in the zone Lab of router 1."""
        place = [*INTERFACE, "--node", str(number), "--router", "1", "--zone", "Lab"]
        words = [sys.executable, "-W", "error", str(PRINTER), str(folder), "--name", name]
        return self.start(*words, *place)

    def atalkd(self, line: str) -> Started:
        """Starts netatalk's router, or a node without words, by a line of its configuration."""
        folder = Path(tempfile.mkdtemp(dir=self._folder.name))
        configuration = folder / "atalkd.conf"
        configuration.write_text(line + "\n")
        return self.start(str(PROGRAMS / "atalkd"), "-d", "-f", str(configuration))

    def peer(self, *words: str, **environment: str) -> Started:
        """Starts one of netatalk's clients."""
        program = str(PROGRAMS / words[0])
        return self.start(program, *words[1:], PEER_NET=str(self._network), **environment)

    def run(self, *words: str) -> Tuple[int, str]:
        """The status of one of netatalk's clients, and what it prints on both outputs."""
        environment = {**os.environ, "PEER_NET": str(self._network)}
        ran = subprocess.run(
            [str(PROGRAMS / words[0]), *words[1:]], timeout=90, env=environment,
            stdin=subprocess.DEVNULL, stdout=subprocess.PIPE, stderr=subprocess.STDOUT,
            cwd=self._folder.name,
        )
        return ran.returncode, ran.stdout.decode("latin-1")

    def close(self) -> None:
        """Ends all that runs."""
        for started in self._started:
            started.process.terminate()
        for started in self._started:
            started.end()
        self._folder.cleanup()
