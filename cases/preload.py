"""What `refuse`, `fail` and `udp` share: tests that are counted, and a program with a library.

The library is built by gcc of the file of its name beside this one, and is loaded by LD_PRELOAD.
"""

import os
import pathlib
import shutil
import socket
import subprocess
import sys
from collections.abc import Callable, Iterable
from typing import NamedTuple

SECONDS = 60
HOST = "127.0.0.1"
HERE = pathlib.Path(__file__).resolve().parent
STRICT = ["-std=c99", "-O1", "-Wall", "-Wextra", "-Wpedantic", "-Werror", "-shared", "-fPIC"]


class Wrong(Exception):
    """What is wrong with a run."""


class Came(NamedTuple):
    """What came of a run: what was printed and told, and the status."""

    printed: bytes
    told: bytes
    status: int


class Preloaded:
    """A program, the library that is loaded into it, and the folder that it runs in."""

    def __init__(self, program: str, name: str, folder: pathlib.Path) -> None:
        self.program, self.folder = os.path.abspath(program), folder
        self.library = folder / f"{name}.so"
        source = str(HERE / f"{name}.c")
        subprocess.run(["gcc", *STRICT, "-o", str(self.library), source], check=True)

    def run(self, words: list[str], given: bytes = b"", **settings: str) -> Came:
        """Runs the program with these settings of the library."""
        settings["LD_PRELOAD"] = str(self.library)
        run = subprocess.run(
            [self.program, *words],
            input=given,
            capture_output=True,
            cwd=self.folder,
            env={**os.environ, **settings},
            timeout=SECONDS,
        )
        return Came(run.stdout, run.stderr, run.returncode)


def want(name: str, came: object, wanted: object) -> None:
    """Ends with what is wrong if what came is not what is wanted."""
    if came != wanted:
        raise Wrong(f"{name}: {came!r}, and not {wanted!r}")


Test = tuple[str, Callable[[], None]]


def is_good(name: str, test: Callable[[], None]) -> bool:
    """Whether a test is good. What is wrong is shown."""
    try:
        test()
    except (Wrong, OSError, subprocess.SubprocessError) as fault:
        print(f"{name}: NOT SO: {fault}")
        return False
    return True


def end_of(tests: list[Test]) -> int:
    """Makes tests, each under the sentence that it shows. Counts them, and gives the status."""
    results = [is_good(name, test) for name, test in tests]
    print(f"{results.count(True)} passed, {results.count(False)} failed")
    return int(not results or not all(results))


def is_free(port: int) -> bool:
    """Whether nobody is at a port."""
    with socket.socket(socket.AF_INET, socket.SOCK_DGRAM) as one:
        try:
            one.bind((HOST, port))
        except OSError:
            return False
        return True


def free_port(nodes: Iterable[int]) -> int:
    """A port P, so that nobody is at the ports of these nodes."""
    for first in range(10_000 + os.getpid() % 100 * 64, 20_000, 64):
        if all(is_free(first + node) for node in nodes):
            return first
    raise Wrong("no ports are free")


def program_of(usage: str) -> str:
    """The program that the command line names."""
    if len(sys.argv) != 2 or not os.access(sys.argv[1], os.X_OK):
        sys.exit(usage)
    return sys.argv[1]


def want_gcc() -> None:
    """Ends, and counts nothing, if there is no gcc."""
    if shutil.which("gcc") is None:
        print("nothing is tried, since there is no gcc")
        print("0 passed, 0 failed")
        sys.exit(0)
