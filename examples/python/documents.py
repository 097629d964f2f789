"""Parts what a client sends into documents: jobs, which go to files, and documents of queries,
which are answered."""

from __future__ import annotations

import re
from pathlib import Path
from typing import Callable, NamedTuple, Optional

from jobs import Job
from outbox import Outbox
from queries import Description, Queries

# The first line of a document of queries. Whether it is one is known after so many bytes.
QUERY = re.compile(rb"%!PS-Adobe-[^ \t\r\n]*[ \t]+Query")
START = 255
# What is behind so many bytes of a line of a query is passed over.
LONGEST = 4_096
LAST_LINE = b"%%EOF"
_ENDING = re.compile(rb"\r\n|\r|\n")


class Line(NamedTuple):
    """A line, and what it ended with."""

    text: bytes
    ending: bytes


class Lines:
    """Parts bytes into lines, which end with CR, LF or both."""

    def __init__(self) -> None:
        self._rest = b""
        # Whether the last line ended with a CR, which may be half of an ending.
        self._is_half = False

    def feed(self, data: bytes) -> None:
        """Adds bytes."""
        if self._is_half and data:
            data = data[1:] if data.startswith(b"\n") else data
            self._is_half = False
        self._rest += data

    def next(self) -> Optional[Line]:
        """The next line, if it has ended. Of one that has not, the beginning is kept."""
        found = _ENDING.search(self._rest)
        if found is None:
            self._rest = self._rest[:LONGEST]
            return None
        line = Line(self._rest[:min(found.start(), LONGEST)], found.group())
        self._rest = self._rest[found.end():]
        self._is_half = not self._rest and line.ending == b"\r"
        return line

    def rest(self) -> bytes:
        """Takes what is no line yet."""
        rest, self._rest = self._rest, b""
        return rest


class Documents:
    """The documents of one connection, one after the other."""

    def __init__(
        self, folder: Path, description: Description, outbox: Outbox, done: Callable[[Job], None]
    ) -> None:
        """`done` is called with each job that has its file."""
        self._folder, self._description = folder, description
        self._outbox, self._done = outbox, done
        self._lines = Lines()
        # The beginning of a document of which nothing is known; then one of these is there. Where
        # it follows queries, without an end of file between, blank lines may come before it.
        self._start = b""
        self._follows = False
        self._queries: Optional[Queries] = None
        self._job: Optional[Job] = None

    def size(self) -> int:
        """How much came of a job that is not whole."""
        return len(self._start) if self._job is None else self._job.size

    def feed(self, data: bytes) -> None:
        """Takes data. Raises OSError if a job can't be written."""
        if self._job is not None:
            self._job.write(data)
        elif self._queries is not None:
            self._lines.feed(data)
            self._answer()
        else:
            self._start += data.lstrip(b"\r\n") if self._follows and not self._start else data
            if len(self._start) >= START or _ENDING.search(self._start):
                self._begin()

    def end(self) -> None:
        """Ends the file, and says so when there is a job of it, or its queries are answered.
        Raises OSError if the job can't be written."""
        while self._start:
            self._begin()
        if self._queries is not None:
            self._lines.feed(b"\n")
            self._answer()
        self._queries, self._follows = None, False
        if self._job is not None:
            self._job.finish()
            self._done(self._job)
            self._job = None
        self._outbox.end()

    def drop(self) -> None:
        """Drops the job that is not whole, if there is one. Raises OSError."""
        job, self._job = self._job, None
        if job is not None:
            job.drop()

    def _begin(self) -> None:
        """Tells a job from queries."""
        start, self._start, self._follows = self._start, b"", False
        if QUERY.match(start):
            self._queries, self._lines = Queries(self._description), Lines()
        else:
            self._job = Job(self._folder)
        self.feed(start)

    def _answer(self) -> None:
        """Answers lines. After the last line of a document another may begin at once."""
        line = self._lines.next()
        while line is not None and self._queries is not None:
            for answer in self._queries.line(line.text, line.ending):
                self._outbox.say(answer.data, answer.is_alone)
            if line.text.startswith(LAST_LINE):
                self._queries, self._follows = None, True
                self.feed(self._lines.rest())
                return
            line = self._lines.next()
