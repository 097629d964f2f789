"""What `captures` and `fuzz-captures` share: showing a capture by a built program, and what holds of each such run."""

import pathlib
import re
import subprocess

SECONDS = "60"
CAPTURES = pathlib.Path(__file__).resolve().parents[1] / "examples" / "captures"
LAST = re.compile(rb"(?:\A|\n)frames (\d+) datagrams (\d+) refused (\d+) other (\d+)\n\Z")
FAULT = re.compile(rb"(?m)^(?:fault 8[0-6] at \d+|fault 0)\n")


def shown(program, words, given=b""):
    """What comes of a run: what is printed and told, and the status."""
    run = subprocess.run(["timeout", SECONDS, program, "capture", *words], input=given, capture_output=True)
    return run.stdout, run.stderr, run.returncode


def is_whole(came):
    """Whether a run ends by its last line, whose numbers are those of its lines."""
    printed, _, status = came
    last = LAST.search(printed)
    if not last or status not in (0, 1) or bool(FAULT.search(printed)) != bool(status):
        return False
    frames, datagrams, refused, others = map(int, last.groups())
    others_printed = len(re.findall(rb"(?m)^frame \d+ \S+ other \w+$", printed))
    counts = len(re.findall(rb"(?m)^frame ", printed)), len(re.findall(rb"(?m)^refused ", printed)), others_printed
    return counts == (frames, refused, others) and frames == datagrams + others


def frames_of(printed):
    """What is printed of frames, without the fault and the last line."""
    return FAULT.sub(b"", printed.rpartition(b"frames ")[0])
