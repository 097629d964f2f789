"""A megabyte by a stream between two processes, on a cable that loses one datagram in twenty."""

import os
import subprocess
import sys
import tempfile
import time
import unittest
from pathlib import Path

from cables import free_first, has_multicast

SIZE, PERCENT, SECONDS = 1 << 20, 5, 30
PEER = str(Path(__file__).with_name("stream_peer.py"))


class StreamsThatLose(unittest.TestCase):
    def send(self, kind: str) -> None:
        """Sends a megabyte, and compares what came byte for byte."""
        with tempfile.TemporaryDirectory() as folder:
            written, came = Path(folder, "written"), Path(folder, "came")
            written.write_bytes(os.urandom(SIZE))
            begun = time.monotonic()
            peers = [
                subprocess.Popen([sys.executable, PEER, what, kind, number, path, str(PERCENT)],
                                 stdout=subprocess.PIPE, text=True)
                for what, number, path in (("read", "7", came), ("write", "9", written))
            ]
            try:
                told = [it.communicate(timeout=SECONDS + 5)[0] for it in peers]
            finally:
                for peer in peers:
                    peer.kill()
            self.assertLess(time.monotonic() - begun, SECONDS)
            self.assertEqual([it.returncode for it in peers], [0, 0])
            self.assertTrue(written.read_bytes() == came.read_bytes(), "other bytes came")
            for line in told:
                self.assertRegex(line, r"^lost [1-9]\d\d?\d?; received ")

    def test_a_megabyte_comes_whole_over_udp(self) -> None:
        self.send(str(free_first(7, 9)))

    @unittest.skipUnless(has_multicast(), "this machine has no multicast at 127.0.0.1")
    def test_a_megabyte_comes_whole_over_localtalk_over_udp(self) -> None:
        self.send("ltoudp")


if __name__ == "__main__":
    unittest.main()
