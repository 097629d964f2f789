"""A live node beside the nodes of a running `atnode udp`.

The environment variable AT_NODE_PROGRAM names the program.
"""

import os
import subprocess
import sys
import tempfile
import unittest
from pathlib import Path

from cables import free_first

PROGRAM = os.environ.get("AT_NODE_PROGRAM", "")


@unittest.skipUnless(PROGRAM, "AT_NODE_PROGRAM names no program")
class Programs(unittest.TestCase):
    def test_its_names_are_found(self) -> None:
        first = free_first(7, 9)
        events = "call 7 register Laser%20Jet LaserWriter 129\n" + "poll 7\n" * 200_000
        words = [sys.executable, "-W", "error", "-m", "at_node", "names", "=:=@*"]
        words += ["--udp", str(first), "--node", "9"]
        with tempfile.TemporaryDirectory() as folder:
            schedule = Path(folder, "schedule.txt")
            schedule.write_text(f"net 10\nport {first}\nnode 7\n{events}")
            names = subprocess.Popen(words, stdout=subprocess.PIPE, text=True)
            # A node whose polls are over is there again at once.
            while names.poll() is None:
                subprocess.run([PROGRAM, "udp", str(schedule)], stdout=subprocess.DEVNULL)
        output = names.communicate()[0]
        self.assertEqual((names.returncode, output), (0, "Laser Jet:LaserWriter@*\t7.129\n"))


if __name__ == "__main__":
    unittest.main()
