"""Tests of `.ci/jobs` with a given number of processors and a given memory."""

import os
import subprocess
import tempfile
import unittest
from pathlib import Path

HERE = Path(__file__).resolve().parent

# The amounts that don't count differ from those that do.
MEMINFO = """\
MemTotal:       64000000 kB
MemFree:         1000000 kB
MemAvailable:   {} kB
Buffers:         2000000 kB
"""


def jobs(processors: int, kilobytes: int) -> str:
    """Returns what the script prints if `nproc` prints `processors`, with that much memory free."""
    with tempfile.TemporaryDirectory() as name:
        folder = Path(name)
        nproc = folder / "nproc"
        nproc.write_text(f"#!/bin/sh\necho {processors}\n")
        nproc.chmod(0o755)
        meminfo = folder / "meminfo"
        meminfo.write_text(MEMINFO.format(kilobytes))
        return subprocess.run(
            [HERE / "jobs", meminfo],
            check=True,
            env=os.environ | {"PATH": f"{folder}:{os.environ['PATH']}"},
            stdout=subprocess.PIPE,
            text=True,
        ).stdout


class Jobs(unittest.TestCase):
    """One check per processor, if 4 GB are free for each, and at least one."""

    def test_jobs(self) -> None:
        # Processors, free memory in GB, and the number of checks.
        rows = [(4, 22, 4), (2, 22, 2), (8, 22, 5), (1, 2, 1), (16, 3, 1), (4, 16, 4), (4, 15, 3)]
        for processors, gigabytes, expected in rows:
            with self.subTest(processors=processors, gigabytes=gigabytes):
                self.assertEqual(jobs(processors, gigabytes * 1_000_000), f"{expected}\n")

    def test_parts_of_a_gigabyte(self) -> None:
        self.assertEqual(jobs(8, 15_999_999), "3\n")

    def test_this_machine(self) -> None:
        found, processors = (
            int(subprocess.run(command, check=True, stdout=subprocess.PIPE).stdout)
            for command in (HERE / "jobs", "nproc")
        )
        self.assertIn(found, range(1, processors + 1))


if __name__ == "__main__":
    unittest.main()
