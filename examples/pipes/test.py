#!/usr/bin/env python3
"""Runs the proxy over pipes, and compares the answers that it received with those of the batch run:
`test.py PROGRAM`.

Over named pipes, and over TCP with socat. Ends with status 1 if they differ, or if socat isn't
installed.
"""

import os
import pathlib
import shutil
import socket
import subprocess
import sys
import tempfile
import time

HERE = pathlib.Path(__file__).resolve().parent
PROXY = [sys.executable, str(HERE / "proxy.py")]
LIMIT = 60  # seconds


def compared(program, folder, received):
    """Returns whether the batch run gives the answers of the proxy, some of them conflicts."""
    batch = subprocess.run(
        [program, folder / "kept"], capture_output=True, text=True, timeout=LIMIT, check=True
    )
    return batch.stdout == received and "conflict" in received and "committed" in received


def over_pipes(program, folder):
    for name in ("batches", "records"):
        os.mkfifo(folder / name)
    args = [program, "--stream", "--replies", folder / "records", folder / "batches"]
    with subprocess.Popen(args, stdout=subprocess.PIPE, text=True) as run:
        words = [*PROXY, folder / "batches", folder / "records", "--keep", folder / "kept"]
        proxy = subprocess.run(words, capture_output=True, text=True, timeout=LIMIT, check=True)
        lines = run.communicate(timeout=LIMIT)[0]
    return run.returncode == 0 and lines == proxy.stderr and compared(program, folder, proxy.stderr)


def free_port():
    with socket.socket() as one:
        one.bind(("localhost", 0))
        return one.getsockname()[1]


def over_tcp(program, folder):
    port = free_port()
    serve = f"{program} --stream --replies /dev/fd/3 - 3>&1 >{folder}/lines"
    client = f"{' '.join(PROXY)} - - --keep {folder}/kept 2>{folder}/received"
    with subprocess.Popen(
        ["socat", f"TCP-LISTEN:{port},reuseaddr", f"SYSTEM:{serve},pipes"]
    ) as server:
        time.sleep(0.5)
        subprocess.run(
            ["socat", "-t", "10", f"TCP:localhost:{port}", f"SYSTEM:{client}"],
            timeout=LIMIT,
            check=True,
        )
        server.wait(LIMIT)
    received = (folder / "received").read_text()
    return (folder / "lines").read_text() == received and compared(program, folder, received)


def main():
    program = os.path.abspath(sys.argv[1])
    if not shutil.which("socat"):
        sys.exit("test.py: socat is missing, a Debian package")
    failed = False
    for name, test in (("named pipes", over_pipes), ("TCP", over_tcp)):
        with tempfile.TemporaryDirectory() as folder:
            same = test(program, pathlib.Path(folder))
        failed |= not same
        print(
            f"{name}: 8 clients, the batch run gives {'the same' if same else 'other'} answers",
            flush=True,
        )
    return failed


if __name__ == "__main__":
    sys.exit(main())
