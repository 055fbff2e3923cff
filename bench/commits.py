#!/usr/bin/env python3
"""How long a durable commit takes, beside a plain loop of the same four calls on a file.

Adds records to a new store through `ctisam DIR exec`, one commit each, and then makes the same
calls on a file of its own: a write of the chunk behind its gate, fdatasync, a write of the gate,
fdatasync. Prints both times a commit and their ratio.

    bench/commits.py [COMMITS]
"""

import os
import pathlib
import subprocess
import sys
import tempfile
import time

TOP = pathlib.Path(__file__).resolve().parent.parent
CREATE = b"CREATE part FIX 8 KEY id UNIQUE SEG REGSEG 0 8\n"
CHUNK = 4 + 43 + 1  # length, one group with an Add of 8 bytes, the next gate


def through_ctisam(folder, count):
    """Seconds for so many commits of one record each."""
    subprocess.run([TOP / "ctisam", folder, "create", "bench"], check=True, stdout=subprocess.DEVNULL)
    lines = CREATE + b"".join(b"ADD part %08d\n" % number for number in range(count))
    begin = time.monotonic()
    done = subprocess.run([TOP / "ctisam", folder, "exec"], input=lines, check=True, stdout=subprocess.PIPE)
    seconds = time.monotonic() - begin
    assert done.stdout.count(b"OK ") == count + 1, done.stdout[:200]
    return seconds


def by_plain_calls(folder, count):
    """Seconds for the same calls on a file that nobody reads."""
    file = os.open(pathlib.Path(folder) / "plain", os.O_RDWR | os.O_CREAT)
    place, chunk = 12288, bytes(CHUNK)
    begin = time.monotonic()
    for _ in range(count):
        os.pwrite(file, chunk, place + 1)
        os.fdatasync(file)
        os.pwrite(file, b"\x01", place)
        os.fdatasync(file)
        place += CHUNK
    seconds = time.monotonic() - begin
    os.close(file)
    return seconds


def main():
    count = int(sys.argv[1]) if len(sys.argv) > 1 else 1000
    with tempfile.TemporaryDirectory(dir=".") as folder:
        store = str(pathlib.Path(folder) / "store")
        ours, plain = through_ctisam(store, count), by_plain_calls(folder, count)
    print(f"{count} commits: {ours / count * 1e6:.0f} us each through ctisam, "
          f"{plain / count * 1e6:.0f} us by plain calls, ratio {ours / plain:.2f}")


if __name__ == "__main__":
    main()
