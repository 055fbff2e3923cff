#!/usr/bin/env python3
"""How long opening a log takes, beside reading its file with `cat`.

Writes logs of ever more commits of one record each, of 8 and of 150 bytes, in the format of
docs/formats.md. Opens each with `ctisam DIR check`, the program itself and not the script that
builds it, and reads it with `cat` into /dev/null. Prints the best of five times of each and their
ratio, both with the file read from the disk, as after a restart, since an opening never takes it
from the page cache; beside it the processor time of the opening, which other work does not lengthen.

    bench/opening.py [COMMITS ..]
"""

import itertools
import os
import pathlib
import resource
import struct
import subprocess
import sys
import tempfile
import time

TOP = pathlib.Path(__file__).resolve().parent.parent
PROGRAM = TOP / "crates" / "ctisam" / "out" / "ctisam"
BLOCK = 128  # numbers
RUNS = 5


def group(number, change):
    """A commit of session 1 with one change."""
    body = struct.pack("<QHBI", number, 1, 0, 1) + change
    return b"\x01" + struct.pack("<I", len(body)) + body


def make(size):
    """A file `part` of images of this size, with one unique index over their first 8 bytes."""
    index = b"\x02id\x00\x00\x00\x01" + struct.pack("<HHBB", 0, 8, 0, 0)
    return b"\x01" + struct.pack("<H", 0) + b"\x04part\x00" + struct.pack("<IIB", size, size, 1) + index


def numbers(size):
    """The numbers that records of this size get: as many to a block as its room of 3,968 bytes has."""
    in_block = min(BLOCK, 3968 // (size + 8))
    block = 0
    while True:
        first = block * BLOCK
        yield from range(max(first, 1), min(max(first, 1) + in_block, first + BLOCK))
        block += 1


def add(number, size):
    return b"\x02" + struct.pack("<HQI", 0, number, size) + (b"%08d" % number).ljust(size, b"-")


def log(count, size):
    """A log whose first commit makes the file, each commit in a chunk of its own."""
    adds = enumerate(itertools.islice(numbers(size), count - 1), 2)
    groups = [group(1, make(size))] + [group(commit, add(number, size)) for commit, number in adds]
    chunks = b"".join(b"\x01" + struct.pack("<I", len(one)) + one for one in groups)
    header = b"CTLOGONE" + struct.pack("<I", 1) + b"bench".ljust(16, b"\x00") + bytes(8) + b"\x01"
    return header.ljust(4096, b"\x00") + bytes(8192) + chunks + b"\x00"


def forget(path):
    """Lets a file leave the page cache, as after a restart."""
    with open(path, "rb") as file:
        os.fsync(file.fileno())
        os.posix_fadvise(file.fileno(), 0, 0, os.POSIX_FADV_DONTNEED)


def best(words, path):
    """The least time of some runs, the least processor time, and what they printed."""
    times, processor = [], []
    for _ in range(RUNS):
        forget(path)
        before = resource.getrusage(resource.RUSAGE_CHILDREN)
        begin = time.monotonic()
        done = subprocess.run(words, check=True, stdout=subprocess.PIPE if words[0] == PROGRAM else subprocess.DEVNULL)
        times.append(time.monotonic() - begin)
        after = resource.getrusage(resource.RUSAGE_CHILDREN)
        processor.append(after.ru_utime + after.ru_stime - before.ru_utime - before.ru_stime)
    return min(times), min(processor), done.stdout


def measure(count, size):
    with tempfile.TemporaryDirectory(dir=".") as folder:
        path = pathlib.Path(folder) / "log.ct"
        path.write_bytes(log(count, size))
        read, _, _ = best(["cat", path], path)
        opened, processor, told = best([PROGRAM, folder, "check"], path)
        assert told == b"OK %d 1 %d\n" % (count, count - 1), told
        print(
            f"{count} commits of {size} bytes: opened in {opened:.3f} s"
            f" ({processor:.3f} s of a processor), read by cat in {read:.4f} s, ratio {opened / read:.0f}"
        )


def main():
    subprocess.run([TOP / "ctisam"], stdout=subprocess.DEVNULL, stderr=subprocess.DEVNULL)  # builds it
    counts = [int(word) for word in sys.argv[1:]] or [1000, 10000, 100000]
    for size in (8, 150):
        for count in counts:
            measure(count, size)


if __name__ == "__main__":
    main()
