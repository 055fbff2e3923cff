#!/usr/bin/env python3
"""How long an edit of a record page and a fetch of a page in memory take, beside a copy of 4 KiB.

Runs `pagebench WORK COUNT`, which does one kind of work in a loop, for each kind, several times,
and takes the best processor time. The page has 31 records of 100 bytes; `resize` puts images of 96 and of 100 bytes in turn. Prints the time a round and its ratio to
that of the copy. A round of `clear` takes a record out and puts it in again, so its time is halved.

    bench/pages.py [ROUNDS]
"""

import sys

from timing import built, seconds

EDITS = {"copy": 1, "get": 1, "set": 1, "resize": 1, "clear": 2, "fetch": 1}


def nanoseconds(program, work, rounds):
    """Nanoseconds of one round, without the program's start."""
    return (seconds(program, work, rounds, 5) - seconds(program, work, 0, 5)) / rounds / EDITS[work] * 1e9


def main():
    rounds = int(sys.argv[1]) if len(sys.argv) > 1 else 5_000_000
    program = built("pagebench", "set", "62")
    times = {work: nanoseconds(program, work, rounds) for work in EDITS}
    for work, time_of_one in times.items():
        print(f"{work:6} {time_of_one:7.1f} ns, ratio {time_of_one / times['copy']:.2f}")


if __name__ == "__main__":
    main()
