#!/usr/bin/env python3
"""How long putting and finding a pair in a tree with right links takes, beside an ordered map of std.

Runs `treebench WORK COUNT`, which puts pairs of so many 8-byte keys in no order, and then perhaps
finds each, one operation at a time: in a tree over pages in memory, and in a `BTreeMap`. Takes the
best processor time of three runs, prints the time of one put and of one get, and the ratios.

    bench/tree.py [COUNT]
"""

import sys

from timing import built, seconds


def nanoseconds(program, where, count):
    """Nanoseconds of one put and of one get."""
    put = seconds(program, f"{where}-put", count, 3)
    get = seconds(program, f"{where}-get", count, 3) - put
    return put / count * 1e9, get / count * 1e9


def main():
    count = int(sys.argv[1]) if len(sys.argv) > 1 else 1_000_000
    program = built("treebench", "map-get", "100")
    tree = nanoseconds(program, "tree", count)
    std = nanoseconds(program, "map", count)
    for name, ours, theirs in zip(("put", "get"), tree, std):
        print(f"{name} {ours:7.0f} ns, in the map {theirs:7.0f} ns, ratio {ours / theirs:.2f}")


if __name__ == "__main__":
    main()
