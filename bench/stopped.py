#!/usr/bin/env python3
"""Kills a long `exec` again and again, and checks that nothing that it answered is lost.

Adds records through `ctisam DIR exec`, kills it with SIGKILL after a while, and opens the store with
`check`: its last transaction is at least the last one that was answered, and the next run goes on
behind it. Ends with 1 at the first store that lost something.

    bench/stopped.py [ROUNDS]
"""

import pathlib
import random
import subprocess
import sys
import tempfile
import time

TOP = pathlib.Path(__file__).resolve().parent.parent
CREATE = b"CREATE part FIX 8 KEY id UNIQUE SEG REGSEG 0 8\n"


def killed(folder, lines, after):
    """What a run had answered when it was killed."""
    with tempfile.TemporaryFile() as given, tempfile.TemporaryFile() as told:
        given.write(lines)
        given.seek(0)
        run = subprocess.Popen([TOP / "ctisam", folder, "exec"], stdin=given, stdout=told)
        time.sleep(after)
        run.kill()
        run.wait()
        told.seek(0)
        return told.read().count(b"OK ")


def checked(folder):
    """The last transaction's number and the count of records."""
    done = subprocess.run([TOP / "ctisam", folder, "check"], check=True, stdout=subprocess.PIPE)
    front, _files, records = done.stdout.split()[1:]
    return int(front), int(records)


def main():
    rounds = int(sys.argv[1]) if len(sys.argv) > 1 else 20
    with tempfile.TemporaryDirectory(dir=".") as folder:
        store = str(pathlib.Path(folder) / "store")
        subprocess.run([TOP / "ctisam", store, "create", "bench"], check=True, stdout=subprocess.DEVNULL)
        subprocess.run([TOP / "ctisam", store, "exec"], input=CREATE, check=True, stdout=subprocess.DEVNULL)
        front = 1
        for number in range(rounds):
            lines = b"".join(b"ADD part %08d\n" % (front + add) for add in range(5000))
            answered = killed(store, lines, random.uniform(0.05, 0.4))
            now, records = checked(store)
            if not (front + answered <= now and records == now - 1):
                sys.exit(f"round {number}: {answered} answered behind {front}, but the store ends at {now} with {records} records")
            front = now
    print(f"{rounds} kills: nothing that was answered is lost; the store ends at {front}")


if __name__ == "__main__":
    main()
