#!/usr/bin/env python3
"""Kills the program at random moments and looks at what it left.

    python3 tests/killed_runs.py PROGRAM [--runs 200] [--migrations 200] [--folder .] [--seed 1]

Each run begins from a new journal. A station and a stream of its readings, flags, drops, estimates, corrections, ratings,
periods, measurements, reviews, approvals and rescissions are sent to `batch --journal`, and SIGKILL comes at a random moment
while it answers. Then the journal must hold every edit whose reply was written, byte for byte and in order, and at most one
more; the program must open it again and give the next edit the next number; and the sheet of each day that is approved then
must come back byte for byte, though the day awaits its edit again. Prints a table of what was found, and ends with status 1
at the first run that is not so. 200 runs take about half a minute.

Then `migrate` is killed so, which copies a journal of either format, once to three times over the same copy. After each kill the journal
that is copied must have its bytes, and the copy must not be there, or be what a stop leaves of a making, or hold a front of the records, in
the second format, and never fewer than before. The next run that is not killed must end with status 0, and leave a copy that holds them all
and nothing behind them.

A kill stops the program and not the disk: what the disk keeps at a power cut is what the sync calls ask for, and is not
tested here.
"""
import argparse
import collections
import pathlib
import random
import subprocess
import sys
import tempfile
import threading
import time

import journals

REPLY = b'{"edit":'
EDITS = 4000


def feed(stream, data):
    try:
        stream.write(data)
        stream.close()
    except BrokenPipeError:
        pass


def killed_run(program, journal, chance):
    """Kills one run; the stages that were sent, one for each edit, and how many edits were acknowledged."""
    sent = [chance.randrange(0, 9_000_000) for _ in range(EDITS)]
    subprocess.run([program, "init", "--journal", journal], check=True)
    process = subprocess.Popen(
        [program, "batch", "--journal", journal], stdin=subprocess.PIPE, stdout=subprocess.PIPE
    )
    data = b"".join(journals.settled_request(number, raw) for number, raw in enumerate(sent, 1))
    feeder = threading.Thread(target=feed, args=(process.stdin, data))
    feeder.start()
    stopper = threading.Timer(chance.uniform(0.0, 0.25), process.kill)
    stopper.start()
    replies = process.stdout.read()
    process.wait()
    stopper.cancel()
    feeder.join()
    return sent, replies.count(REPLY), process.returncode


def check(program, journal, sent, acknowledged):
    """What the journal holds beyond what was acknowledged, the bytes behind its closed gate, and how many days it has approved."""
    kept, behind = journals.read(pathlib.Path(journal).read_bytes())
    for number, found in enumerate(kept, 1):
        wanted = journals.payload(number, sent[number - 1])
        if found != wanted:
            raise SystemExit(f"record {number} is {found.hex()}, not {wanted.hex()}")
    more = len(kept) - acknowledged
    if more not in (0, 1):
        raise SystemExit(f"{acknowledged} edits were acknowledged, and {len(kept)} are kept")
    # The next edit, under a reference that no other one has; the station, where nothing was kept.
    approved = journals.approvals(len(kept))
    following = journals.request(EDITS + 1 if kept else 1) + b"".join(map(journals.sheet_request, approved))
    again = subprocess.run([program, "batch", "--journal", journal], input=following, capture_output=True)
    if again.returncode != 0 or REPLY + b"%d," % (len(kept) + 1) not in again.stdout:
        raise SystemExit(f"opened again: status {again.returncode}, {again.stdout!r}, {again.stderr!r}")
    if not again.stdout.endswith(b"".join(map(journals.sheet_reply, approved))):
        raise SystemExit(f"sheets of the approvals {approved}: {again.stdout!r}")
    # The record that was being written, with its gate.
    whole = len(journals.block(len(kept) + 1))
    found = "nothing" if behind == 0 else "a part of a record" if behind < whole else "a record"
    return more, found, len(approved)


def migrated(program, source, copy, kills_at=None):
    """Copies a journal, and kills the copying so many seconds behind its begin; whether it was killed."""
    command = [program, "migrate", "--from", source, "--journal", copy]
    process = subprocess.Popen(command, stdin=subprocess.DEVNULL, stdout=subprocess.PIPE, stderr=subprocess.PIPE)
    try:
        told = process.communicate(timeout=kills_at)
    except subprocess.TimeoutExpired:
        process.kill()
        process.communicate()
        return True
    if process.returncode != 0 or told != (b"", b""):
        raise SystemExit(f"migrate: status {process.returncode}, {told}")
    return False


def copied(copy, wanted):
    """How many records a copy holds, which must be a front of those that are wanted; -1 where it is not there or not yet made."""
    data = copy.read_bytes() if copy.exists() else b""
    if len(data) <= 17 and data != journals.journal([]):
        return -1
    kept, behind = journals.read(data)
    if not data.startswith(journals.HEADER) or kept != wanted[: len(kept)] or (len(kept) == len(wanted) and behind):
        raise SystemExit(f"a copy of {len(kept)} records, which are not a front of those of the journal, and {behind} bytes behind")
    return len(kept)


def killed_migrations(program, place, count, chance):
    """Kills so many copyings; how many copies of which lengths were left."""
    numbers, left = range(1, 401), collections.Counter()
    wanted = [journals.payload(number) for number in numbers]
    if count == 0:
        return left
    source, copy = place / "source", place / "copy"
    source.write_bytes(journals.journal(numbers))
    start = time.monotonic()
    migrated(program, source, copy)
    lasts, kills = time.monotonic() - start, 0
    while kills < count:
        content = journals.journal(numbers, chance.choice([1, 2]))
        source.write_bytes(content)
        copy.unlink(missing_ok=True)
        before = -1
        for _ in range(chance.choice([1, 1, 2, 3])):
            is_killed = migrated(program, source, copy, chance.uniform(0, 1.1 * lasts))
            after = copied(copy, wanted)
            if after < before or source.read_bytes() != content:
                raise SystemExit(f"a copy of {before} records was left with {after}, or the journal was written")
            before = after
            kills += is_killed
            left["not made" if after < 0 else "all" if after == len(wanted) else "none" if after == 0 else "some"] += is_killed
        migrated(program, source, copy)
        if copied(copy, wanted) != len(wanted) or source.read_bytes() != content:
            raise SystemExit("a copying that was not killed did not leave every record")
    return left


def main():
    words = argparse.ArgumentParser()
    words.add_argument("program")
    words.add_argument("--runs", type=int, default=200)
    words.add_argument("--migrations", type=int, default=200)
    words.add_argument("--folder", default=".")
    words.add_argument("--seed", type=int, default=1)
    given = words.parse_args()
    program = str(pathlib.Path(given.program).resolve())
    chance = random.Random(given.seed)
    table = collections.Counter()
    most, least, total, ended, sheets = 0, EDITS, 0, 0, 0
    began = time.monotonic()
    with tempfile.TemporaryDirectory(dir=given.folder) as place:
        for number in range(given.runs):
            journal = str(pathlib.Path(place) / f"journal-{number}")
            sent, acknowledged, status = killed_run(program, journal, chance)
            more, behind, approved = check(program, journal, sent, acknowledged)
            sheets += approved
            table[more, behind] += 1
            most, least, total = max(most, acknowledged), min(least, acknowledged), total + acknowledged
            ended += status == 0
            pathlib.Path(journal).unlink()
        left = killed_migrations(program, pathlib.Path(place), given.migrations, chance)
    if given.migrations > 0 and left["some"] == 0:
        raise SystemExit("no copying was killed between two records: more of them are needed")
    if sheets == 0:
        raise SystemExit("no run came to an approval: more runs are needed")
    print("kept beyond what was acknowledged | behind the closed gate | runs")
    for (more, behind), runs in sorted(table.items()):
        print(f"{more:>33} | {behind:<22} | {runs}")
    if given.migrations > 0:
        print("migrations that were killed, by the records in the copy: " + ", ".join(f"{what} {kills}" for what, kills in sorted(left.items())))
    print(f"{given.runs} runs, {ended} of them ended before the kill; {least} to {most} edits acknowledged, {total} in all")
    print(f"{time.monotonic() - began:.1f} s; every acknowledged edit was kept, each journal was opened again, and {sheets} sheets came back")


if __name__ == "__main__":
    sys.exit(main())
