#!/usr/bin/env python3
"""Kills `import` at random moments, sends the same text once more, and looks at what the journal has.

    python3 tests/killed_imports.py PROGRAM [--kills 100] [--rows 330000] [--folder .] [--seed 1]

Each run begins from a journal of one station. Unit values of so many rows, which make an edit for each 100,000 readings, are sent to
`import`, and SIGKILL comes once to three times over the same journal: a third of them at a random moment, the others where the journal
has come to a random length, since most of the time goes to the text. After each kill the journal must hold a front of the edits of the
text, byte for byte, at most one of them beyond those that were told. Then the whole text is imported: all edits must be told under their
numbers, with the counts of readings and of skipped rows, and the journal must hold each edit exactly once, in order. Imported once more,
it must say the same and leave every byte of the journal. Prints how many edits the killed runs left, and ends with status 1 at the first
run that is not so, and where no kill came between two edits. 100 kills take some minutes.

A kill stops the program and not the disk, as in `killed_runs.py`.
"""
import argparse
import collections
import pathlib
import random
import subprocess
import sys
import tempfile
import time

import imports
import journals


def began(program, journal):
    """Makes a journal of one station."""
    subprocess.run([program, "init", "--journal", journal], check=True)
    subprocess.run([program, "batch", "--journal", journal], input=journals.request(1), stdout=subprocess.DEVNULL, check=True)


def told(count):
    """The lines of so many edits, behind the one that adds the station."""
    return b"".join(b"edit %d\n" % (2 + number) for number in range(count))


def killed(program, journal, text, is_due):
    """Imports the text and kills the program once it is due; what it told, and whether it was killed."""
    with text.open("rb") as source:
        process = subprocess.Popen(imports.words(program, journal), stdin=source, stdout=subprocess.PIPE, stderr=subprocess.PIPE)
        while process.poll() is None and not is_due():
            time.sleep(0.0002)
        process.kill()
        output, errors = process.communicate()
    if errors:
        raise SystemExit(f"a killed import wrote {errors!r}")
    return output, process.returncode < 0


def moment(chance, lasts, journal, least, most):
    """When an import is killed: at a moment of so many seconds, or once the journal has a length between these."""
    if chance.random() < 1 / 3:
        end = time.monotonic() + chance.uniform(0, 1.1 * lasts)
        return lambda: time.monotonic() >= end
    length = chance.randint(least + 1, most)
    return lambda: journal.stat().st_size >= length


def edits_left(journal, wanted, before):
    """How many edits of the text a journal has, which must be a front of them, and the bytes behind its closed gate."""
    kept, behind = journals.read(journal.read_bytes())
    if kept[:1] != [before] or kept[1:] != wanted[: len(kept) - 1]:
        raise SystemExit(f"the journal has {len(kept)} records, which are not the station and the first edits of the text")
    return len(kept) - 1, behind


def whole(program, journal, text, due):
    """Imports the text, and is told all of it."""
    with text.open("rb") as source:
        run = subprocess.run(imports.words(program, journal), stdin=source, capture_output=True)
    if (run.returncode, run.stdout, run.stderr) != (0, due, b""):
        raise SystemExit(f"a whole import: status {run.returncode}, {run.stdout!r}, {run.stderr!r}")


def main():
    words = argparse.ArgumentParser(description=__doc__, formatter_class=argparse.RawDescriptionHelpFormatter)
    words.add_argument("program", type=lambda path: str(pathlib.Path(path).resolve()))
    words.add_argument("--kills", type=int, default=100)
    words.add_argument("--rows", type=int, default=330_000)
    words.add_argument("--folder", default=".")
    words.add_argument("--seed", type=int, default=1)
    given = words.parse_args()
    chance = random.Random(given.seed)
    readings = imports.rows(given.rows)
    parts = imports.chunks(readings)
    wanted = [imports.payload(number, part) for number, part in enumerate(parts, 1)]
    due = told(len(wanted)) + b"readings %d skipped %d\n" % (len(readings), given.rows - len(readings))
    table, kills, runs, ended = collections.Counter(), 0, 0, 0
    start = time.monotonic()
    with tempfile.TemporaryDirectory(dir=given.folder) as folder:
        journal, text = pathlib.Path(folder, "journal"), pathlib.Path(folder, "text")
        text.write_bytes(imports.text(given.rows))
        began(given.program, journal)
        empty = journal.read_bytes()
        (before,), _ = journals.read(empty)
        begun = time.monotonic()
        whole(given.program, journal, text, due)
        lasts, most = time.monotonic() - begun, journal.stat().st_size
        while kills < given.kills:
            journal.write_bytes(empty)
            runs, already = runs + 1, 0
            for _ in range(chance.choice([1, 1, 2, 3])):
                output, is_killed = killed(given.program, journal, text, moment(chance, lasts, journal, len(empty), most))
                left, behind = edits_left(journal, wanted, before)
                lines = output.count(b"edit ")
                if not due.startswith(output) or not lines <= left <= max(lines, already) + 1 or left < already:
                    raise SystemExit(f"{output!r} was told, {already} edits were kept before, and {left} are")
                already = left
                kills, ended = kills + is_killed, ended + (not is_killed)
                table[left, lines, "a part of a record" if behind else "nothing"] += is_killed
            whole(given.program, journal, text, due)
            if edits_left(journal, wanted, before)[0] != len(wanted):
                raise SystemExit("a whole import did not leave each edit of the text")
            kept = journal.read_bytes()
            whole(given.program, journal, text, due)
            if journal.read_bytes() != kept:
                raise SystemExit("the same text once more changed the journal")
    print("edits left | of them told in that run | behind the closed gate | kills")
    for (left, lines, behind), count in sorted(table.items()):
        if count:
            print(f"{left:>10} | {lines:>24} | {behind:<22} | {count}")
    print(f"{kills} kills in {runs} runs, {ended} imports ended before theirs; {len(wanted)} edits of {len(readings)} readings each time")
    print(f"{time.monotonic() - start:.1f} s; every text was there once in the end, and nothing changed the time after")
    if not any(count for (left, _, _), count in table.items() if 0 < left < len(wanted)):
        raise SystemExit("no kill came between two edits: more kills are needed")


if __name__ == "__main__":
    sys.exit(main())
