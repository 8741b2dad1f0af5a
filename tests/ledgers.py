#!/usr/bin/env python3
"""Compares what the built program `ledger` writes of journals with what is read here of their bytes, and makes each journal anew of its requests.

    python3 tests/ledgers.py LEDGER STREAMOFFICE JOURNAL ..

Of each journal the lines of `ledger --edits` are to be those of its records as docs/FORMATS.md has them. Its requests, sent to `batch` over a new
journal, are to be answered with 200 each, and the lines of the new journal are to be those of the old one. Each difference is told, and the status is 1 then.
"""
import datetime
import json
import pathlib
import subprocess
import sys
import tempfile

KINDS = (
    "AddStation SetStation PutReadings DropReadings FlagReadings PutCorrection DropCorrection PutShift DropShift AddRating "
    "PutPeriod DropPeriod PutEstimate DropEstimate PutMeasurement DropMeasurement Review Decide SetEdition"
).split()
FLAGS = ["ok", "erroneous", "affected"]
GRADES = ["excellent", "good", "fair", "poor"]
EPOCH = datetime.datetime(1970, 1, 1)


class Bytes:
    """Bytes that are read from left to right."""

    def __init__(self, data):
        self.data, self.at = data, 0

    def take(self, count):
        piece = self.data[self.at : self.at + count]
        assert len(piece) == count
        self.at += count
        return piece

    def number(self, count, signed=False):
        return int.from_bytes(self.take(count), "little", signed=signed)

    def text(self):
        return self.take(self.number(1)).decode()

    def instant(self):
        return (EPOCH + datetime.timedelta(seconds=self.number(8, True))).strftime("%Y-%m-%dT%H:%M:%SZ")

    def day(self):
        return (EPOCH + datetime.timedelta(days=self.number(4, True))).strftime("%Y-%m-%d")

    def quantity(self):
        units = self.number(8, True)
        return f"{'-' if units < 0 else ''}{abs(units) // 1_000_000}.{abs(units) % 1_000_000:06}"

    def pairs(self, count):
        return [[self.quantity(), self.quantity()] for _ in range(count)]

    def reading(self):
        row, flag = [self.instant(), self.quantity()], self.number(1)
        return row + [FLAGS[flag]] * (flag > 0)

    def optional(self, read):
        return read() if self.number(1) else None


def figures(kind, b):
    """The figures of an edit, in order."""
    entry = lambda: [("at", b.instant()), ("points", b.pairs(b.number(1))), ("prorate", b.number(1) == 1)]
    arrays = lambda: [("gap", b.number(4)), ("stage_array", b.take(10).decode()), ("discharge_array", b.take(10).decode())]
    if kind == "AddStation":
        return [("name", b.text()), ("zone", b.text())] + arrays()
    if kind == "SetStation":
        return [("name", b.text())] + arrays()
    if kind == "PutReadings":
        return [("readings", [b.reading() for _ in range(b.number(4))])]
    if kind == "DropReadings":
        return [("from", b.instant()), ("to", b.instant())]
    if kind == "FlagReadings":
        return [("from", b.instant()), ("to", b.instant()), ("flag", FLAGS[b.number(1)])]
    if kind == "PutCorrection":
        return [("set", b.number(1))] + entry()
    if kind == "DropCorrection":
        return [("set", b.number(1)), ("at", b.instant())]
    if kind == "PutShift":
        return entry()
    if kind == "DropShift":
        return [("at", b.instant())]
    if kind == "AddRating":
        return [("rating", b.number(4)), ("rows", b.pairs(b.number(4)))]
    if kind == "PutPeriod":
        return [("rating", b.number(4)), ("from", b.instant()), ("until", b.optional(b.instant))]
    if kind == "DropPeriod":
        return [("from", b.instant())]
    if kind == "PutEstimate":
        return [("day", b.day()), ("discharge", b.quantity())]
    if kind == "DropEstimate":
        return [("day", b.day())]
    if kind == "PutMeasurement":
        return [("number", b.number(4)), ("at", b.instant()), ("gage", b.quantity()), ("discharge", b.quantity()), ("grade", GRADES[b.number(1)])]
    if kind == "DropMeasurement":
        return [("number", b.number(4))]
    if kind == "Review":
        return [("from", b.day()), ("to", b.day())]
    if kind == "Decide":
        return [("from", b.day()), ("to", b.day()), ("decision", ["approve", "rescind"][b.number(1)])]
    return [("day", b.day()), ("least", b.optional(lambda: b.number(4)))]


def lines_of(data):
    """The lines of a journal's edits."""
    journal, lines = Bytes(data), []
    has_comments = journal.take(16) == b"STREAMOFFICE-J2\n"
    while journal.take(1) == b"\x01":
        b = Bytes(journal.take(journal.number(4)))
        kind, by, reference = KINDS[b.number(1) - 1], b.text(), b.text()
        digits = b.number(1)
        site = str(b.number(8)).zfill(digits)
        comment = b.text() if has_comments else ""
        fields = [str(len(lines) + 1), kind, by, reference, site, comment]
        fields += [f"{name}={json.dumps(value, separators=(',', ':'))}" for name, value in figures(kind, b)]
        lines.append("\t".join(fields) + "\n")
    return "".join(lines).encode()


def run(words, data):
    return subprocess.run(words, input=data, stdout=subprocess.PIPE, check=True).stdout


def differences(ledger, office, path):
    data = path.read_bytes()
    due = lines_of(data)
    if run([ledger, "--edits"], data) != due:
        yield "the lines are not those of the records"
    requests = run([ledger, "--requests"], data)
    with tempfile.TemporaryDirectory() as folder:
        made = pathlib.Path(folder) / "J"
        run([office, "init", "--journal", str(made)], b"")
        replies = run([office, "batch", "--journal", str(made)], requests)
        if replies.count(b"HTTP/1.1 200 OK\r\n") != requests.count(b" HTTP/1.1\r\nContent-Length: "):
            yield "not each request is answered with 200"
        if run([ledger, "--edits"], made.read_bytes()) != due:
            yield "the journal that is made anew has other edits"


def main():
    ledger, office, *names = sys.argv[1:]
    failed = False
    for name in names:
        for told in differences(ledger, office, pathlib.Path(name)):
            print(f"{name}: {told}")
            failed = True
    sys.exit(1 if failed else 0)


if __name__ == "__main__":
    main()
