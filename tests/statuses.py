#!/usr/bin/env python3
"""Runs the commands to each of their statuses, and looks at all three standard streams; status 6 of `init`, of `serve` and of
`trial`, and 12 of `migrate` are not among them.

    python3 tests/statuses.py PROGRAM [--long]

Each case states the status, what is on standard output, and the line on standard error; the script ends with status 1
at the first that differs. The statuses of replies are among them. A name of the program that is no UTF-8, standard streams
that are closed, that can't be read or written, and a journal that another run has open are among the cases. It takes
seconds; with --long also the status that comes after 2^36 bytes of input, which takes a minute or two.
"""
import functools
import json
import os
import pathlib
import resource
import socket
import subprocess
import sys
import tempfile

import journals
import servers
from journals import request, requests

USAGE = b"streamoffice: usage: init, batch, serve, stations or trial\n"
INPUT_FAULT, OUTPUT_FAULT = b"streamoffice: input fault\n", b"streamoffice: output fault\n"
DISK_FAULT, DOOR_FAULT = b"streamoffice: disk fault\n", b"streamoffice: door fault\n"
NOT_A_JOURNAL, EXISTS = b"streamoffice: not a journal\n", b"streamoffice: journal exists\n"
NO_DOCUMENT = b"streamoffice: not a station document\n"
# Journals of no edits, of a station, and of a station with a reading.
EMPTY, STATION, READING = (journals.journal(range(1, edits + 1)) for edits in range(3))
# The same in the first format.
FIRST_EMPTY, FIRST_STATION, FIRST_READING = (journals.journal(range(1, edits + 1), 1) for edits in range(3))


def answer(status, body, allow=b""):
    head = b"HTTP/1.1 %s\r\nContent-Type: application/json\r\n%sContent-Length: %d\r\n\r\n"
    return head % (status, allow, len(body)) + body


def reply(number, repeated=b"false"):
    return answer(b"200 OK", b'{"edit":%d,"repeated":%s}' % (number, repeated))


# What is told of the edit that puts the reading.
ASKED = b'{"by":"%s","comment":"","kind":"PutReadings","ref":"%s","site":"01646500"}' % (
    journals.person(2).encode(),
    journals.reference(2).encode(),
)
MALFORMED = answer(b"400 Bad Request", b'{"code":"Malformed"}')
NO_STATION = answer(b"409 Conflict", b'{"code":"NoStation"}')


class Place:
    """A folder with a journal, where the program runs."""

    def __init__(self, program, folder):
        self.program, self.journal = program, pathlib.Path(folder, "journal")

    def run(self, words, data=b"", before=None, name=None, **streams):
        """Runs the program by these words, under another name where one is given."""
        pipes = {"stdout": subprocess.PIPE, "stderr": subprocess.PIPE, **streams}
        if "stdin" not in streams:
            pipes["input"] = data
        all_words = [self.program if name is None else name, *words]
        done = subprocess.run(all_words, executable=self.program, preexec_fn=before, timeout=60, **pipes)
        return done.returncode, done.stdout or b"", done.stderr or b""

    def on_journal(self, command, content, data=b"", before=None, options=(), **streams):
        """Runs a command over a journal of this content, or over none."""
        self.journal.unlink(missing_ok=True)
        if content is not None:
            self.journal.write_bytes(content)
        return self.run([command, "--journal", str(self.journal), *options], data, before, **streams)

    def content(self):
        return self.journal.read_bytes() if self.journal.exists() else None


@functools.cache
def long_journal():
    """A journal of many edits, for which little memory does not do."""
    return journals.journal(range(1, 400_001))


def expect(what, wanted, got):
    if wanted != got:
        raise SystemExit(f"{what}:\n  wanted {wanted}\n  got    {got}")
    print(f"{what}: {got[0] if isinstance(got, tuple) else 'as wanted'}")


def usage(place):
    name = str(place.journal)
    for words in [
        [],
        ["init"],
        ["batch"],
        ["init", name],
        ["init", "--journal"],
        ["init", "--journal="],
        ["init", "--journal", ""],
        ["init", "--journal", "-j"],
        ["init", "--journal", name, "--journal", name],
        ["init", "--journal", name, "more"],
        ["serve", "--journal", name],
        ["batch", "--journal", name, "--workers", "17"],
        ["serve", "--journal", name, "--port", "0", "--workers", "0", "--connections", "1"],
        ["stations"],
        ["stations", "--number", "1"],
        ["stations", "--journal", name, "--"],
        ["daily", "--journal", name, "--site", "01646500", "--from", "2024-01-05", "--to", "2024-01-04", "--turns", "0"],
        ["water", "--journal", name, "--site", "01646500", "--year", "1900", "--turns", "0"],
        ["import", "--journal", name, "--site", "01646500", "--column", "00065", "--by", "AB", "--ref", "u" * 31],
        ["notes", "--journal", name, *FIELD_DATA["notes"][:2], "--number", "0", *FIELD_DATA["notes"][4:]],
        ["trial"],
        ["trial", "--number", "1234567890"],
        ["--help"],
        [b"init", b"--journal", b"\xff"],
    ]:
        expect(f"{words}", (1, b"", USAGE), place.run(words, request(2)))
        expect("    no journal is made", None, place.content())


def own_name(place):
    """The program's own name is no word of a command: whatever bytes it has, the words behind it are asked as ever."""
    journal, both = str(place.journal), reply(1) + reply(2)
    again = document(("01646500", "s-1"))
    for name in [b"\xff", b""]:
        place.journal.unlink(missing_ok=True)
        for words, data, wanted, after in [
            ([], b"", (1, b"", USAGE), None),
            ([b"init", b"--journal", b"\xff"], b"", (1, b"", USAGE), None),
            (["init", "--journal", journal], b"", (0, b"", b""), EMPTY),
            (["init", "--journal", journal], b"", (8, b"", EXISTS), EMPTY),
            (["batch", "--journal", journal], requests([1, 2]), (0, both, b""), READING),
            (["stations", "--journal", journal], again, (0, b"refused StationExists 01646500\n", b""), READING),
            (["trial", "--number", "1"], b"", (0, figures(1), b""), READING),
        ]:
            expect(f"{words}, the program named {name}", wanted, place.run(words, data, name=name))
            expect("    what is left", after, place.content())


def ends(place):
    """Each status of a command with its cause, and what the journal has then."""
    cut, both = READING[:-1], reply(1) + reply(2)
    for what, command, before, data, wanted, after in [
        ("init", "init", None, b"", (0, b"", b""), EMPTY),
        ("init over a journal that was begun", "init", EMPTY[:9], b"", (0, b"", b""), EMPTY),
        ("init over no edits", "init", EMPTY, b"", (8, b"", EXISTS), EMPTY),
        ("init over an edit", "init", STATION, b"", (8, b"", EXISTS), STATION),
        ("init over no edits, in the first format", "init", FIRST_EMPTY, b"", (8, b"", EXISTS), FIRST_EMPTY),
        ("init over the first format's header alone", "init", FIRST_EMPTY[:-1], b"", (0, b"", b""), EMPTY),
        ("init over another file", "init", b"x" * 18, b"", (5, b"", NOT_A_JOURNAL), b"x" * 18),
        ("batch of nothing", "batch", EMPTY, b"", (0, b"", b""), EMPTY),
        ("batch of a station and a reading", "batch", EMPTY, requests([1, 2]), (0, both, b""), READING),
        ("batch of a reading of no station", "batch", EMPTY, request(2), (0, NO_STATION, b""), EMPTY),
        ("batch in the first format", "batch", FIRST_EMPTY, requests([1, 2]), (0, both, b""), FIRST_READING),
        ("batch on nothing", "batch", None, request(2), (5, b"", NOT_A_JOURNAL), None),
        ("batch on another file", "batch", b"x" * 18, request(2), (5, b"", NOT_A_JOURNAL), b"x" * 18),
        ("batch on a damaged one", "batch", cut, request(2), (5, b"", b"streamoffice: damaged at %d\n" % len(cut)), cut),
        ("batch of no request", "batch", EMPTY, b"x", (9, MALFORMED, b"streamoffice: malformed at 0\n"), EMPTY),
        (
            "batch of a reading and no request",
            "batch",
            STATION,
            request(2) + b"x",
            (9, reply(2) + MALFORMED, b"streamoffice: malformed at %d\n" % len(request(2))),
            READING,
        ),
    ]:
        expect(what, wanted, place.on_journal(command, before, data))
        expect("    what is left", after, place.content())


def served(place):
    """`serve` ends before its first connection where the journal or the port can't be had, and with 0 once its connections were served."""
    words = ["serve", "--journal", str(place.journal), "--workers", "2", "--connections", "1", "--port"]
    cut = READING[:-3]
    with socket.create_server(("127.0.0.1", 0)) as taken:
        port = str(taken.getsockname()[1])
        for what, content, wanted in [
            ("serve on a port that another has", READING, (7, b"", DOOR_FAULT)),
            ("serve on no journal", None, (5, b"", NOT_A_JOURNAL)),
            ("serve on a damaged one", cut, (5, b"", b"streamoffice: damaged at %d\n" % (len(STATION) - 1))),
        ]:
            place.journal.unlink(missing_ok=True)
            if content is not None:
                place.journal.write_bytes(content)
            expect(what, wanted, place.run([*words, port]))
            expect("    what is left", content, place.content())
    place.journal.write_bytes(STATION)
    with servers.Server(place.program, place.journal, 2, 1) as server:
        expect("batch while it serves", (4, b"", DISK_FAULT), place.run(["batch", "--journal", str(place.journal)], request(2)))
        expect("its one connection", reply(2), server.ask(request(2)))
        expect("    and its end", (0, b"", b""), server.close_by_connections())
    expect("    what is left", READING, place.content())


def document(*tables):
    """A document of stations by AB: of each its site and its reference."""
    lines = ["by = 'AB'"]
    for site, reference in tables:
        lines += ["[[station]]", f"site = '{site}'", f"ref = '{reference}'", "name = 'POTOMAC'", "zone = '-05:00'"]
        lines += ["gap = 720", "stage_array = '9999999992'", "discharge_array = '0222233332'"]
    return "\n".join(lines).encode()


def stations(place):
    """Documents of stations over real files, with every stream."""
    two = document(("01646500", "s-1"), ("01638500", "s-2"))
    added = b"edit 1 01646500\nedit 2 01638500\n"
    expect("stations", (0, added, b""), place.on_journal("stations", EMPTY, two))
    kept = place.content()
    expect("stations again", (0, added, b""), place.on_journal("stations", kept, two))
    expect("    what is left", kept, place.content())
    again = document(("01646500", "s-1"), ("01646500", "s-3"))
    told = b"edit 1 01646500\nrefused StationExists 01646500\n"
    expect("stations, one of them twice", (0, told, b""), place.on_journal("stations", EMPTY, again))
    for what, data in [
        ("no document", b"x"),
        ("a document with a bad station", document(("01646500", "s-1"), ("1", "s-2"))),
        ("a document that is too long", two + b" " * 4_194_305),
        ("nothing", b""),
    ]:
        expect(f"stations of {what}", (9, b"", NO_DOCUMENT), place.on_journal("stations", EMPTY, data))
        expect("    what is left", EMPTY, place.content())
    expect("stations on nothing", (5, b"", NOT_A_JOURNAL), place.on_journal("stations", None, b"x"))
    expect("    what is left", None, place.content())
    cut = kept[:-1]
    damaged = (5, b"", b"streamoffice: damaged at %d\n" % len(cut))
    expect("stations on a damaged one", damaged, place.on_journal("stations", cut, two))
    expect("    what is left", cut, place.content())
    got = place.on_journal("stations", EMPTY, before=closed(0))
    expect("stations, stream 0 closed", (2, b"", INPUT_FAULT), got)
    expect("    what is left", EMPTY, place.content())
    place.on_journal("stations", EMPTY, document(("01646500", "s-1")))
    one = place.content()
    got = place.on_journal("stations", EMPTY, two, before=closed(1))
    expect("stations, stream 1 closed", (3, b"", OUTPUT_FAULT), got)
    expect("    what is left: the one whose line was being written", one, place.content())


SITE = ("--site", "01646500")
TABLES = {
    "daily": (*SITE, "--from", "2024-01-05", "--to", "2024-01-05", "--turns", "9"),
    "water": (*SITE, "--year", "2024", "--turns", "9"),
}
HEAD = b"# daily values\nagency_cd\tsite_no\tdatetime\tdischarge\tdischarge_cd\n5s\t15s\t20d\t14n\t10s\n"
MONTHS = zip(b"OCT NOV DEC JAN FEB MAR APR MAY JUN JUL AUG SEP YEAR".split(), [31, 30, 31, 31, 29, 31, 30, 31, 30, 31, 31, 30, 366])
WRITTEN = {
    "daily": HEAD + b"LOCAL\t01646500\t2024-01-05\t\tP\n",
    "water": b"WATER YEAR 2024 01646500\n" + b"".join(b"%s DAYS %d MISSING %d\n" % (m, n, n) for m, n in MONTHS) + b"STATE P\n",
}


def tables(place):
    """Daily values and a water year over real files, with every stream. No input is read, and the journal stays as it is."""
    for command, options in TABLES.items():
        for what, content, wanted, before in [
            ("", STATION, (0, WRITTEN[command], b""), None),
            (", stream 0 closed", STATION, (0, WRITTEN[command], b""), closed(0)),
            (" of no station", EMPTY, (0, b"NO STATION\n", b""), None),
            (", stream 1 closed", STATION, (3, b"", OUTPUT_FAULT), closed(1)),
            (" on nothing", None, (5, b"", NOT_A_JOURNAL), None),
            (" on a damaged one", STATION[:-1], (5, b"", b"streamoffice: damaged at %d\n" % (len(STATION) - 1)), None),
        ]:
            expect(command + what, wanted, place.on_journal(command, content, b"x", before, options))
            expect("    what is left", content, place.content())
        content = long_journal()
        got = place.on_journal(command, content, b"", limit_memory, options)
        expect(f"{command} with little memory", (6, b"", b"streamoffice: out of memory\n"), got)
        expect("    what is left", content, place.content())


# A column of two readings, and notes of three verticals.
NAMES = b"agency_cd\tsite_no\tdatetime\ttz_cd\t00065\n5s\t15s\t20d\t6s\t14n\n"
ROW = b"USGS\t01646500\t2024-01-05 0%d:00\tEST\t%s\n"
UNITS = NAMES + ROW % (1, b"1.00") + ROW % (2, b"Ice") + ROW % (3, b"1.50")
NOTES = b"distance,depth,v2,v6,v8\n0,0,,,\n10,2,,1.5,\n20,0,,,\n"
FIGURES = b"VERTICAL 1 Q 0.000000 SHARE 0.00\nVERTICAL 2 Q 30.000000 SHARE 100.00\nVERTICAL 3 Q 0.000000 SHARE 0.00\nTOTAL 30.000000\n"
FIELD_DATA = {
    "import": (*SITE, "--column", "00065", "--by", "AB", "--ref", "u"),
    "notes": (*SITE, "--number", "1", "--at", "2024-01-05T12:00:00Z", "--gage", "1.5", "--grade", "good", "--by", "AB", "--ref", "n"),
}
# Of each its text, and what is written where the edit is told so; a text of the greatest length that states the same; and a text that is
# refused, with its line.
TEXTS = {
    "import": (
        UNITS,
        b"%s\nreadings 2 skipped 1\n",
        UNITS + b"#" * (67_108_864 - len(UNITS)),
        (13, UNITS + ROW % (4, b"-100001"), b"streamoffice: rdb Range at line 6\n"),
        b"streamoffice: rdb Long at line 0\n",
    ),
    "notes": (
        NOTES,
        FIGURES + b"%s\n",
        NOTES + b"\n" * (1_048_576 - len(NOTES)),
        (14, NOTES + b"30,x,,,\n", b"streamoffice: notes Number at 5\n"),
        b"streamoffice: notes Long at 0\n",
    ),
}


def field_data(place):
    """Unit values and measurement notes over real files, with every stream."""
    for command, options in FIELD_DATA.items():
        text, written, longest, (refused, bad, line), long_line = TEXTS[command]
        done = (0, written % b"edit 2", b"")
        expect(command, done, place.on_journal(command, STATION, text, options=options))
        kept = place.content()
        expect("    what is left begins as before", STATION[:-1], kept[: len(STATION) - 1])
        # the figures of notes come before the edit, the line of readings behind it
        cut = kept if command == "import" else STATION
        for what, content, data, wanted, after, before in [
            (" again", kept, text, done, kept, None),
            (" of the longest text", STATION, longest, done, kept, None),
            (" of no station", EMPTY, text, (0, written % b"refused NoStation", b""), EMPTY, None),
            (", stream 0 closed", STATION, b"", (2, b"", INPUT_FAULT), STATION, closed(0)),
            (", stream 1 closed", STATION, text, (3, b"", OUTPUT_FAULT), cut, closed(1)),
            (" on nothing", None, text, (5, b"", NOT_A_JOURNAL), None, None),
            (" on a damaged one", STATION[:-1], text, (5, b"", b"streamoffice: damaged at %d\n" % (len(STATION) - 1)), STATION[:-1], None),
            (" of a text that is refused", STATION, bad, (refused, b"", line), STATION, None),
            (" of a text that is too long", STATION, longest + b"\n", (refused, b"", long_line), STATION, None),
        ]:
            expect(command + what, wanted, place.on_journal(command, content, data, before, options))
            expect("    what is left", after, place.content())
        out_of_memory = (6, b"", b"streamoffice: out of memory\n")
        content = long_journal()
        expect(f"{command} with little memory", out_of_memory, place.on_journal(command, content, text, limit_memory, options))
        expect("    what is left", content, place.content())
    got = place.on_journal("import", STATION, TEXTS["import"][2], limit_memory, FIELD_DATA["import"])
    expect("import of a text for which there is no memory", out_of_memory, got)
    expect("    what is left", STATION, place.content())


# the total of the trial of a number, as an independent program computes it
TOTALS = {0: 999939745, 1: 721636584, 2: 336616790, 7: 346743574, 999999999: 416354025}


def figures(number):
    return b"stations 4\nedits 68\nlocked 4\npublished 1607\napproved 400\ntotal %d\n" % TOTALS[number]


def trial(place):
    """The trial of a number, which touches no file."""
    place.journal.write_bytes(b"x")
    for number in TOTALS:
        words = ["trial", "--number", str(number)]
        expect(f"{words}", (0, figures(number), b""), place.run(words, b"x"))
    words = ["trial", "--number=000000001"]
    expect(f"{words}", (0, figures(1), b""), place.run(words, b"x"))
    got = place.run(words, before=closed(1))
    expect("trial, stream 1 closed", (3, b"", OUTPUT_FAULT), got)
    expect("    what is left", b"x", place.content())


def post(target, body=b""):
    return b"POST %s HTTP/1.1\r\nContent-Length: %d\r\n\r\n%s" % (target, len(body), body)


def get(target):
    return b"GET %s HTTP/1.1\r\n\r\n" % target


def other(number, **members):
    """The edit of that number with other members."""
    head, body = request(number).split(b"\r\n\r\n")
    return post(b"/edits", json.dumps({**json.loads(body), **members}).encode())


# A day is estimated, reviewed, computed and approved, and then its estimate is put anew; and its sheet.
LOCKING = requests([41, 42, 43]) + other(41, ref="n", discharge="12.5") + journals.sheet_request(43)
LOCKED = (
    reply(3)
    + reply(4)
    + answer(b"200 OK", b'{"pending":0,"published":2}')
    + reply(5)
    + answer(b"423 Locked", b'{"code":"Locked","day":"%s"}' % journals.reviewed_day_text(43).encode())
    + journals.sheet_reply(43)
)


def replies(place):
    """Each status of a reply with its cause, but those of a failing disk and of want of memory."""
    conflict, bad, missing = b"409 Conflict", b"400 Bad Request", b"404 Not Found"
    for what, data, wanted in [
        ("an edit", request(3), reply(3)),
        ("an edit again", request(2), reply(2, b"true")),
        ("another edit under its reference", other(2, by="CD"), answer(conflict, b'{"code":"RefReused","edit":2}')),
        ("a station that is there", other(1, ref="n"), answer(conflict, b'{"code":"StationExists"}')),
        ("a reading of no station", other(3, site="00000001", ref="n"), NO_STATION),
        ("an edit that is no JSON", post(b"/edits", b"{"), answer(bad, b'{"code":"Json"}')),
        ("an edit of no known kind", other(3, kind="Unknown"), answer(bad, b'{"code":"Body","member":"kind"}')),
        ("an ill formed member", other(3, site="1"), answer(bad, b'{"code":"Body","member":"site"}')),
        ("a further member", other(3, more=1), answer(bad, b'{"code":"Body","member":"?"}')),
        ("an edit with a comment", other(3, comment="ok"), reply(3)),
        ("a comment that is none", other(3, comment="a\n"), answer(bad, b'{"code":"Body","member":"comment"}')),
        ("an edit again, with a comment", other(2, comment="ok"), answer(conflict, b'{"code":"RefReused","edit":2}')),
        ("a question of an edit", get(b"/edits/2"), answer(b"200 OK", ASKED)),
        ("a question of no edit", get(b"/edits/3"), answer(missing, b'{"code":"NoEdit"}')),
        ("a POST to the number of an edit", post(b"/edits/2"), not_allowed(b"GET")),
        ("a question of no station", get(b"/stations/00000001"), answer(missing, b'{"code":"NoStation"}')),
        ("no target", get(b"/nothing"), answer(missing, b'{"code":"NoRoute"}')),
        ("no turns", post(b"/turns/0"), answer(missing, b'{"code":"NoRoute"}')),
        ("a POST where GET is due", post(b"/status"), not_allowed(b"GET")),
        ("a GET where POST is due", get(b"/settle"), not_allowed(b"POST")),
        ("a POST without a length", b"POST /settle HTTP/1.1\r\n\r\n", answer(b"411 Length Required", b'{"code":"NoLength"}')),
        ("an edit of an approved day", LOCKING, LOCKED),
        ("a body that is too long", post(b"/edits", b" " * 4_194_305), answer(b"413 Payload Too Large", b'{"code":"TooLarge"}')),
    ]:
        expect(f"reply to {what}", (0, wanted, b""), place.on_journal("batch", READING, data))
    data, wanted = other(3, comment="ok") + request(3), answer(conflict, b'{"code":"NoComments"}') + reply(3)
    expect("reply to a comment in the first format", (0, wanted, b""), place.on_journal("batch", FIRST_READING, data))
    expect("    what is left", journals.journal([1, 2, 3], 1), place.content())


def migrated(place, source, copy, before=None):
    """Copies a journal of this content to one of this content, or to none; the answer, and what the copy has then."""
    path = place.journal.with_name("source")
    place.journal.unlink(missing_ok=True)
    path.unlink(missing_ok=True)
    for each, content in [(path, source), (place.journal, copy)]:
        if content is not None:
            each.write_bytes(content)
    answer = place.run(["migrate", "--from", str(path), "--journal", str(place.journal)], b"x", before)
    expect("    what is copied", source, path.read_bytes() if path.exists() else None)
    return answer, place.content()


def migrations(place):
    """Each status of `migrate` but 12, with its cause, and what the copy has then."""
    others = journals.journal([1, 3])
    for what, source, copy, line, after in [
        ("to nothing", FIRST_READING, None, (0, b""), READING),
        ("of the second format", READING, None, (0, b""), READING),
        ("of no edits", FIRST_EMPTY, None, (0, b""), EMPTY),
        ("to a front of it", FIRST_READING, STATION, (0, b""), READING),
        ("to a copy of it", FIRST_READING, READING, (0, b""), READING),
        ("to what a stopped making leaves", FIRST_READING, EMPTY[:9], (0, b""), READING),
        ("of nothing", None, None, (5, NOT_A_JOURNAL), None),
        ("of another file", b"x" * 18, None, (5, NOT_A_JOURNAL), None),
        ("of a damaged one", FIRST_READING[:-1], None, (5, b"streamoffice: damaged at %d\n" % (len(FIRST_READING) - 1)), None),
        ("to another file", FIRST_READING, b"x" * 18, (5, NOT_A_JOURNAL), b"x" * 18),
        ("to a damaged one", FIRST_READING, STATION[:-1], (5, b"streamoffice: damaged at %d\n" % (len(STATION) - 1)), STATION[:-1]),
        ("to one of the first format", FIRST_READING, FIRST_STATION, (11, b"streamoffice: journals differ at 0\n"), FIRST_STATION),
        ("to one of another edit", FIRST_READING, others, (11, b"streamoffice: journals differ at 2\n"), others),
        ("to one of more edits", FIRST_STATION, READING, (11, b"streamoffice: journals differ at 2\n"), READING),
    ]:
        expect(f"migrate {what}", ((line[0], b"", line[1]), after), migrated(place, source, copy))
    content = journals.journal(range(1, 400_001), 1)
    wanted = ((6, b"", b"streamoffice: out of memory\n"), None)
    expect("migrate with little memory", wanted, migrated(place, content, None, limit_memory))
    name = str(place.journal)
    expect("migrate to itself", (1, b"", USAGE), place.run(["migrate", "--from", name, "--journal", name]))


def not_allowed(method):
    return answer(b"405 Method Not Allowed", b'{"code":"NotAllowed"}', b"Allow: %s\r\n" % method)


def closed(*numbers):
    return lambda: [os.close(number) for number in numbers]


def closed_streams(place):
    """What stands in for a closed stream fails where it is used, and never is the journal."""
    for number in [0, 1, 2]:
        expect(f"init, stream {number} closed", (0, b"", b""), place.on_journal("init", None, before=closed(number)))
        expect("    what is left", EMPTY, place.content())
    for number, wanted, after in [
        (0, (2, b"", INPUT_FAULT), STATION),
        (1, (3, b"", OUTPUT_FAULT), READING),
        (2, (0, reply(2), b""), READING),
    ]:
        got = place.on_journal("batch", STATION, request(2), before=closed(number))
        expect(f"batch, stream {number} closed", wanted, got)
        expect("    what is left", after, place.content())
    expect("init, all closed", (0, b"", b""), place.on_journal("init", None, before=closed(0, 1, 2)))
    expect("    what is left", EMPTY, place.content())
    expect("batch, all closed", (2, b"", b""), place.on_journal("batch", EMPTY, before=closed(0, 1, 2)))
    expect("    what is left", EMPTY, place.content())
    got = place.on_journal("batch", b"x" * 18, before=closed(2))
    expect("batch on another file, stream 2 closed", (5, b"", b""), got)
    expect("    what is left", b"x" * 18, place.content())


def failing_streams(place):
    folder = os.open("/", os.O_RDONLY)
    full = os.open("/dev/full", os.O_WRONLY)
    reader, writer = os.pipe()
    os.close(reader)
    got = place.on_journal("batch", EMPTY, stdin=folder)
    expect("batch, its input a folder", (2, b"", INPUT_FAULT), got)
    got = place.on_journal("batch", STATION, request(2), stdout=full)
    expect("batch, its output full", (3, b"", OUTPUT_FAULT), got)
    expect("    what is left", READING, place.content())
    got = place.on_journal("batch", STATION, request(2), stdout=writer)
    expect("batch, its output without a reader", (3, b"", OUTPUT_FAULT), got)
    got = place.on_journal("batch", EMPTY, b"x", stderr=full)
    expect("batch of no request, its errors full", (9, MALFORMED, b""), got)


def another_run(place):
    """A journal that another run has open is not touched."""
    place.journal.write_bytes(STATION)
    words = [place.program, "batch", "--journal", str(place.journal)]
    with subprocess.Popen(words, stdin=subprocess.PIPE, stdout=subprocess.PIPE) as first:
        first.stdin.write(request(2))
        first.stdin.flush()
        first.stdout.read(len(reply(2)))
        options = {**TABLES, **FIELD_DATA}
        for command in ["init", "batch", "stations", *options]:
            got = place.run([command, "--journal", str(place.journal), *options.get(command, ())], request(2))
            expect(f"{command} beside another run", (4, b"", DISK_FAULT), got)
            expect("    what is left", READING, place.content())
        other = place.journal.with_name("other")
        for what, source, copy, before in [("of", place.journal, other, None), ("to", other, place.journal, FIRST_READING)]:
            if before is not None:
                other.write_bytes(before)
            got = place.run(["migrate", "--from", str(source), "--journal", str(copy)])
            expect(f"migrate {what} the journal of another run", (4, b"", DISK_FAULT), got)
            expect("    what is left of the other one", before, other.read_bytes() if other.exists() else None)
            expect("    what is left", READING, place.content())
        first.stdin.write(request(3))
        first.stdin.close()
        expect("the first run goes on", reply(3), first.stdout.read())
    got = place.run(["batch", "--journal", str(place.journal)], request(4))
    expect("batch behind it", (0, reply(4), b""), got)


def limit_memory():
    resource.setrlimit(resource.RLIMIT_AS, (8 << 20, 8 << 20))


def little_memory(place):
    """A long journal where there is memory for few readings alone."""
    content = long_journal()
    for command, data in [("batch", request(2)), ("stations", document(("01646500", "s-1")))]:
        got = place.on_journal(command, content, data, before=limit_memory)
        expect(f"{command} with little memory", (6, b"", b"streamoffice: out of memory\n"), got)
        expect("    what is left", content, place.content())


def long_input(place):
    place.journal.write_bytes(EMPTY)
    words = [place.program, "batch", "--journal", str(place.journal)]
    block, count = b"\n" * (1 << 20), 1 << 16
    with subprocess.Popen(words, stdin=subprocess.PIPE, stdout=subprocess.PIPE, stderr=subprocess.PIPE) as long:
        for _ in range(count):
            long.stdin.write(block)
        try:
            long.stdin.write(b"\n")
            long.stdin.close()
        except BrokenPipeError:
            pass
        line = long.stderr.read()
        expect("batch of 2^36 bytes and one", (10, b"", b"streamoffice: input too long\n"), (long.wait(), long.stdout.read(), line))


def main():
    if len(sys.argv) not in (2, 3):
        raise SystemExit(__doc__)
    program = str(pathlib.Path(sys.argv[1]).resolve())
    cases = [usage, own_name, ends, served, stations, tables, field_data, trial, replies, migrations, closed_streams, failing_streams, another_run, little_memory]
    for case in cases + [long_input] * ("--long" in sys.argv):
        with tempfile.TemporaryDirectory() as folder:
            case(Place(program, folder))
    print("every status with its cause, and every line on its stream")


if __name__ == "__main__":
    main()
