#!/usr/bin/env python3
"""Sends the program hostile heads and bodies, made by chance from good ones, and looks at every reply.

    python3 tests/hostile_streams.py PROGRAM [--messages 1000000] [--seed 1] [--jobs 4] [--under 'valgrind -q --error-exitcode=99']

Each stream is one run of `batch` over a copy of a journal: bodies that are spoilt (bytes changed, left out, put in, doubled, cut;
members renamed; numbers, texts and nesting without measure) behind heads that frame them well, spoilt targets, and at the end in
every other stream a spoilt head. What has to hold of each:

- the program ends with status 0 or, at a spoilt head, 9, and never by a signal, and tells nothing but that line;
- its output is whole replies, each with a status that the formats name for a sound disk and ample memory, and a body of JSON where it is
  said to be JSON;
- each message that is framed well has its one reply, in order: questions about the counts, of which every stream has some among the
  spoilt messages, are answered with counts that never fall, and in many streams rise;
- at status 9 the last reply is that of a malformed message, and the offset that is told lies where the spoilt head begins, or behind it.

The script ends with status 1 at the first stream that is not so, which it keeps in the folder for temporary files. With `--under` the
words stand before the program's (for valgrind some 1,000 messages are enough). A million messages take some minutes.
"""
import argparse
import concurrent.futures
import json
import os
import pathlib
import random
import re
import shlex
import subprocess
import tempfile

from servers import split_reply

SITE = "01646500"
KINDS = {
    "AddStation": {"name": "RIVER", "zone": "-05:00", "gap": 720, "stage_array": "9999999992", "discharge_array": "9999999992"},
    "SetStation": {"name": "RIVER", "gap": 60, "stage_array": "9999999992", "discharge_array": "0222233332"},
    "PutReadings": {"readings": [["2024-01-05T05:00:00Z", "1.25"], ["2024-01-05T06:00:00Z", "-0.5", "affected"]]},
    "DropReadings": {"from": "2024-01-05T05:00:00Z", "to": "2024-01-05T06:00:00Z"},
    "FlagReadings": {"from": "2024-01-05T05:00:00Z", "to": "2024-01-05T06:00:00Z", "flag": "erroneous"},
    "PutCorrection": {"set": 1, "at": "2024-01-01T00:00:00Z", "points": [["0", "0.1"], ["10", "0.2"]], "prorate": True},
    "DropCorrection": {"set": 1, "at": "2024-01-01T00:00:00Z"},
    "PutShift": {"at": "2024-01-01T00:00:00Z", "points": [["0", "0.1"]], "prorate": False},
    "DropShift": {"at": "2024-01-01T00:00:00Z"},
    "AddRating": {"rating": 1, "rows": [["1.00", "10"], ["2.00", "30"]]},
    "PutPeriod": {"rating": 1, "from": "2023-01-01T00:00:00Z", "until": None},
    "DropPeriod": {"from": "2023-01-01T00:00:00Z"},
    "PutEstimate": {"day": "2024-01-05", "discharge": "12.5"},
    "DropEstimate": {"day": "2024-01-05"},
    "PutMeasurement": {"number": 7, "at": "2024-01-05T05:00:00Z", "gage": "1.20", "discharge": "14", "grade": "good"},
    "DropMeasurement": {"number": 7},
    "Review": {"from": "2024-01-05", "to": "2024-01-06"},
    "Decide": {"from": "2024-01-05", "to": "2024-01-06", "decision": "approve"},
    "SetEdition": {"day": "2024-01-05", "least": 720},
}
TARGETS = [f"/stations/{SITE}", f"/stations/{SITE}/days/2024-01-05", f"/stations/{SITE}/days/2024-01-05/sheet",
           f"/stations/{SITE}/daily/2024-01-01/2024-01-31", f"/stations/{SITE}/measurements/7", "/status", "/turns/3", "/settle", "/edits",
           f"/ratings/{SITE}/1/AB/r-1"]
RDB = b"# rating\nINDEP\tDEP\n16N\t16N\n1.00\t10\n2.00\t30\n"
SPOILS = [b"", b"\0", b"\xff", b"\xc3\x28", b"\xed\xa0\x80", b'"', b"\\", b"\\u0000", b"\\ud800", b"{", b"}", b"[", b"]", b",", b":", b"null",
          b"true", b"-", b"1e999", b"-0", b"0.0000001", b"9" * 400, b"18446744073709551616", b"NaN", b"\r\n", b"\r\n\r\n", b" ", b"\t",
          b"[" * 130, b'{"a":' * 130, b"A" * 9000, b"2024-02-30", b"0000-00-00T00:00:00Z", b"9999-12-31T23:59:59Z", b"%00", b"..", b"//"]
HEADS = [b"Content-Length: 5", b"content-length: 00000005", b"Content-Length: +5", b"Content-Length: 123456789", b"Content-Length:",
         b"Transfer-Encoding: chunked", b"Expect: 100-continue", b"Host: a\0b", b"X: " + b"y" * 9000, b": empty", b"A B: c", b" folded"]
COUNTS = b"GET /status HTTP/1.1\r\n\r\n"
STATUSES = {200, 400, 404, 405, 409, 411, 413, 423}


def spoil(chance, text, times):
    """A text with so many changes by chance."""
    for _ in range(times):
        at = chance.randrange(len(text) + 1)
        to = min(len(text), at + chance.choice([0, 1, 1, 2, 5, 40]))
        how = chance.randrange(6)
        if how == 0:
            text = text[:at] + text[to:]
        elif how == 1:
            text = text[:at] + chance.choice(SPOILS) + text[to:]
        elif how == 2:
            text = text[:at] + bytes([chance.randrange(256)]) + text[at + 1:]
        elif how == 3:
            text = text[:at] + text[at:to] * chance.choice([2, 3, 50]) + text[to:]
        elif how == 4:
            text = text[:at]
        elif text:
            place = chance.randrange(len(text))
            text = text[:place] + bytes([text[place] ^ 1 << chance.randrange(8)]) + text[place + 1:]
    return text


def good_body(chance, number):
    kind = chance.choice(list(KINDS))
    members = {"kind": kind, "by": chance.choice(["AB", "CD"]), "ref": f"r-{number}", "site": SITE, **KINDS[kind]}
    if chance.randrange(8) == 0:
        members[chance.choice(list(members))] = chance.choice([None, 0, -1, 10**30, "", "x" * 300, [], {}, [[]], True, "\u00e9\U0001f30a"])
    if chance.randrange(8) == 0:
        members.pop(chance.choice(list(members)))
    if chance.randrange(12) == 0:
        members[chance.choice(["x", "kind ", "KIND", ""])] = 1
    return json.dumps(members, ensure_ascii=chance.choice([True, False])).encode("utf-8", "surrogatepass")


def post(target, body):
    return b"POST %s HTTP/1.1\r\nContent-Length: %d\r\n\r\n" % (target, len(body)) + body


def framed(chance, number):
    """A message that is framed well, whatever it says."""
    how = chance.randrange(10)
    if how < 6:
        return post(b"/edits", spoil(chance, good_body(chance, number), chance.choice([0, 1, 1, 2, 4])))
    if how == 6:
        return post(f"/ratings/{SITE}/{chance.randrange(1, 5)}/AB/q-{number}".encode(), spoil(chance, RDB, chance.choice([0, 1, 2, 4])))
    target = spoil(chance, chance.choice(TARGETS).encode(), chance.choice([0, 1, 2]))
    target = bytes(code for code in target if 33 <= code <= 126)[:2000] or b"/"
    return post(target, b"") if how == 7 else b"GET " + target + b" HTTP/1.1\r\n\r\n"


def spoilt_head(chance):
    """A message whose head may be none."""
    lines = [chance.choice([b"GET /status HTTP/1.1", b"POST /edits HTTP/1.1", b"PUT /edits HTTP/1.0"])]
    lines += chance.choices(HEADS, k=chance.choice([0, 1, 2, 70]))
    return spoil(chance, b"\r\n".join(lines) + b"\r\n\r\n" + b"12345", chance.choice([0, 1, 2, 4]))


def stream_of(chance):
    """The bytes of a stream, which messages of it ask for the counts, how many are framed well, and where the spoilt head begins, if any."""
    parts, asks = [], []
    for number in range(chance.choice([5, 30, 60])):
        if chance.randrange(5) == 0:
            asks.append(len(parts))
            parts.append(COUNTS)
        else:
            parts.append(framed(chance, number))
    asks.append(len(parts))
    parts.append(COUNTS)
    whole = b"".join(parts)
    if chance.randrange(2):
        return whole + spoilt_head(chance) + COUNTS, asks, len(parts), len(whole)
    return whole, asks, len(parts), None


def flaw(stream, asks, framed_well, spoilt, done):
    """What is not as due of a run; nothing where all is."""
    if done.returncode not in ((0,) if spoilt is None else (0, 9)):
        return f"status {done.returncode}"
    told = re.fullmatch(rb"streamoffice: malformed at (\d+)\n", done.stderr)
    if (done.returncode == 9) != bool(told) or (not told and done.stderr):
        return f"status {done.returncode} with the line {done.stderr!r}"
    if told and not spoilt <= int(told[1]) <= len(stream):
        return f"malformed at {int(told[1])}, and what is spoilt begins at {spoilt}"
    replies, rest = [], done.stdout
    while rest:
        split = split_reply(rest)
        if split is None:
            return f"no whole reply: {rest[:200]!r}"
        head, (status, body, rest) = rest.partition(b"\r\n\r\n")[0], split
        if status not in STATUSES:
            return f"a reply of status {status}"
        if b"Content-Type: application/json" in head:
            try:
                json.loads(body)
            except ValueError:
                return f"a body that is no JSON: {body[:200]!r}"
        replies.append((status, body))
    if len(replies) < framed_well or (spoilt is None and len(replies) > framed_well):
        return f"{len(replies)} replies to {framed_well} messages"
    if told and replies[-1] != (400, b'{"code":"Malformed"}'):
        return f"the last reply is {replies[-1]}"
    edits = 1
    for place in asks:
        status, body = replies[place]
        counts = json.loads(body)
        if status != 200 or set(counts) != {"edits", "pending"} or counts["edits"] < edits:
            return f"the counts are {status} {body!r}, and were {edits} before"
        edits = counts["edits"]
    return None


def play(words, journal, seed, messages):
    """Plays streams of so many messages; what was wrong with the first that was not as due, how many were sent, and the statuses of the replies."""
    chance, sent, ended = random.Random(seed), 0, {}
    shelf = "/dev/shm" if os.access("/dev/shm", os.W_OK) else None
    with tempfile.TemporaryDirectory(dir=shelf) as folder:
        place = pathlib.Path(folder, "journal")
        while sent < messages:
            stream, asks, framed_well, spoilt = stream_of(chance)
            place.write_bytes(journal)
            try:
                done = subprocess.run([*words, "batch", "--journal", place], input=stream, capture_output=True, timeout=300)
            except subprocess.TimeoutExpired:
                return "no end within 300 seconds", stream, sent, ended
            what = flaw(stream, asks, framed_well, spoilt, done)
            if what:
                return what, stream, sent, ended
            for found in re.findall(rb"HTTP/1\.1 (\d{3}) ", done.stdout):
                ended[int(found)] = ended.get(int(found), 0) + 1
            ended["accepted"] = ended.get("accepted", 0) + done.stdout.count(b'"repeated":false}')
            sent += framed_well + (spoilt is not None)
    return None, b"", sent, ended


def main():
    parser = argparse.ArgumentParser(description=__doc__.split("\n")[0])
    parser.add_argument("program")
    parser.add_argument("--messages", type=int, default=1_000_000)
    parser.add_argument("--seed", type=int, default=1)
    parser.add_argument("--jobs", type=int, default=os.cpu_count())
    parser.add_argument("--under", default="")
    asked = parser.parse_args()
    program = os.path.abspath(asked.program)
    words = [*shlex.split(asked.under), program]
    with tempfile.TemporaryDirectory() as folder:
        place = pathlib.Path(folder, "journal")
        subprocess.run([program, "init", "--journal", place], check=True)
        station = json.dumps({"kind": "AddStation", "by": "AB", "ref": "first", "site": SITE, **KINDS["AddStation"]}).encode()
        added = subprocess.run([program, "batch", "--journal", place], input=post(b"/edits", station), capture_output=True, check=True)
        if split_reply(added.stdout)[:2] != (200, b'{"edit":1,"repeated":false}'):
            raise SystemExit(f"the station is not added: {added.stdout!r}")
        journal = place.read_bytes()
    share, sent, ended = max(1, min(10_000, asked.messages // asked.jobs)), 0, {}
    with concurrent.futures.ProcessPoolExecutor(asked.jobs) as pool:
        seeds = range(asked.seed * 1_000_000, asked.seed * 1_000_000 + max(1, asked.messages // share))
        for what, stream, count, statuses in pool.map(play, *zip(*((words, journal, seed, share) for seed in seeds))):
            sent += count
            for status, times in statuses.items():
                ended[status] = ended.get(status, 0) + times
            if what:
                kept = pathlib.Path(tempfile.gettempdir(), "hostile_stream")
                kept.write_bytes(stream)
                pool.shutdown(cancel_futures=True)
                raise SystemExit(f"{what}; the stream is in {kept}")
    accepted = ended.pop("accepted", 0)
    print(f"{sent} messages, each as due, {accepted} edits accepted; replies: " + ", ".join(f"{status} {ended[status]}" for status in sorted(ended)))
    if not {200, 400, 404, 409} <= set(ended) or accepted < sent // 1_000:
        raise SystemExit("some sort of reply never came: the streams are no longer what they are to be")


if __name__ == "__main__":
    main()
