#!/usr/bin/env python3
"""Copies a journal by `cp` while a server writes it, and opens each copy.

    python3 tests/copied_journals.py PROGRAM [--copies 400]

Four clients edit the server all the while, with edits of one reading and of a thousand. Each copy has to be a journal of a front of
the office's edits: `batch` opens it and tells by `GET /status` no fewer edits than were acknowledged before `cp` began and no more than
were sent when it had ended, and up to its closed gate its bytes are those with which the journal begins when all is done. The script ends
with status 1 at the first copy or the first reply that is not so; it takes a minute.
"""
import argparse
import http.client
import json
import pathlib
import re
import subprocess
import tempfile
import threading
import time

from journals import HEADER
from servers import Server

SITES = ["00000001", "00000002", "00000003", "00000004"]


class Sender(threading.Thread):
    """A client that puts readings at a site of its own until it is told to stop, and counts what it sent and what was acknowledged."""

    def __init__(self, port, site):
        super().__init__()
        self.line, self.site = http.client.HTTPConnection("127.0.0.1", port, timeout=60), site
        self.sent = self.acknowledged = 0
        self.stops, self.fault = False, None

    def edit(self, **members):
        self.sent += 1
        whole = {"by": "AB", "ref": f"{self.site}-{self.sent}", "site": self.site, **members}
        self.line.request("POST", "/edits", json.dumps(whole))
        reply = self.line.getresponse()
        body = reply.read()
        if reply.status != 200:
            raise ValueError(f"it was answered {reply.status} {body!r}")
        self.acknowledged += 1

    def run(self):
        # What a thread raises ends no script, so it is kept for the one that waits for it.
        try:
            self.put_readings()
        except (OSError, ValueError, http.client.HTTPException) as fault:
            self.fault = f"edit {self.sent} of the client of {self.site}: {fault!r}"

    def put_readings(self):
        self.edit(kind="AddStation", name="COPIED", zone="-05:00", gap=60, stage_array="9999999992", discharge_array="0222233332")
        while not self.stops:
            day = 1 + self.sent % 28
            count = 1_000 if self.sent % 20 == 0 else 1
            times = [(minute // 60, minute % 60) for minute in range(count)]
            stage = "%d.%02d" % (self.sent // 100 % 20, self.sent % 100)
            self.edit(kind="PutReadings", readings=[[f"2024-01-{day:02}T{hour:02}:{minute:02}:00Z", stage] for hour, minute in times])
            # Some hundred edits a second of all, so that the later copies still open in a moment.
            time.sleep(0.03)


def front_of(content):
    """The bytes of a journal up to its closed gate, or as far as they go where it was cut short."""
    place = len(HEADER)
    while content[place : place + 1] == b"\x01":
        place += 5 + int.from_bytes(content[place + 1 : place + 5], "little")
    return content[:place]


def main():
    given = argparse.ArgumentParser()
    given.add_argument("program", type=pathlib.Path)
    given.add_argument("--copies", type=int, default=400)
    given = given.parse_args()
    program = given.program.resolve()
    with tempfile.TemporaryDirectory(prefix="copied-journals-") as folder:
        journal, copy = pathlib.Path(folder) / "j", pathlib.Path(folder) / "copy"
        subprocess.run([program, "init", "--journal", journal], check=True)
        fronts = []
        with Server(program, journal, 2, 100) as server:
            senders = [Sender(server.port, site) for site in SITES]
            for sender in senders:
                sender.start()
            try:
                for _ in range(given.copies):
                    least = sum(it.acknowledged for it in senders)
                    subprocess.run(["cp", journal, copy], check=True)
                    most = sum(it.sent for it in senders)
                    front = front_of(copy.read_bytes())
                    done = subprocess.run([program, "batch", "--journal", copy], input=b"GET /status HTTP/1.1\r\n\r\n", capture_output=True)
                    count = re.search(rb'"edits":(\d+)', done.stdout)
                    if done.returncode != 0 or not count or not least <= int(count[1]) <= most:
                        raise SystemExit(f"a copy of {least} to {most} edits: status {done.returncode}, {done.stderr!r}, {done.stdout[-100:]!r}")
                    fronts.append((len(front), hash(front)))
                    copy.unlink()
                    if any(it.fault for it in senders):
                        break
            finally:
                for sender in senders:
                    sender.stops = True
                for sender in senders:
                    sender.join()
            for fault in (it.fault for it in senders if it.fault):
                raise SystemExit(fault)
        whole = journal.read_bytes()
    for length, of in fronts:
        if hash(whole[:length]) != of:
            raise SystemExit(f"the first {length} bytes of a copy are not those of the journal")
    lengths = {length for length, _ in fronts}
    print(f"{len(fronts)} copies of {len(lengths)} lengths, {min(lengths)} to {max(lengths)} bytes, are journals of a front of the edits")


main()
