#!/usr/bin/env python3
"""Serves real clients: curl, Python's http.client and urllib, Chromium without a window, and sockets that behave badly.

    python3 tests/real_clients.py PROGRAM [--browser chromium]

A journal is made, `serve` listens with two workers, and each client gets what the formats say. Then come clients that close
early, send half a head, send nothing, or go away with replies unread; those beside them are served all the same, and the program
ends with status 0 and nothing on its streams once it has had all its connections. Needs curl and a Chromium, which Debian has as
packages. The script ends with status 1 at the first answer that is not as due; it takes some 20 seconds.
"""
import argparse
import datetime
import http.client
import json
import os
import pathlib
import shutil
import socket
import struct
import subprocess
import tempfile
import time
import urllib.error
import urllib.request

from servers import Server, split_reply

SITE = "01646500"
STATION = {"kind": "AddStation", "by": "AB", "ref": "st-1", "site": SITE, "name": "POTOMAC", "zone": "-05:00", "gap": 720,
           "stage_array": "9999999992", "discharge_array": "9999999992"}
DAY, SHEET = f"/stations/{SITE}/days/2024-01-05", f"/stations/{SITE}/days/2024-01-05/sheet"
TABLE = f"/stations/{SITE}/daily/2024-01-04/2024-01-06"


def readings(reference, count, first=1_704_430_800):
    """The body of an edit that puts so many readings, a minute apart."""

    def text(place):
        at = datetime.datetime.fromtimestamp(first + 60 * place, datetime.timezone.utc)
        return [at.strftime("%Y-%m-%dT%H:%M:%SZ"), "1.%02d" % (place % 100)]

    members = {"kind": "PutReadings", "by": "AB", "ref": reference, "site": SITE, "readings": [text(place) for place in range(count)]}
    return json.dumps(members, separators=(",", ":")).encode()


def expect(what, wanted, got):
    if wanted != got:
        raise SystemExit(f"{what}:\n  wanted {wanted}\n  got    {got}")
    print(f"{what}: as wanted")


def by_http_client(server):
    """One connection is kept for all requests."""
    client = http.client.HTTPConnection("127.0.0.1", server.port, timeout=30)

    def ask(method, target, body=None):
        client.request(method, target, body)
        reply = client.getresponse()
        return reply.status, reply.read()

    expect("http.client adds a station", (200, b'{"edit":1,"repeated":false}'), ask("POST", "/edits", json.dumps(STATION)))
    expect("http.client puts readings", (200, b'{"edit":2,"repeated":false}'), ask("POST", "/edits", readings("r-1", 10)))
    expect("http.client sends them again", (200, b'{"edit":2,"repeated":true}'), ask("POST", "/edits", readings("r-1", 10)))
    status, body = ask("POST", "/settle")
    expect("http.client settles", (200, 0), (status, json.loads(body)["pending"]))
    status, body = ask("GET", DAY)
    expect("http.client asks for a day", (200, "computed"), (status, json.loads(body)["answer"]))
    expect("http.client asks for nothing there is", 404, ask("GET", "/nothing")[0])
    expect("http.client asks with another method", 405, ask("DELETE", DAY)[0])
    client.close()


def by_urllib(server):
    with urllib.request.urlopen(server.url + DAY, timeout=30) as reply:
        expect("urllib asks for a day", ("computed", "application/json"), (json.load(reply)["answer"], reply.headers["Content-Type"]))
    request = urllib.request.Request(server.url + "/edits", readings("r-2", 3), {"Content-Type": "application/json"})
    with urllib.request.urlopen(request, timeout=30) as reply:
        expect("urllib puts readings", {"edit": 3, "repeated": False}, json.load(reply))
    try:
        urllib.request.urlopen(server.url + "/stations/99999999", timeout=30)
        raise SystemExit("urllib got a station that is none")
    except urllib.error.HTTPError as error:
        expect("urllib asks for a station that is none", 404, error.code)


def curl(*words, data=None):
    done = subprocess.run(["curl", "-sS", "--max-time", "60", *words], input=data, capture_output=True)
    if done.returncode != 0:
        raise SystemExit(f"curl {words}: status {done.returncode}, {done.stderr.decode()}")
    return done.stdout


def by_curl(server, folder):
    expect("curl asks for the counts", 3, json.loads(curl(server.url + "/status"))["edits"])
    expect("curl puts readings", b'{"edit":4,"repeated":false}', curl("-d", "@-", server.url + "/edits", data=readings("r-3", 2)))
    both = curl("-w", "[%{num_connects}]", server.url + "/status", "-o", str(folder / "one"), server.url + DAY, "-o", str(folder / "two"))
    expect("curl asks twice over one connection", b"[1][0]", both)
    big = readings("r-4", 70_000)
    (folder / "big").write_bytes(big)
    expect("the big body has two million bytes", True, len(big) >= 2 * 1024 * 1024)
    expect("curl posts them, with `Expect: 100-continue`", b'{"edit":5,"repeated":false}', curl("--data-binary", f"@{folder / 'big'}", server.url + "/edits"))
    expect("and without", b'{"edit":5,"repeated":true}', curl("-H", "Expect:", "--data-binary", f"@{folder / 'big'}", server.url + "/edits"))
    expect("curl asks with `Connection: close`", 5, json.loads(curl("-H", "Connection: close", server.url + "/status"))["edits"])
    expect("curl asks by HTTP/1.0", 5, json.loads(curl("-0", server.url + "/status"))["edits"])
    expect("curl asks for the head alone", b"HTTP/1.1 405", curl("-I", server.url + "/status")[:12])
    (folder / "too big").write_bytes(bytes(20 * 1024 * 1024))
    head = curl("-o", "/dev/null", "-w", "%{http_code}", "--data-binary", f"@{folder / 'too big'}", server.url + "/edits")
    expect("curl posts a body over the limit", b"413", head)


class Browser:
    """Chromium without a window, told what to do over two pipes, as its DevTools protocol has it."""

    def __init__(self, path, folder):
        to_browser, self.writes = os.pipe()
        self.reads, from_browser = os.pipe()

        def place():
            # The browser reads its descriptor 3 and writes its descriptor 4.
            both = os.dup(to_browser), os.dup(from_browser)
            os.dup2(both[0], 3)
            os.dup2(both[1], 4)

        words = [path, "--headless", "--no-sandbox", "--disable-gpu", f"--user-data-dir={folder / 'profile'}", "--remote-debugging-pipe"]
        self.process = subprocess.Popen(words, preexec_fn=place, close_fds=False, stdout=subprocess.DEVNULL, stderr=subprocess.DEVNULL)
        os.close(to_browser)
        os.close(from_browser)
        self.kept, self.number = b"", 0
        self.call("Browser.setDownloadBehavior", behavior="allow", downloadPath=str(folder / "kept"))
        target = self.call("Target.createTarget", url="about:blank")["targetId"]
        self.session = self.call("Target.attachToTarget", targetId=target, flatten=True)["sessionId"]

    def call(self, method, session=None, **parameters):
        self.number += 1
        message = {"id": self.number, "method": method, "params": parameters, **({"sessionId": session} if session else {})}
        os.write(self.writes, json.dumps(message).encode() + b"\0")
        while True:
            while b"\0" not in self.kept:
                part = os.read(self.reads, 65_536)
                if not part:
                    raise SystemExit("the browser has ended")
                self.kept += part
            answer, _, self.kept = self.kept.partition(b"\0")
            answer = json.loads(answer)
            if answer.get("id") == self.number:
                return answer["result"]

    def open(self, url):
        self.call("Page.navigate", self.session, url=url)

    def text(self, wanted):
        """What the page shows, once it has what is wanted or ten seconds are over."""
        for _ in range(200):
            shown = self.call("Runtime.evaluate", self.session, expression="document.body ? document.body.innerText : ''")["result"].get("value", "")
            if wanted in shown:
                break
            time.sleep(0.05)
        return shown


def by_browser(server, path, folder):
    browser = Browser(path, folder)
    try:
        look(server, browser, folder)
    finally:
        browser.process.kill()
        browser.process.wait()


def look(server, browser, folder):
    curl("-d", "", server.url + "/settle")
    for what, target, wanted in [("a day", DAY, '"answer":"computed"'), ("a sheet", SHEET, "PRIMARY COMPUTATION 01646500 2024-01-05")]:
        browser.open(server.url + target)
        expect(f"the browser shows {what}", True, wanted in browser.text(wanted))
    # Lines with commas between are kept as a file by a browser.
    (folder / "kept").mkdir()
    browser.open(server.url + TABLE)
    due = curl(server.url + TABLE)
    for _ in range(200):
        files = [file.read_bytes() for file in (folder / "kept").iterdir()]
        if files == [due]:
            break
        time.sleep(0.05)
    expect("the browser keeps a daily table", [due], files)


def by_bad_clients(server):
    idle = server.connect()
    half = server.connect()
    half.sendall(b"GET /status HT")
    with server.connect() as early:
        early.sendall(b"POST /edits HTTP/1.1\r\nContent-Length: 1000\r\n\r\n{")
    with server.connect() as unread:
        unread.setsockopt(socket.SOL_SOCKET, socket.SO_LINGER, struct.pack("ii", 1, 0))
        unread.sendall(b"GET /status HTTP/1.1\r\n\r\n" * 1_000)
    expect("what is no request is told so", 400, split_reply(server.ask(b"\x16\x03\x01\n\n"))[0])
    expect("a body without a length is told so", 411, split_reply(server.ask(b"POST /edits HTTP/1.1\r\n\r\n"))[0])
    pipelined = server.ask(b"GET /status HTTP/1.1\r\n\r\n" * 50)
    expect("fifty requests in one write have fifty replies", 50, pipelined.count(b"HTTP/1.1 200 OK\r\n"))
    with server.connect() as slow:
        for byte in b"GET /status HTTP/1.1\r\n\r\n":
            slow.sendall(bytes([byte]))
        slow.shutdown(socket.SHUT_WR)
        expect("a request byte by byte has its reply", b"HTTP/1.1 200", slow.recv(12))
    expect("with all these about, curl is served", 5, json.loads(curl(server.url + "/status"))["edits"])
    idle.close()
    half.close()


def main():
    parser = argparse.ArgumentParser(description=__doc__, formatter_class=argparse.RawDescriptionHelpFormatter)
    parser.add_argument("program", type=lambda path: str(pathlib.Path(path).resolve()))
    parser.add_argument("--browser", default=shutil.which("chromium") or shutil.which("chromium-browser"))
    options = parser.parse_args()
    if not shutil.which("curl") or not options.browser:
        raise SystemExit("curl and a Chromium have to be there")
    with tempfile.TemporaryDirectory() as name:
        folder = pathlib.Path(name)
        journal = folder / "journal"
        subprocess.run([options.program, "init", "--journal", journal], check=True)
        with Server(options.program, journal, 2, 400) as server:
            by_http_client(server)
            by_urllib(server)
            by_curl(server, folder)
            by_bad_clients(server)
            by_browser(server, options.browser, folder)
            expect("all its connections had, the program ends", (0, b"", b""), server.close_by_connections())
        kept = subprocess.run([options.program, "batch", "--journal", journal], input=b"GET /status HTTP/1.1\r\n\r\n", capture_output=True)
        expect("and the journal has the edits", 5, json.loads(split_reply(kept.stdout)[1])["edits"])


if __name__ == "__main__":
    main()
