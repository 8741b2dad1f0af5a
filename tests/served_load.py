#!/usr/bin/env python3
"""How many requests a second the server answers, and what it keeps open meanwhile.

    python3 tests/served_load.py PROGRAM [--beside PROGRAM] [--workers 0,2,8] [--seconds 10] [--connections 64] [--short 10000]

`wrk` (Debian's package) asks for days and puts single readings over so many connections, once for each number of workers, of
the one program and then of the other in the same minute: requests a second, the 99th percentile and the errors of each. Then
so many short connections come one after another, each with one request: all have to be answered, and the descriptors, threads and
memory of the program are told while it runs. The script ends with status 1 where a request failed.
"""
import argparse
import datetime
import json
import pathlib
import re
import shutil
import subprocess
import tempfile
import time

from servers import Server, split_reply

SITE = "01646500"
SCRIPT = """
local number, base = 0, 0
function setup(thread) base = base + 1; thread:set("base", base) end
function request()
  number = number + 1
  if number % 2 == 0 then
    return wrk.format("GET", string.format("/stations/%s/days/2024-01-%02d", "SITE", 1 + number / 2 % 28))
  end
  local minute = number % 40000
  local at = os.date("!%Y-%m-%dT%H:%M:%SZ", 1704067200 + 60 * minute)
  local body = string.format('{"kind":"PutReadings","by":"AB","ref":"w%d-%d","site":"SITE","readings":[["%s","1.%02d"]]}', base, number, at, number % 100)
  return wrk.format("POST", "/edits", nil, body)
end
function done(summary, latency)
  io.write(string.format("RESULT %d %d %d %d %d\\n", summary.requests, summary.duration, latency:percentile(99),
    summary.errors.connect + summary.errors.read + summary.errors.write + summary.errors.timeout, summary.errors.status))
end
""".replace("SITE", SITE)


def station():
    members = {"kind": "AddStation", "by": "AB", "ref": "st-1", "site": SITE, "name": "POTOMAC", "zone": "-05:00", "gap": 720,
               "stage_array": "9999999992", "discharge_array": "9999999992"}
    body = json.dumps(members, separators=(",", ":")).encode()
    return b"POST /edits HTTP/1.1\r\nContent-Length: %d\r\n\r\n" % len(body) + body


def begin(program, folder, name):
    journal = pathlib.Path(folder, name)
    journal.unlink(missing_ok=True)
    subprocess.run([program, "init", "--journal", journal], check=True)
    subprocess.run([program, "batch", "--journal", journal], input=station(), check=True, capture_output=True)
    return journal


def by_wrk(program, folder, workers, options):
    script = pathlib.Path(folder, "requests.lua")
    script.write_text(SCRIPT)
    with Server(program, begin(program, folder, "loaded"), workers, 10_000) as server:
        words = ["wrk", "-t", "2", "-c", str(options.connections), "-d", f"{options.seconds}s", "-s", str(script), server.url]
        done = subprocess.run(words, capture_output=True, text=True)
        found = re.search(r"RESULT (\d+) (\d+) (\d+) (\d+) (\d+)", done.stdout)
        if not found:
            raise SystemExit(done.stdout + done.stderr)
        requests, micros, tail, broken, refused = map(int, found.groups())
        memory, threads = server.counted("memory"), server.counted("threads")
    rate = requests * 1_000_000 / micros
    print(f"{workers} workers: {rate:8.0f} requests a second, 99 % within {tail / 1000:6.1f} ms, {broken} connections broken, "
          f"{refused} replies not 200; {threads} threads, {memory} KiB", flush=True)
    return broken + refused + (requests == 0)


def by_short_connections(program, folder, count):
    failed, most, begun = 0, {"descriptors": 0, "threads": 0, "memory": 0}, time.time()
    with Server(program, begin(program, folder, "short"), 0, count) as server:
        for number in range(count):
            reply = split_reply(server.ask(b"GET /status HTTP/1.1\r\n\r\n"))
            failed += not reply or reply[0] != 200
            if number % 500 == 499 and number + 1 < count:
                most = {what: max(most[what], server.counted(what)) for what in most}
        output, errors = server.process.communicate(timeout=60)
        ended = (server.process.returncode, output, errors)
    print(f"{count} short connections in {time.time() - begun:.0f} s: {failed} failed, at most {most['descriptors']} descriptors, "
          f"{most['threads']} threads, {most['memory']} KiB; it ended with {ended[0]}", flush=True)
    return failed + (ended != (0, b"", b""))


def main():
    parser = argparse.ArgumentParser(description=__doc__, formatter_class=argparse.RawDescriptionHelpFormatter)
    parser.add_argument("program", type=lambda path: str(pathlib.Path(path).resolve()))
    parser.add_argument("--beside", type=lambda path: str(pathlib.Path(path).resolve()))
    parser.add_argument("--workers", default="0,2,8", type=lambda text: [int(word) for word in text.split(",")])
    parser.add_argument("--seconds", type=int, default=10)
    parser.add_argument("--connections", type=int, default=64)
    parser.add_argument("--short", type=int, default=10_000)
    options = parser.parse_args()
    if not shutil.which("wrk"):
        raise SystemExit("wrk has to be there")
    wrong = 0
    print(datetime.datetime.now().isoformat(timespec="seconds"))
    with tempfile.TemporaryDirectory() as folder:
        programs = [program for program in (options.program, options.beside) if program]
        for workers in options.workers:
            for program in programs:
                print(f"{pathlib.Path(program).name}, ", end="")
                failed = by_wrk(program, folder, workers, options)
                wrong += failed if program == options.program else 0
        if options.short:
            for program in programs:
                print(f"{pathlib.Path(program).name}, ", end="")
                failed = by_short_connections(program, folder, options.short)
                wrong += failed if program == options.program else 0
    if wrong:
        raise SystemExit(f"{wrong} failed")


if __name__ == "__main__":
    main()
