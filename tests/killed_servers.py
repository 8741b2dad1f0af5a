#!/usr/bin/env python3
"""Kills the program while it serves several clients, and looks at what its journal has.

    python3 tests/killed_servers.py PROGRAM [--runs 20] [--clients 4] [--workers 2] [--seed 1]

In each run clients send edits of their own station, some of them several in one write, ask for days and settle, until SIGKILL
comes at a random moment. Then `batch` opens the journal and gets every edit once more, and those behind: each edit that was
acknowledged has to be there under the number that was answered, and of the others of a client a front at most, since its edits are
taken in order. The script ends with status 1 at the first run that is not so, and where no edit was acknowledged in all runs.

A kill stops the program and not the disk, as in `killed_runs.py`.
"""
import argparse
import json
import pathlib
import random
import subprocess
import tempfile
import threading

from servers import Server, split_reply

# More edits than a client sends in one write.
AHEAD = 7


def site(client):
    return "0164650%d" % client


def post(target, members):
    body = json.dumps(members, separators=(",", ":")).encode() if members is not None else b""
    return b"POST %s HTTP/1.1\r\nContent-Length: %d\r\n\r\n" % (target, len(body)) + body


def edit(client, number):
    """The request for an edit of a client: the first adds its station, each later one puts a reading."""
    common = {"by": "AB", "ref": f"c{client}-{number}", "site": site(client)}
    if number == 0:
        arrays = {"stage_array": "9999999992", "discharge_array": "9999999992"}
        return post(b"/edits", {"kind": "AddStation", **common, "name": "RIVER", "zone": "-05:00", "gap": 720, **arrays})
    day, minute = divmod(number, 1_440)
    at = "2024-01-%02dT%02d:%02d:00Z" % (1 + day, minute // 60, minute % 60)
    return post(b"/edits", {"kind": "PutReadings", **common, "readings": [[at, "1.%02d" % (number % 100)]]})


def talk(server, client, chance, numbers, wrong):
    """Sends edits until the connection breaks; `numbers` has then what was answered for each, and `wrong` any reply that is not as due."""
    day = b"GET /stations/%s/days/2024-01-01 HTTP/1.1\r\n\r\n" % site(client).encode()
    try:
        with server.connect() as stream:
            kept, number = b"", 0
            while True:
                count = chance.choice([1, 1, 1, 2, 5])
                asked = [("edit", number + step) for step in range(count)] + chance.choice([[], [], [("day", 0)], [("settle", 0)]])
                requests = {"day": lambda _: day, "settle": lambda _: post(b"/settle", None), "edit": lambda n: edit(client, n)}
                stream.sendall(b"".join(requests[kind](place) for kind, place in asked))
                for kind, place in asked:
                    while (reply := split_reply(kept)) is None:
                        part = stream.recv(65_536)
                        if not part:
                            return
                        kept += part
                    status, body, kept = reply
                    if status != 200:
                        wrong.append(f"{kind} {place} of client {client}: {status} {body!r}")
                        return
                    if kind == "edit":
                        numbers.append(json.loads(body)["edit"])
                number += count
    except OSError:
        return


def killed_run(program, folder, chance, clients, workers):
    journal = pathlib.Path(folder, "journal")
    journal.unlink(missing_ok=True)
    subprocess.run([program, "init", "--journal", journal], check=True)
    answered, wrong = [[] for _ in range(clients)], []
    with Server(program, journal, workers, clients) as server:
        seeds = [random.Random(chance.random()) for _ in range(clients)]
        threads = [threading.Thread(target=talk, args=(server, client, seeds[client], answered[client], wrong)) for client in range(clients)]
        for thread in threads:
            thread.start()
        stopper = threading.Timer(chance.uniform(0.05, 1.0), server.process.kill)
        stopper.start()
        for thread in threads:
            thread.join()
        stopper.cancel()
    if wrong:
        raise SystemExit(wrong[0])
    return journal, answered


def check(program, journal, answered):
    """How many edits were acknowledged, and how many the journal has beside them."""
    data = b"".join(edit(client, number) for client, numbers in enumerate(answered) for number in range(len(numbers) + AHEAD))
    again = subprocess.run([program, "batch", "--journal", journal], input=data, capture_output=True)
    if again.returncode != 0:
        raise SystemExit(f"opened again: status {again.returncode}, {again.stderr!r}")
    rest, more, seen = again.stdout, 0, set()
    for client, numbers in enumerate(answered):
        front = True
        for place in range(len(numbers) + AHEAD):
            status, body, rest = split_reply(rest)
            told = json.loads(body)
            if status != 200 or told["edit"] in seen or told["repeated"] and not front:
                raise SystemExit(f"edit {place} of client {client}: {status} {told}")
            seen.add(told["edit"])
            front = told["repeated"]
            if place >= len(numbers):
                more += told["repeated"]
            elif told != {"edit": numbers[place], "repeated": True}:
                raise SystemExit(f"edit {place} of client {client} was answered {numbers[place]}, and is {told}")
    return sum(map(len, answered)), more


def main():
    parser = argparse.ArgumentParser(description=__doc__, formatter_class=argparse.RawDescriptionHelpFormatter)
    parser.add_argument("program", type=lambda path: str(pathlib.Path(path).resolve()))
    parser.add_argument("--runs", type=int, default=20)
    parser.add_argument("--clients", type=int, default=4)
    parser.add_argument("--workers", type=int, default=2)
    parser.add_argument("--seed", type=int, default=1)
    options = parser.parse_args()
    chance = random.Random(options.seed)
    total = 0
    with tempfile.TemporaryDirectory() as folder:
        for run in range(1, options.runs + 1):
            acknowledged, more = check(options.program, *killed_run(options.program, folder, chance, options.clients, options.workers))
            print(f"run {run}: {acknowledged} edits were acknowledged, and the journal has them; {more} more that were not")
            total += acknowledged
    if not total:
        raise SystemExit("no edit was acknowledged in any run")


if __name__ == "__main__":
    main()
