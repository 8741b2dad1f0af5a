#!/usr/bin/env python3
"""Plays the runs of crates/run_rows/data against the built program, over real files.

    python3 tests/play_runs.py PROGRAM [FILE ..]

Each row has a folder of its own, in which the journal before is the file `J` and the copy before the file `G`, and its runs come one behind another: their
words, what is on standard input, the exit status, what is on standard output and on standard error, and, behind the last, the bytes of both. A
row with a line `fail`, one at whose doors fewer connections wait than are asked for, and one whose threads cannot be started need an object in
memory, and are not played; nor can be seen here how many calls a disk had, what a cabinet counted and whether an input was read. Connections
are those of a free port of this machine, one behind another. The notation is told in crates/run_rows/src/rows.rt and texts.rt. FILE is a name such as `days.txt`;
without one all of them are played. The script tells each row that is not as due, and ends with status 1 then.
"""
import datetime
import os
import pathlib
import re
import socket
import subprocess
import sys
import tempfile

from servers import free_port, read_all, wait_for

DATA = pathlib.Path(__file__).resolve().parent.parent / "crates/run_rows/data"
STATUSES = {
    "200": "OK",
    "400": "Bad Request",
    "404": "Not Found",
    "405": "Method Not Allowed",
    "409": "Conflict",
    "411": "Length Required",
    "413": "Payload Too Large",
    "423": "Locked",
    "503": "Service Unavailable",
}
KINDS = {
    "json": "application/json",
    "GET": "application/json\r\nAllow: GET",
    "POST": "application/json\r\nAllow: POST",
    "sheet": "text/plain; charset=utf-8",
    "table": "text/csv",
}
ENDS = {"n": "\n", "r": "\r", "t": "\t"}
INSTANT = "%Y-%m-%dT%H:%M:%SZ"


class File:
    """The rows of a file, and what it names."""

    def __init__(self, name):
        lines = (DATA / name).read_text().split("\n")
        self.texts, self.pieces = {}, {}
        for line in lines:
            word, _, rest = line.partition(" ")
            if word in ("text", "let"):
                title, _, value = rest.partition(" ")
                (self.texts if word == "text" else self.pieces)[title] = value
        starts = [place for place, line in enumerate(lines) if line.startswith("== ")]
        ends = starts[1:] + [len(lines)]
        self.rows = [(lines[start][3:], lines[start + 1 : end]) for start, end in zip(starts, ends)]

    def text(self, text, round=0):
        """The bytes of a TEXT, in a round of the lines that are repeated."""
        return self.letters(text, round).encode("latin-1")

    def letters(self, text, round):
        def escaped(match):
            end, code, braced = match.groups()
            return ENDS[end] if end else chr(int(code, 16)) if code else self.braced(braced, round)

        return re.sub(r"\\(?:([nrt])|x([0-9a-f]{2})|\{([^}]*)\})", escaped, text)

    def braced(self, braced, round):
        word, *counted = braced.split(" ")
        if not counted:
            return self.letters(self.texts[word], 0)
        first, behind = counted[0], int(counted[1]) * round
        if word == "number":
            return str(int(first) + behind)
        if word == "instant":
            at = datetime.datetime.strptime(first, INSTANT) + datetime.timedelta(seconds=behind)
            return at.strftime(INSTANT)
        return (datetime.date.fromisoformat(first) + datetime.timedelta(days=behind)).isoformat()

    def bytes(self, words):
        """The bytes of BYTES."""
        known = {"header": b"STREAMOFFICE-J1\n", "second-header": b"STREAMOFFICE-J2\n", "closed": b"\0", "empty": b""}
        return b"".join(known[word] if word in known else bytes.fromhex(self.pieces.get(word, word)) for word in words.split(" "))

    def stream(self, run, mark):
        """The bytes of the lines of a run that begin with this mark."""
        out, rounds, lines = [], 1, []
        for line in [*run, "repeat 1"]:
            if line.startswith("repeat "):
                out += [self.part(each, round) for round in range(rounds) for each in lines]
                rounds, lines = int(line[7:]), []
            elif line.startswith(mark):
                lines.append(line)
        return b"".join(out)

    def part(self, line, round):
        if line[0] == line[1]:
            times, _, text = line[2:].partition(" ")
            return self.text(text, round) * int(times or 1)
        first, second, text = (line[2:].split(" ", 2) + [""])[:3]
        body = self.text(text, round)
        length = f"Content-Length: {len(body)}\r\n"
        if line[0] == ">":
            head = f"{first} {second} HTTP/1.1\r\n{length if first == 'POST' else ''}\r\n"
        else:
            head = f"HTTP/1.1 {first} {STATUSES[first]}\r\nContent-Type: {KINDS[second]}\r\n{length}\r\n"
        return head.encode() + body


def said(lines, word):
    """What stands behind the first of these lines that begins with the word, or nothing."""
    for line in lines:
        if line.startswith(word + " "):
            return line[len(word) + 1 :]
    return None


def runs_of(lines):
    """The runs of a row: of each its lines, the words first."""
    starts = [place for place, line in enumerate(lines) if line == "run" or line.startswith("run ")]
    return [lines[start:end] for start, end in zip(starts, starts[1:] + [len(lines)])]


def shown(value, other):
    """The value; of bytes at most 300, from a little before where they differ from the others."""
    if not isinstance(value, bytes) or not isinstance(other, bytes):
        return value
    begin = max(0, len(os.path.commonprefix([value, other])) - 40)
    return value[begin : begin + 300]


def chosen(texts, got):
    return got if got in texts else texts[0]


def pieces(data, most):
    """The bytes in pieces of at most so many, or whole."""
    size = int(most or len(data) or 1)
    return [data[start : start + size] for start in range(0, len(data), size)]


def needs_memory(lines):
    """Whether a row needs an object that fails, or a thread that cannot be started."""
    return any(line.startswith("fail ") or line in ("handed back", "told streamoffice: door fault\\n") for line in lines)


def parts_of(run):
    """What stands in a run before its connections, and each of these."""
    starts = [place for place, line in enumerate(run) if line == "connection"] + [len(run)]
    return run[: starts[0]], [run[start:end] for start, end in zip(starts, starts[1:])]


class Played:
    """How many runs were played, and how many came as due."""

    def __init__(self, program):
        self.program, self.runs, self.as_due, self.left_out = program, 0, 0, 0

    def file(self, name):
        file = File(name)
        for title, lines in file.rows:
            if needs_memory(lines):
                self.left_out += len(runs_of(lines))
                continue
            with tempfile.TemporaryDirectory() as folder:
                self.row(f"{name}: {title}", file, lines, pathlib.Path(folder))

    def row(self, title, file, lines, folder):
        runs = runs_of(lines)
        for word, name in [("journal", "J"), ("copy", "G")]:
            if said(lines, word) is not None:
                (folder / name).write_bytes(file.bytes(said(lines, word)))
        for place, run in enumerate(runs):
            wanted = self.due(file, run)
            got = self.run(file, run, folder)
            for word, name in [("left", "J"), ("copied", "G")] if place == len(runs) - 1 else []:
                due, path = said(lines, word), folder / name
                if due is not None:
                    wanted[f"what is {word}"] = None if due == "nothing" else file.bytes(due)
                    got[f"what is {word}"] = path.read_bytes() if path.exists() else None
            self.compare(f"{title}, run {place + 1}", wanted, got)

    def due(self, file, run):
        head, connections = parts_of(run)
        given = int(said(head, "given") or 0)
        return {
            "the status": int(said(head, "status")),
            "what is written": self.replies(file, head),
            "what is told": file.text(said(head, "told") or ""),
            "what is written to connections": [self.replies(file, each) for each in connections[:given]],
        }

    def replies(self, file, lines):
        """Each text that may be written."""
        starts = [0] + [place for place, line in enumerate(lines) if line == "or"] + [len(lines)]
        return [file.stream(lines[start:end], "<") for start, end in zip(starts, starts[1:])]

    def run(self, file, run, folder):
        head, connections = parts_of(run)
        given, port = int(said(head, "given") or 0), free_port()
        words = ["" if word == "''" else word for word in head[0].split(" ")[1:]]
        words = [str(port) if before == "--port" else word for before, word in zip([""] + words, words)]
        streams = {name: subprocess.PIPE for name in ("stdin", "stdout", "stderr")}
        with subprocess.Popen([self.program, *words], cwd=folder, **streams) as process:
            written = []
            for each in connections[:given] if given and wait_for(process, port) else []:
                with socket.create_connection(("127.0.0.1", port), timeout=600) as stream:
                    for piece in pieces(file.stream(each, ">"), said(each, "piece")):
                        stream.sendall(piece)
                    stream.shutdown(socket.SHUT_WR)
                    written.append(read_all(stream))
            output, told = process.communicate(file.stream(head, ">"), timeout=600)
        return {"the status": process.returncode, "what is written": output, "what is told": told, "what is written to connections": written}

    def compare(self, title, wanted, got):
        """Compares; where one of several texts may be written, with the one that was, or with the first."""
        wanted["what is written"] = chosen(wanted["what is written"], got["what is written"])
        both = wanted["what is written to connections"], got["what is written to connections"]
        if len(both[0]) == len(both[1]):
            wanted["what is written to connections"] = [chosen(*each) for each in zip(*both)]
        self.runs += 1
        self.as_due += wanted == got
        for what in wanted:
            if wanted[what] != got[what]:
                both = wanted[what], got[what]
                print(f"{title}: {what}:\n  wanted {shown(*both)}\n  got    {shown(*reversed(both))}")


def main():
    if len(sys.argv) < 2:
        raise SystemExit(__doc__)
    played = Played(str(pathlib.Path(sys.argv[1]).resolve()))
    for name in sys.argv[2:] or (DATA / "files.txt").read_text().split():
        played.file(name)
    print(f"{played.as_due} of {played.runs} runs as due; {played.left_out} need an object in memory, and were not played")
    if played.as_due != played.runs or played.runs == 0:
        raise SystemExit(1)


if __name__ == "__main__":
    main()
