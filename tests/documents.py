#!/usr/bin/env python3
"""Plays what the documents show, and compares it with what they say comes.

    python3 tests/documents.py PROGRAM [README.md docs/TOUR.md docs/HTTP.md docs/OPERATING.md]

Each document is gone through in a folder of its own in which `examples` and `run.sh` are those of the checkout and `streamoffice` is
PROGRAM. A block `sh` or `python` is run, and the plain block that directly follows it has to be its standard output. A block that starts `serve`
goes on beside the others, and port 8080 is a free one; a block `python` without output stands before the later ones. A table whose first
column is headed `Request` has the lines of that output, or else the bodies of the replies to the session in `examples/sessions` that was named
last before it; one that is `below` is the next plain block. Any other plain block in a document that names sessions has to be a whole request, the body
of one, or a whole reply of the session that was named last before it, or of the first one where none was: its lines without the CR that HTTP has in a head.

Not played, and told with their lines: blocks that ask `rt`, `git`, `bring`, `ledger` or `draw`, that name a user of the machine or that run a script of `tests`, the plain block behind
such a block, blocks of any other kind (files of settings), and plain blocks in a document without sessions that follow no run (drawings).
What the text says between the blocks is not compared, nor are tables of another first column. The script ends with status 1 at the first text that does
not come; it takes seconds, and needs curl.
"""
import argparse
import os
import pathlib
import re
import shutil
import subprocess
import sys
import tempfile

from servers import free_port, wait_for

TOP = pathlib.Path(__file__).resolve().parent.parent
PLAYED = ("README.md", "docs/TOUR.md", "docs/HTTP.md", "docs/OPERATING.md")
EMPTY = TOP / "examples/empty_journal"
# What a block asks for that is not run.
ELSEWHERE = re.compile(r"^\s*(\w+=\S+ )*(\S+ \| |\()?(rt|git|cd|bring|ledger|draw|useradd) |tests/", re.M)


def parts(text):
    """The document as its blocks (kind, number of the line, text), its tables of requests and the sessions that it names, in order."""
    lines, place = text.splitlines(), 0
    while place < len(lines):
        line, start = lines[place], place + 1
        if line.startswith("```"):
            end = lines.index("```", start)
            has_output = lines[end + 1 : end + 2] == [""] and re.match(r"```$|\| Request \|", "".join(lines[end + 2 : end + 3])) is not None
            yield line[3:] or "plain", start, "".join(it + "\n" for it in lines[start:end]), has_output
            place = end
        elif line.startswith("| Request |"):
            while place + 1 < len(lines) and lines[place + 1].startswith("|"):
                place += 1
            rows = [it.strip("|").split(" | ")[-1].strip() for it in lines[start + 1 : place + 1]]
            yield "table", start, rows, False
        else:
            for name in re.findall(r"`(examples/sessions/\w+\.http)`", line):
                yield "session", start, name, False
        place += 1


def messages(data):
    """The requests or the replies that stand in these bytes one behind another, each as its head and its body."""
    while data:
        head, gap, data = data.partition(b"\r\n\r\n")
        length = re.search(rb"^Content-Length: (\d+)", head, re.M)
        length = int(length[1]) if length else 0
        yield (head + gap).replace(b"\r", b"").decode(), data[:length].decode()
        data = data[length:]


def replies(program, session, folder):
    """The replies to a session over a journal of no edits."""
    journal = folder / "session.journal"
    shutil.copyfile(EMPTY, journal)
    with open(TOP / session, "rb") as requests:
        return list(messages(subprocess.run([program, "batch", "--journal", journal], stdin=requests, stdout=subprocess.PIPE, check=True).stdout))


class Play:
    """A document that is played."""

    def __init__(self, program, document):
        self.program, self.document, self.port = program, document, free_port()
        self.folder = pathlib.Path(tempfile.mkdtemp(prefix="documents-"))
        self.server, self.count, self.before = None, 0, ""

    def close(self):
        if self.server:
            self.server.kill()
            self.server.wait()
        shutil.rmtree(self.folder)

    def stop(self, line, wanted, got):
        raise SystemExit(f"{self.document}:{line}:\n--- the document has\n{wanted}\n--- the program gives\n{got}")

    def run(self, kind, line, text):
        """What a block writes."""
        text = text.replace("8080", str(self.port)).replace("sh run.sh", f"sh run.sh {self.port}")
        words = ["sh", "-eu", "-c", text] if kind == "sh" else [sys.executable, "-c", text]
        places = {"PATH": f"{self.folder}/bin:{os.environ['PATH']}", "STREAMOFFICE": self.program}
        how = {"cwd": self.folder, "env": {**os.environ, **places}, "stdin": subprocess.DEVNULL}
        if kind == "sh" and re.search(r"^streamoffice serve ", text, re.M):
            self.server = subprocess.Popen(["sh", "-eu", "-c", re.sub(r"^streamoffice serve (.*) &$", r"exec streamoffice serve \1", text, flags=re.M)], **how)
            if not wait_for(self.server, self.port):
                self.stop(line, "a server", f"status {self.server.poll()}")
            return ""
        done = subprocess.run(words, **how, stdout=subprocess.PIPE, stderr=subprocess.PIPE, text=True)
        if done.returncode != 0:
            self.stop(line, "a block that ends with status 0", f"status {done.returncode}\n{done.stdout}{done.stderr}")
        return done.stdout.replace(str(self.port), "8080")

    def play(self):
        (self.folder / "bin").mkdir()
        (self.folder / "bin/streamoffice").symlink_to(self.program)
        (self.folder / "examples").symlink_to(TOP / "examples")
        shutil.copyfile(TOP / "run.sh", self.folder / "run.sh")
        found = list(parts((TOP / self.document).read_text()))
        due, skips = [], False
        session = next((what for kind, _, what, _ in found if kind == "session"), None)
        for kind, line, what, has_output in found:
            if kind == "session":
                session = what
            elif kind == "table":
                got = due.pop(0).splitlines() if due else [body for _, body in replies(self.program, session, self.folder)]
                if len(got) != len(what):
                    self.stop(line, f"{len(what)} replies", f"{len(got)}")
                for place, (wanted, body) in enumerate(zip(what, got)):
                    if wanted == "below":
                        due.append(body)
                    elif wanted.strip("`") != body.rstrip("\n"):
                        self.stop(line + 2 + place, wanted, body)
                    self.count += 1
            elif kind in ("sh", "python") and not ELSEWHERE.search(what):
                if kind == "python" and not has_output:
                    self.before += what
                    continue
                written = self.run(kind, line, self.before + what if kind == "python" else what)
                due = [written] if has_output else due
            elif kind == "plain" and due:
                wanted = due.pop(0)
                if what != wanted and what != wanted + "\n":
                    self.stop(line, what, wanted)
                self.count += 1
            elif kind == "plain" and session and not skips:
                self.find(line, what.rstrip("\n"), session)
                self.count += 1
            else:
                print(f"{self.document}:{line}: not played: a block {kind}" + (" that is run elsewhere" if kind in ("sh", "python") else ""))
            skips = kind in ("sh", "python") and has_output and not due
        if due:
            self.stop(0, "a block for each text that is due", due[0])
        print(f"{self.document}: {self.count} texts as they come")

    def find(self, line, text, session):
        """A request, its body or a whole reply of the session."""
        asked = [it for head, body in messages((TOP / session).read_bytes()) for it in (head + body, body)]
        got = [head + body for head, body in replies(self.program, session, self.folder)]
        if text not in [it.rstrip("\n") for it in asked + got]:
            near = [it for it in asked + got if it.partition("\n")[0] == text.partition("\n")[0]]
            self.stop(line, text, f"none such in {session}; with the same first line\n" + "\n--\n".join(near))


def main():
    given = argparse.ArgumentParser()
    given.add_argument("program")
    given.add_argument("documents", nargs="*")
    given = given.parse_args()
    if not shutil.which("curl"):
        raise SystemExit("the documents' blocks need curl")
    for document in given.documents or PLAYED:
        play = Play(os.path.realpath(given.program), document)
        try:
            play.play()
        finally:
            play.close()


if __name__ == "__main__":
    main()
