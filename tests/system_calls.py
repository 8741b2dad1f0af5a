#!/usr/bin/env python3
"""Watches the system calls of the program, and makes each of them fail in turn.

    python3 tests/system_calls.py PROGRAM

No clause can say what a file has, so this sees what the program asks of the system, by strace: that an edit is written
and synced, and its gate then, before its reply goes out; how a journal is made and opened; and what is answered where one
of these calls fails. Each case states the calls or the answers that are wanted; the script ends with status 1 at the
first that differs. It says so where strace is missing. It takes some seconds.
"""
import os
import pathlib
import re
import shutil
import subprocess
import sys
import tempfile

import journals

HEADER = len(journals.HEADER)
FALSE, TRUE = '{"code":"JournalFault","in_doubt":false}', '{"code":"JournalFault","in_doubt":true}'
DISK_FAULT = "streamoffice: disk fault\n"
# What strace calls a call, and what it is called here. Reads of a file and questions about it are left out.
WATCHED = {
    "openat": "open",
    "flock": "lock",
    "fdatasync": "sync",
    "fsync": "sync all",
    "fadvise64": "forget",
    "pwrite64": "write",
    "write": "write",
    "read": "read",
    "close": "close",
    "ftruncate": "cut",
    "fallocate": "allocate",
    "unlink": "remove",
    "rename": "rename",
}
LINE = re.compile(r"(\w+)\((.*)\) += (-?\d+)")
PATH = re.compile(r'[<"](.*)[>"]')
# From the first byte to the last, which a length of 0 stands for.
OPENING = ["open O_RDWR", "lock LOCK_EX|LOCK_NB", "sync", "forget 0, 0, POSIX_FADV_DONTNEED"]
MAKING = ["open O_RDWR|O_CREAT", *OPENING[1:], "open folder O_RDONLY", "sync all folder", "close folder"]
INIT = [*MAKING, f"write {HEADER + 1} at 0", "sync", "close"]


def edit(number):
    """The calls of an edit: its record, with a closed gate behind it, and only then its gate; then its reply."""
    gate = len(journals.journal(range(1, number))) - 1
    return [f"write {len(journals.block(number))} at {gate + 1}", "sync", f"write 1 at {gate}", "sync", "write output"]


class Calls:
    """A place with a journal, where the program runs under strace."""

    def __init__(self, program, place):
        self.program, self.folder, self.log = program, f"{place}/folder", f"{place}/calls"
        self.journal = f"{self.folder}/journal"
        pathlib.Path(self.folder).mkdir()

    def run(self, command, edits=(), *options, shell=(), journal=None):
        """The program's status, its replies' bodies and its line, for these edits on its input. It runs in the journal's
        folder."""
        requests = journals.requests(edits)
        program = [*shell, self.program, command, "--journal", journal or self.journal]
        words = ["strace", "-f", "-y", "-o", self.log, *options, *program]
        done = subprocess.run(words, input=requests, capture_output=True, timeout=60, cwd=self.folder)
        return done.returncode, re.findall(r"\{.*?\}", done.stdout.decode()), done.stderr.decode()

    def seen(self):
        """The watched calls of the journal, its folder and the standard streams, from the first on the journal on."""
        calls = []
        for line in pathlib.Path(self.log).read_text().splitlines():
            found = LINE.search(line)
            if found and found[1] in WATCHED:
                calls.append(self.name(found[1], found[2], found[3]))
        calls = [call for call in calls if call]
        return calls[next(at for at, call in enumerate(calls) if call.startswith("open O_RDWR")) :]

    def name(self, call, arguments, result):
        words = arguments.replace("|O_NOCTTY", "").replace("|O_CLOEXEC", "").split(", ")
        path = PATH.search(words[1 if call == "openat" else 0])
        path = path and os.path.normpath(os.path.join(self.folder, path[1]))
        if path == self.journal:
            place = ""
        elif path == self.folder:
            place = " folder"
        elif call in ("read", "write") and words[0][:2] in ("0<", "1<", "2<"):
            place = {"0": " input", "1": " output", "2": " line"}[words[0][0]]
        else:
            return None
        details = {"flock": words[-1], "fadvise64": ", ".join(words[1:]), "ftruncate": words[-1]}.get(call, "")
        if call == "openat":
            details = words[2]
        if call == "pwrite64":
            details = f"{result} at {words[-1]}"
        return " ".join(f"{WATCHED[call]}{place} {details}".split())


def expect(what, wanted, got):
    if wanted != got:
        raise SystemExit(f"{what}:\n  wanted {wanted}\n  got    {got}")
    print(what)


def order_of_calls(calls):
    expect("init ends", (0, [], ""), calls.run("init"))
    expect("init: lock, folder, then the journal", INIT, calls.seen())
    expect("init over it ends", (8, [], "streamoffice: journal exists\n"), calls.run("init"))
    told = ["write line"]
    expect("init over it writes nothing", [*MAKING, "close", *told], calls.seen())
    accepted = ['{"edit":1,"repeated":false}', '{"edit":2,"repeated":false}']
    expect("batch ends", (0, accepted, ""), calls.run("batch", [1, 2]))
    session = [*OPENING, "sync", "read input", *edit(1), *edit(2), "read input", "close"]
    expect("batch: each edit is on the disk before its reply", session, calls.seen())
    expect("batch with nothing to read ends", (0, [], ""), calls.run("batch"))
    expect("batch with nothing to read writes nothing", [*OPENING, "sync", "read input", "close"], calls.seen())
    pathlib.Path(calls.journal).write_bytes(b"another file of some length")
    expect("batch on another file ends", (5, [], "streamoffice: not a journal\n"), calls.run("batch", [1, 2]))
    expect("batch on another file writes nothing", [*OPENING, "sync", "close", *told], calls.seen())


def journal_in_the_folder_of_the_run(calls):
    """A journal that is named without a folder: the folder that the program runs in is synced."""
    name = pathlib.Path(calls.journal).name
    expect("init of a name alone ends", (0, [], ""), calls.run("init", journal=name))
    expect("init of a name alone syncs the folder too", INIT, calls.seen())
    accepted = ['{"edit":1,"repeated":false}']
    expect("batch of a name alone ends", (0, accepted, ""), calls.run("batch", [1], journal=name))
    session = [*OPENING, "sync", "read input", *edit(1), "read input", "close"]
    expect("batch of a name alone: the same calls", session, calls.seen())
    pathlib.Path(calls.journal).unlink()
    faulty = calls.run("init", [], "-P", calls.folder, fault("fsync", 1), journal=name)
    expect("init of a name alone where the folder's sync fails", (4, [], DISK_FAULT), faulty)


def fault(call, number, error="EIO"):
    return f"--inject={call}:error={error}:when={number}"


def faults_of_init(calls):
    for call, number in [
        ("openat", 1),
        ("statx", 1),
        ("flock", 1),
        ("fdatasync", 1),
        ("fadvise64", 1),
        ("fsync", 1),
        ("statx", 2),
        ("pwrite64", 1),
        ("fdatasync", 2),
    ]:
        pathlib.Path(calls.journal).unlink(missing_ok=True)
        answer = calls.run("init", [], *on(calls), fault(call, number))
        expect(f"init where {call} fails, time {number}", (4, [], DISK_FAULT), answer)


def on(calls):
    """That only calls of the journal and its folder fail."""
    return ["-P", calls.journal, "-P", calls.folder]


def faults_of_batch(calls):
    accepted = ['{"edit":%d,"repeated":false}' % number for number in range(2, 6)]
    for call, number, wanted in [
        ("openat", 1, None),
        ("statx", 1, None),
        ("flock", 1, None),
        ("fdatasync", 1, None),
        ("fadvise64", 1, None),
        ("fdatasync", 2, None),
        ("statx", 2, None),
        ("pread64", 1, None),
        # A write that failed stops nothing where the gate is closed for sure.
        ("pwrite64", 1, [FALSE, *accepted[:3]]),
        ("pwrite64", 3, [accepted[0], FALSE, *accepted[1:3]]),
        # One that failed at a gate is mended before the next edit, and the edit that was in doubt is not there.
        ("pwrite64", 4, [accepted[0], TRUE, *accepted[1:3]]),
        ("pwrite64", "4..5", [accepted[0], TRUE, TRUE, accepted[1]]),
        # After a sync that failed nothing is written any more in this run.
        ("fdatasync", 3, [FALSE] * 4),
        ("fdatasync", 5, [accepted[0], *[FALSE] * 3]),
        ("fdatasync", 6, [accepted[0], *[TRUE] * 3]),
    ]:
        pathlib.Path(calls.journal).write_bytes(journals.journal([1]))
        ended = (4, [], DISK_FAULT) if wanted is None else (0, wanted, "")
        expect(f"batch where {call} fails, time {number}", ended, calls.run("batch", range(2, 6), *on(calls), fault(call, number)))
        if call == "fdatasync" and wanted:
            writes = pathlib.Path(calls.log).read_text().count("pwrite64")
            expect("    and nothing is written after it", number - 2, writes)
        kept, _ = journals.read(pathlib.Path(calls.journal).read_bytes())
        told = [number for number, reply in zip(range(2, 6), wanted or []) if "edit" in reply]
        acknowledged = [journals.payload(number) for number in [1, *told]]
        if kept[: len(acknowledged)] != acknowledged or len(kept) > len(acknowledged) + 1:
            raise SystemExit(f"{len(acknowledged)} edits were acknowledged, and {len(kept)} are kept: {kept}")


def mend_of_a_gate(calls):
    """A gate whose write failed is closed and synced before anything else is written."""
    pathlib.Path(calls.journal).write_bytes(journals.journal([1]))
    ended = (0, [TRUE, '{"edit":2,"repeated":false}'], "")
    expect("a gate in doubt", ended, calls.run("batch", [2, 3], *on(calls), fault("pwrite64", 2)))
    # The fault is injected into calls on the journal alone, so no others are seen.
    record, sync, gate, _, _ = edit(2)
    mended = [record, sync, gate.replace("write 1", "write -1"), gate, sync, record, sync, gate, sync, "close"]
    expect("a gate in doubt: mended before the next edit", [*OPENING, sync, *mended], calls.seen())
    gates = re.findall(r'pwrite64\([^"]*"([^"]*)", 1, ', pathlib.Path(calls.log).read_text())
    expect("    by the byte 0, behind one 1 and before another", [r"\1", r"\0", r"\1"], gates)


def streams_that_are_not_taken_up(calls):
    """A journal is never a standard stream, not even where the root folder, which would stand in, can't be opened."""
    for redirection in ["<&-", ">&-", "2>&-"]:
        shell = ["sh", "-c", f'exec "$@" {redirection}', "sh"]
        for command, content in [("init", b""), ("batch", journals.journal([]))]:
            pathlib.Path(calls.journal).write_bytes(content)
            options = ["-P", "/", "--inject=openat:error=EACCES"]
            status, replies, _ = calls.run(command, [1, 2], *options, shell=shell)
            expect(f"{command} {redirection}, which nothing stands in for", (4, []), (status, replies))
            expect("    what is left", content, pathlib.Path(calls.journal).read_bytes())


def main():
    if len(sys.argv) != 2:
        raise SystemExit(__doc__)
    if not shutil.which("strace"):
        print("can't run here: strace is missing")
        return
    program = str(pathlib.Path(sys.argv[1]).resolve())
    cases = [
        order_of_calls,
        journal_in_the_folder_of_the_run,
        faults_of_init,
        faults_of_batch,
        mend_of_a_gate,
        streams_that_are_not_taken_up,
    ]
    for case in cases:
        with tempfile.TemporaryDirectory() as place:
            case(Calls(program, pathlib.Path(place).resolve()))
    print("every call in its order, and every fault told")


if __name__ == "__main__":
    main()
