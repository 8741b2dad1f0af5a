#!/usr/bin/env python3
"""Lets syncs fail on a real file system, and looks at what is there after it was unmounted and mounted.

    python3 tests/failed_syncs.py PROGRAM

A sync that fails marks what it could not write as written, so the next sync answers Ok without it, and reads go on
giving it from memory. Each case has an ext4 file system on a loop device, takes away the blocks of the device behind
the metadata for one sync, gives them back, and runs the program again. Then the file system is unmounted and mounted,
and the journal has to hold every edit that was acknowledged.

It needs root, a loop device, mkfs.ext4, dumpe2fs and strace (which holds a sync back while the blocks are taken away),
and says so where it can't run. It takes half a minute.
"""
import contextlib
import fcntl
import os
import pathlib
import re
import shutil
import struct
import subprocess
import sys
import tempfile
import time

import journals
from journals import request

LOOP_SET_STATUS64, LOOP_GET_STATUS64 = 0x4C04, 0x4C05
SIZE_LIMIT = slice(32, 40)
PAGE = 4096
# A record of a reading, with its gate.
RECORD = len(journals.block(2))
# Edits whose records are not acknowledged.
LOST, LATER = 100_000, 100_001
# How long a sync is held back, for its blocks to be taken away meanwhile.
HELD = "8s"


def call(*words):
    return subprocess.run(words, check=True, capture_output=True).stdout.decode()


def wait_until(what, is_so):
    end = time.monotonic() + 20
    while not is_so():
        if time.monotonic() > end:
            raise SystemExit(f"waited in vain until {what}")
        time.sleep(0.005)


def has_ended(process):
    try:
        return "State:\tZ" in pathlib.Path(f"/proc/{process}/status").read_text()
    except OSError:
        return True


class FileSystem:
    """An ext4 file system on a loop device that can lose its blocks behind the metadata."""

    def __init__(self, place):
        self.image, self.point = f"{place}/image", f"{place}/mounted"
        with open(self.image, "wb") as image:
            image.truncate(64 << 20)
        options = "packed_meta_blocks=1,lazy_itable_init=0,lazy_journal_init=0"
        call("mkfs.ext4", "-q", "-F", "-b", str(PAGE), "-J", "size=4", "-E", options, self.image)
        free = re.findall(r"Free blocks: (\d+)", call("dumpe2fs", self.image))
        self.behind_metadata = PAGE * min(int(block) for block in free)
        self.device = call("losetup", "--find", "--show", self.image).strip()
        os.mkdir(self.point)
        self.mount()

    def mount(self):
        call("mount", self.device, self.point)

    def unmount(self):
        call("umount", self.point)

    def limit(self, size):
        """How many bytes of the device can be reached; 0 is all."""
        with open(self.device, "rb") as device:
            status = bytearray(fcntl.ioctl(device, LOOP_GET_STATUS64, bytes(232)))
            status[SIZE_LIMIT] = struct.pack("=Q", size)
            fcntl.ioctl(device, LOOP_SET_STATUS64, bytes(status))

    @contextlib.contextmanager
    def failing(self):
        self.limit(self.behind_metadata)
        yield
        self.limit(0)

    def write_back(self):
        """Has the system write what it keeps of this file system, and of no other. It may fail."""
        subprocess.run(["sync", "--file-system", self.point], stderr=subprocess.DEVNULL)

    def remount(self):
        self.unmount()
        self.mount()

    def end(self):
        self.limit(0)
        call("umount", "--lazy", self.point)
        call("losetup", "--detach", self.device)


class Run:
    """A run of `batch` that is sent one edit after another. The sync of that number is held back for a while."""

    def __init__(self, program, journal, held=None):
        words = [program, "batch", "--journal", journal]
        hold = ["strace", "-o", "/dev/null", f"--inject=fdatasync:delay_enter={HELD}:when={held}"] if held else []
        self.process = subprocess.Popen(
            [*hold, *words], stdin=subprocess.PIPE, stdout=subprocess.PIPE, stderr=subprocess.DEVNULL
        )

    def send(self, number):
        self.process.stdin.write(request(number))
        self.process.stdin.flush()

    def reply(self):
        head = b""
        while not head.endswith(b"\r\n\r\n"):
            byte = self.process.stdout.read(1)
            if not byte:
                return None
            head += byte
        return self.process.stdout.read(int(re.search(rb"Content-Length: (\d+)", head)[1])).decode()

    def edit(self, number):
        self.send(number)
        return self.reply()

    def settle(self):
        self.process.stdin.write(journals.SETTLEMENT)
        self.process.stdin.flush()
        return self.reply()

    def end(self):
        self.process.stdin.close()
        rest = self.process.stdout.read()
        return self.process.wait(), rest

    def kill(self):
        """Kills the program itself and then strace, which would wait out the hold before it let the program end."""
        strace = self.process.pid
        programs = pathlib.Path(f"/proc/{strace}/task/{strace}/children").read_text().split()
        for program in programs:
            os.kill(int(program), 9)
        self.process.kill()
        self.process.wait()
        self.process.stdin.close()
        wait_until("the program has ended", lambda: all(map(has_ended, programs)))


class Case:
    """A journal on such a file system, and what was acknowledged of it."""

    # Which syncs of a run are those of its first edit: two come before, at its opening.
    held_record, held_gate = 3, 4

    def __init__(self, program, place):
        self.program, self.system = program, FileSystem(place)
        self.journal = f"{self.system.point}/journal"
        self.sent, self.acknowledged = 0, []

    def status(self, command, data=b""):
        done = subprocess.run([self.program, command, "--journal", self.journal], input=data, capture_output=True)
        return done.returncode, done.stderr.decode()

    def want(self, what, wanted, got):
        if wanted != got:
            raise SystemExit(f"{what}: wanted {wanted!r}, got {got!r}")
        print(f"    {what}: {str(got).strip()}")

    def accept(self, run, count):
        """Edits that have to be accepted, each the next that was not sent yet: first the station, then its readings."""
        for _ in range(count):
            self.sent += 1
            if journals.is_approval(self.sent):
                settled = run.settle()
                if not settled or '"pending":0' not in settled:
                    raise SystemExit(f"a settlement was answered {settled}")
            reply = run.edit(self.sent)
            if not reply or '"repeated":false' not in reply:
                raise SystemExit(f"an edit was answered {reply}")
            self.acknowledged.append((int(re.search(r'"edit":(\d+)', reply)[1]), self.sent))

    def begun(self):
        """A run that has made edits up to a gate at the end of a page, so that no later edit writes to that page."""
        self.want("init", (0, ""), self.status("init"))
        run = Run(self.program, self.journal)
        self.accept(run, 1)
        while (os.path.getsize(self.journal) - 1) % PAGE < PAGE - RECORD:
            self.accept(run, 1)
        return run

    def gate_is_open(self):
        """Whether the gate behind the records that were acknowledged is open."""
        end = len(journals.journal(sent for _, sent in self.acknowledged)) - 1
        return pathlib.Path(self.journal).read_bytes()[end : end + 1] == b"\1"

    def served(self, count=200):
        """A run that accepts so many edits."""
        run = Run(self.program, self.journal)
        self.accept(run, count)
        self.want("a run that accepts edits", (0, b""), run.end())

    def kept(self):
        """Whether the journal holds what was acknowledged, after the file system was unmounted and mounted."""
        self.system.remount()
        try:
            found, _ = journals.read(pathlib.Path(self.journal).read_bytes())
        except journals.Damaged as damage:
            return f"damaged at {damage}"
        wanted = {number: journals.payload(sent) for number, sent in self.acknowledged}
        lost = [number for number in wanted if found[number - 1 : number] != [wanted[number]]]
        return f"{len(lost)} lost, the first {lost[0]}" if lost else "all kept"

    def want_all_kept(self):
        if not self.acknowledged:
            return
        self.want(f"{len(self.acknowledged)} acknowledged edits, unmounted and mounted", "all kept", self.kept())


def killed_while(case, held, what, is_so):
    """An edit is sent, and the run is killed at the sync of that number, once it is so. The blocks go before the kill,
    and so are gone when the system writes what the run left."""
    run = Run(case.program, case.journal, held)
    run.send(LOST)
    wait_until(what, is_so)
    with case.system.failing():
        run.kill()
        case.system.write_back()
    case.want("the next run is told of it", (4, "streamoffice: disk fault\n"), case.status("batch"))


def sync_of_init(case):
    with case.system.failing():
        case.want("init", (4, "streamoffice: disk fault\n"), case.status("init"))
    case.want("init again", (0, ""), case.status("init"))
    case.served()


def sync_of_a_record(case):
    run = case.begun()
    with case.system.failing():
        case.want("the edit", '{"code":"JournalFault","in_doubt":false}', run.edit(LOST))
    case.want("an edit after it in the same run", '{"code":"JournalFault","in_doubt":false}', run.edit(LATER))
    case.want("the end of the run", (0, b""), run.end())
    case.served()


def sync_of_a_gate(case):
    case.begun().end()
    run = Run(case.program, case.journal, case.held_gate)
    run.send(LOST)
    wait_until("the gate is written", case.gate_is_open)
    with case.system.failing():
        case.want("the edit", '{"code":"JournalFault","in_doubt":true}', run.reply())
    case.want("an edit after it in the same run", '{"code":"JournalFault","in_doubt":true}', run.edit(LATER))
    case.want("the end of the run", (0, b""), run.end())
    case.served()


def killed_before_the_sync_of_a_record(case):
    case.begun().end()
    length = os.path.getsize(case.journal)
    killed_while(case, case.held_record, "the record is written", lambda: os.path.getsize(case.journal) > length)
    case.served()


def killed_before_the_sync_of_a_gate(case):
    case.begun().end()
    killed_while(case, case.held_gate, "the gate is written", case.gate_is_open)
    case.served()


def sync_of_an_opening(case):
    case.begun().end()
    run = Run(case.program, case.journal, case.held_gate)
    run.send(LOST)
    wait_until("the gate is written", case.gate_is_open)
    with case.system.failing():
        run.kill()
        for _ in range(2):
            case.want("batch", (4, "streamoffice: disk fault\n"), case.status("batch"))
    case.served()


def copy_whose_sync_failed(case):
    """Another program put the journal there, and was told that its sync failed. Nothing is acknowledged over it."""
    with open(case.journal, "wb") as file:
        file.write(journals.journal(range(1, 1001)))
        file.flush()
        with case.system.failing():
            try:
                os.fsync(file.fileno())
            except OSError as error:
                print(f"    the copy's sync: {error.strerror}")
    case.want("batch", (5, "streamoffice: not a journal\n"), case.status("batch"))


CASES = [
    sync_of_init,
    sync_of_a_record,
    sync_of_a_gate,
    killed_before_the_sync_of_a_record,
    killed_before_the_sync_of_a_gate,
    sync_of_an_opening,
    copy_whose_sync_failed,
]


def main():
    if len(sys.argv) < 2:
        raise SystemExit(__doc__)
    missing = [tool for tool in ["mkfs.ext4", "dumpe2fs", "losetup", "strace"] if not shutil.which(tool)]
    if os.geteuid() != 0 or not os.path.exists("/dev/loop-control") or missing:
        print(f"can't run here: it needs root and loop devices; missing: {', '.join(missing) or 'no tool'}")
        return
    program = str(pathlib.Path(sys.argv[1]).resolve())
    for build in CASES:
        print(build.__name__.replace("_", " "))
        with tempfile.TemporaryDirectory() as place:
            case = Case(program, place)
            try:
                build(case)
                case.want_all_kept()
            finally:
                case.system.end()
    print("every edit that was acknowledged is kept")


if __name__ == "__main__":
    main()
