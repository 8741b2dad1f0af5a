#!/usr/bin/env python3
"""Makes real faults of a file system happen, and looks at what the program answers and keeps.

    python3 tests/disk_faults.py PROGRAM

It needs to mount small file systems in memory, so it is run by root or where `unshare --map-root-user --mount` is
allowed. Each case states the status and the line that are wanted; the script ends with status 1 at the first that
differs. It takes a few seconds. The case of a block device needs a loop device, and is left out where none can be had.
"""
import os
import pathlib
import resource
import shutil
import signal
import subprocess
import sys
import tempfile

import journals

FAULT = b'{"code":"JournalFault","in_doubt":'


def run(program, words, data=b"", before=None):
    done = subprocess.run([program, *words], input=data, capture_output=True, timeout=60, preexec_fn=before)
    return done.returncode, done.stdout, done.stderr.decode()


def expect(what, wanted, got):
    if wanted != got:
        raise SystemExit(f"{what}: wanted {wanted}, got {got}")
    print(f"{what}: status {got[0]}, {got[1].strip() or 'no line'}")


def mount(place, options):
    subprocess.run(["mount", "-t", "tmpfs", "-o", options, "tmpfs", place], check=True)


def full_file_system(program, place):
    """A station and readings until the file system is full, then with room again."""
    mount(place, "size=300k")
    journal = f"{place}/journal"
    expect("init", (0, ""), run(program, ["init", "--journal", journal])[::2])
    count = 12_000
    status, output, line = run(program, ["batch", "--journal", journal], journals.requests(range(1, count + 1)))
    expect("batch until the file system is full", (0, ""), (status, line))
    accepted, faults = output.count(b'{"edit":'), output.count(FAULT)
    in_doubt = output.count(FAULT + b"true")
    if accepted + faults != count or accepted == 0 or faults == 0 or in_doubt != 0:
        raise SystemExit(f"{accepted} accepted, {faults} refused, {in_doubt} of them in doubt, of {count}")
    kept, _ = journals.read(pathlib.Path(journal).read_bytes())
    if len(kept) != accepted:
        raise SystemExit(f"{accepted} accepted and {len(kept)} kept")
    print(f"    {accepted} accepted and kept, {faults} answered 503, none in doubt")
    subprocess.run(["mount", "-o", "remount,size=600k", place], check=True)
    status, output, line = run(program, ["batch", "--journal", journal], journals.request(count + 1))
    expect("batch with room again", (0, ""), (status, line))
    if b'{"edit":%d,' % (accepted + 1) not in output:
        raise SystemExit(f"the next edit was answered {output!r}")
    subprocess.run(["umount", place], check=True)


def no_room_for_a_file(program, place):
    """Not even the header fits."""
    mount(place, "size=4k")
    pathlib.Path(place, "other").write_bytes(bytes(4096))
    journal = f"{place}/journal"
    expect("init on a full file system", (4, "streamoffice: disk fault\n"), run(program, ["init", "--journal", journal])[::2])
    pathlib.Path(place, "other").unlink()
    expect("init with room again", (0, ""), run(program, ["init", "--journal", journal])[::2])
    subprocess.run(["umount", place], check=True)


def limit_files():
    resource.setrlimit(resource.RLIMIT_FSIZE, (4096, 4096))


def limit_on_the_size_of_files(program, place):
    """The system kills a program that writes past it; what was acknowledged is kept, and the next run goes on."""
    journal = f"{place}/journal"
    expect("init", (0, ""), run(program, ["init", "--journal", journal])[::2])
    data = journals.requests(range(1, 201))
    status, output, line = run(program, ["batch", "--journal", journal], data, limit_files)
    expect("batch past the limit on the size of files", (-signal.SIGXFSZ, ""), (status, line))
    accepted = output.count(b'{"edit":')
    kept, _ = journals.read(pathlib.Path(journal).read_bytes())
    if accepted == 0 or len(kept) != accepted:
        raise SystemExit(f"{accepted} accepted and {len(kept)} kept")
    status, output, line = run(program, ["batch", "--journal", journal], journals.request(201))
    expect("batch without the limit", (0, ""), (status, line))
    if b'{"edit":%d,' % (accepted + 1) not in output:
        raise SystemExit(f"the next edit was answered {output!r}")


def read_only(program, place):
    """A journal that may only be read."""
    mount(place, "size=300k")
    journal = f"{place}/journal"
    run(program, ["init", "--journal", journal])
    run(program, ["batch", "--journal", journal], journals.request(1))
    before = pathlib.Path(journal).read_bytes()
    subprocess.run(["mount", "-o", "remount,ro", place], check=True)
    for command in ["init", "batch"]:
        expect(
            f"{command} on a read-only file",
            (4, "streamoffice: disk fault\n"),
            run(program, [command, "--journal", journal], journals.request(2))[::2],
        )
    if pathlib.Path(journal).read_bytes() != before:
        raise SystemExit("the journal has changed")
    subprocess.run(["umount", place], check=True)


def damaged(at):
    return f"streamoffice: damaged at {at}\n"


def in_the_place_of_a_journal(program, place):
    """A directory, nothing, and files that are no journal: not one byte of them changes."""
    expect("init on a directory", (4, "streamoffice: disk fault\n"), run(program, ["init", "--journal", place])[::2])
    expect("batch on a directory", (4, "streamoffice: disk fault\n"), run(program, ["batch", "--journal", place])[::2])
    name = f"{place}/file"
    expect("batch on nothing", (5, "streamoffice: not a journal\n"), run(program, ["batch", "--journal", name])[::2])
    if os.path.exists(name):
        raise SystemExit("batch made a file")
    whole = journals.journal([1])[:-1]
    missing = damaged(len(whole))
    for what, data, command, wanted in [
        ("an empty file", b"", "batch", (5, "streamoffice: not a journal\n")),
        ("another file", b"twenty bytes of text", "batch", (5, "streamoffice: not a journal\n")),
        ("another file", b"twenty bytes of text", "init", (5, "streamoffice: not a journal\n")),
        ("a journal", whole + b"\0", "init", (8, "streamoffice: journal exists\n")),
        ("an open gate with nothing behind", journals.HEADER + b"\1", "batch", (5, damaged(16))),
        ("a journal without its last gate", whole, "batch", (5, missing)),
        ("a record cut short", whole + journals.block(2)[:-1], "batch", (5, missing)),
        ("a reference that comes twice", journals.journal([1, 2, 2]), "batch", (5, damaged(len(journals.journal([1, 2])) - 1))),
        ("a reading of no station", journals.journal([2]), "batch", (5, damaged(16))),
    ]:
        pathlib.Path(name).write_bytes(data)
        expect(f"{command} on {what}", wanted, run(program, [command, "--journal", name], journals.request(2))[::2])
        if pathlib.Path(name).read_bytes() != data:
            raise SystemExit("the file has changed")


def expect_nothing_is_opened(program, what, name):
    """Neither command takes it for a journal, and each ends in time."""
    for command in ["init", "batch"]:
        answer = run(program, [command, "--journal", name], journals.request(1))[::2]
        expect(f"{command} on {what}", (4, "streamoffice: disk fault\n"), answer)


def fifo_in_the_place_of_a_journal(program, place):
    """Nothing is written to it, also where another process has both its ends open."""
    name = f"{place}/fifo"
    os.mkfifo(name)
    expect_nothing_is_opened(program, "a fifo", name)
    ends = os.open(name, os.O_RDWR | os.O_NONBLOCK)
    expect_nothing_is_opened(program, "a fifo that is open", name)
    try:
        raise SystemExit(f"the fifo was given {os.read(ends, 99)!r}")
    except BlockingIOError:
        os.close(ends)


def block_device_in_the_place_of_a_journal(program, place):
    """It tells length 0 for all its data, of which not one byte changes, not even where it is a journal's."""
    if not shutil.which("losetup"):
        print("a block device: can't run here, losetup is missing")
        return
    image = pathlib.Path(place, "image")
    data = journals.journal(range(1, 2000))
    image.write_bytes(data[: 1 << 16])
    made = subprocess.run(["losetup", "--find", "--show", image], capture_output=True)
    if made.returncode != 0:
        print(f"a block device: can't run here, {made.stderr.decode().strip()}")
        return
    device = made.stdout.decode().strip()
    try:
        expect_nothing_is_opened(program, "a block device", device)
        if pathlib.Path(device).read_bytes() != data[: 1 << 16]:
            raise SystemExit("the block device has changed")
    finally:
        subprocess.run(["losetup", "--detach", device], check=True)


def link_to_a_journal(program, place):
    """It is followed: the journal has the edits, and the link stays what it is."""
    journal, link = f"{place}/journal", f"{place}/link"
    expect("init", (0, ""), run(program, ["init", "--journal", journal])[::2])
    os.symlink(journal, link)
    expect("init on a link to a journal", (8, "streamoffice: journal exists\n"), run(program, ["init", "--journal", link])[::2])
    for number, name in enumerate([link, journal, link], 1):
        status, output, line = run(program, ["batch", "--journal", name], journals.request(number))
        expect(f"batch on {'a link to a journal' if name == link else 'the journal'}", (0, ""), (status, line))
        if b'{"edit":%d,"repeated":false}' % number not in output:
            raise SystemExit(f"edit {number} was answered {output!r}")
    kept, _ = journals.read(pathlib.Path(journal).read_bytes())
    if len(kept) != 3 or os.readlink(link) != journal:
        raise SystemExit(f"{len(kept)} kept, and the link is to {os.readlink(link)}")


def main():
    if len(sys.argv) != 2:
        raise SystemExit(__doc__)
    if os.geteuid() != 0:
        os.execvp("unshare", ["unshare", "--map-root-user", "--mount", sys.executable, *sys.argv])
    program = str(pathlib.Path(sys.argv[1]).resolve())
    for case in [
        full_file_system,
        no_room_for_a_file,
        limit_on_the_size_of_files,
        read_only,
        in_the_place_of_a_journal,
        fifo_in_the_place_of_a_journal,
        block_device_in_the_place_of_a_journal,
        link_to_a_journal,
    ]:
        with tempfile.TemporaryDirectory() as place:
            case(program, place)
    print("every case as wanted, and nothing lost")


if __name__ == "__main__":
    main()
