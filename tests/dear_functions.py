#!/usr/bin/env python3
"""Lists the functions of a crate that are dear to prove, in processor seconds.

    python3 tests/dear_functions.py CRATE [N] [--keep FOLDER]

It checks a copy of the crate from nothing, with one job, over the libraries below it as they are built (what is not built is built in
the copy first). The checker writes a file for each module that it has checked, one after the other: the gap before a file is what its
module cost. The gaps are summed by function and scaled to the processor seconds that the check took, so a machine that others use too
changes little. What comes before the first module is the base: reading, and loading what is below.

It prints the base, what the functions took together, the proofs written by hand, the rest, and each function over 5 seconds, or the N
dearest. The status is 1 where one is over 10 seconds, and 2 where the crate was not proved. `--keep FOLDER` works in that folder and
leaves it: a second call there takes over the libraries that the first one built.
"""
import argparse
import pathlib
import re
import resource
import shutil
import sys
import tempfile
import time

import copies

LISTED, MOST = 5.0, 10.0
# What the checker calls the modules that it makes of a function or a type.
KINDS = """Code Mir Lts Given View Tie Goals Answers Proof Key Layout Reads Kinds Met Named Statement Symbol TheLink TheLaws TheImpl TheInside
TheReach TheSendSync Destruct++none Invariants decls""".split()
MODULE = re.compile(r"Rattle-\w+[-.](?:proofs|specs)\.(.+)\.oantt")


def owner(module):
    """What a module belongs to, and whether it was made of the source: the rest is written by hand, or links what was proved."""
    parts = module.split(".")
    if "TheLinks" in parts or parts[0] == "TheLinks":
        return "links", False
    if parts[0] == "contracts":
        parts = parts[1:]
    made = False
    while parts and parts[-1] in KINDS:
        parts, made = parts[:-1], True
    if not made and len(parts) == 1 and parts[0][:1].isupper():
        return parts[0], False
    return ".".join(parts) or "the crate", True


def processor_seconds():
    used = resource.getrusage(resource.RUSAGE_CHILDREN)
    return used.ru_utime + used.ru_stime


def measure(crate, to):
    """The seconds of each module, in the order of their checks, the processor seconds of the check, those of the base, and the rest."""
    libraries = copies.libraries()
    if crate not in libraries:
        sys.exit(f"{crate} is no crate of crates.txt")
    copies.copied(to)
    folder = to / "crates" / crate
    for below in libraries[crate]:
        built = copies.ran(["rt", "lib", "--jobs", "1"], to / "crates" / below)
        if built.returncode:
            print(built.stdout[-2000:])
            sys.exit(f"{below}, below {crate}, is not proved")
    root = next(it for it in (folder / "src" / "main.rt", folder / "src" / "lib.rt") if it.is_file())
    # A text of its own, and a folder of kept work that is there and empty: so the check takes over nothing that another left.
    root.write_text(root.read_text() + f"// {time.time_ns()}\n")
    shutil.rmtree(folder / "out" / "incremental", ignore_errors=True)
    (folder / "out" / "incremental").mkdir(parents=True)
    used, begun = processor_seconds(), time.time()
    check = copies.ran(["rt", "check", "--jobs", "1"], folder)
    used, ended = processor_seconds() - used, time.time()
    if check.returncode or "begins with what a check kept" in check.stdout:
        print(check.stdout[-2000:])
        print(f"{crate} was not proved from nothing, status {check.returncode}")
        sys.exit(2)
    written = []
    for file in (folder / "out" / "incremental").rglob("*.oantt"):
        module = MODULE.search(file.name.replace(".decls.oantt", ".oantt"))
        if module:
            written.append((file.stat().st_mtime, module[1]))
    written.sort()
    scale = used / (ended - begun)
    gaps = [(module, (at - before) * scale) for (before, _), (at, module) in zip(written, written[1:])]
    return gaps, used, (written[0][0] - begun) * scale, (ended - written[-1][0]) * scale


def main():
    words = argparse.ArgumentParser(description=__doc__.splitlines()[0])
    words.add_argument("crate", metavar="CRATE")
    words.add_argument("number", metavar="N", nargs="?", type=int, help="list the N dearest, in place of those over 5 seconds")
    words.add_argument("--keep", metavar="FOLDER", type=pathlib.Path, help="work in this folder, and leave it")
    given = words.parse_args()
    if given.keep:
        given.keep.mkdir(parents=True, exist_ok=True)
        gaps, used, base, rest = measure(given.crate, given.keep.resolve())
    else:
        with tempfile.TemporaryDirectory(prefix="dear-") as folder:
            gaps, used, base, rest = measure(given.crate, pathlib.Path(folder))
    functions, by_hand, links = {}, {}, 0.0
    for module, seconds in gaps:
        name, is_made = owner(module)
        if name == "links":
            links += seconds
        else:
            into = functions if is_made else by_hand
            into[name] = into.get(name, 0.0) + seconds
    ranked = sorted(functions.items(), key=lambda it: -it[1])
    print(f"{given.crate}: {used:.0f} processor seconds")
    print(f"  {base:6.1f} base, before the first module")
    print(f"  {sum(functions.values()):6.1f} functions and types, {len(functions)}")
    print(f"  {sum(by_hand.values()):6.1f} proofs written by hand, {len(by_hand)}")
    print(f"  {links + rest:6.1f} links and the end")
    shown = ranked[: given.number] if given.number is not None else [it for it in ranked if it[1] > LISTED]
    print(f"the {len(shown)} dearest:" if given.number is not None else f"over {LISTED:.0f} seconds: {len(shown)}")
    for name, seconds in shown:
        print(f"  {seconds:6.1f} {name}")
    over = [it for it in ranked if it[1] > MOST]
    if over:
        print(f"over {MOST:.0f} seconds: {len(over)}")
    return 1 if over else 0


if __name__ == "__main__":
    sys.exit(main())
