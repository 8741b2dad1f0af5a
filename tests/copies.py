"""Copies of the checkout: what the scripts beside this check in, so that they change nothing in it."""
import os
import pathlib
import re
import shutil
import subprocess

TOP = pathlib.Path(__file__).resolve().parent.parent


def link_or_copy(one, other):
    try:
        os.link(one, other)
    except OSError:
        shutil.copy2(one, other)


def copied(to):
    """Copies what checks read, and the libraries that are built. A library's files are replaced, never written into, so links will do."""
    to.mkdir(parents=True, exist_ok=True)
    for name in ("crates.txt", "HANDLES"):
        shutil.copy2(TOP / name, to / name)
    for crate in sorted((TOP / "crates").iterdir()):
        for part in ("src", "specs", "proofs"):
            shutil.rmtree(to / "crates" / crate.name / part, ignore_errors=True)
            if (crate / part).is_dir():
                shutil.copytree(crate / part, to / "crates" / crate.name / part)
        built = to / "crates" / crate.name / "out" / "rlib"
        if (crate / "out" / "rlib" / "stamp").is_file() and not built.exists():
            built.parent.mkdir(exist_ok=True)
            shutil.copytree(crate / "out" / "rlib", built, copy_function=link_or_copy)


def libraries():
    """For each crate the crates of the repository that it names."""
    named = {}
    for line in (TOP / "crates.txt").read_text().splitlines():
        name, _, rest = line.partition("#")[0].partition(":")
        if name.strip():
            named[name.split()[0]] = re.split(r"[\s,]+", rest.strip())
    return {it: [of for of in named[it] if of in named] for it in named}


def lowest_first(crates):
    """The crates by how many stand below them."""
    named = libraries()

    def below(crate):
        return {crate}.union(*(below(it) for it in named[crate]))

    return sorted(crates, key=lambda it: (len(below(it)), it))


def ran(words, folder):
    """What a command ended with, and what it printed."""
    return subprocess.run(words, cwd=folder, stdout=subprocess.PIPE, stderr=subprocess.STDOUT, text=True, errors="replace")
