#!/usr/bin/env python3
"""Tries the wrong bodies that stand outside the gate.

    python3 tests/wrong_bodies.py [CRATE ..] [--keep FOLDER] [--named WORD] [--long] [--together]
    python3 tests/wrong_bodies.py --look

Each file `wrong_bodies/CRATE/NAME.edit` makes a body of the crate wrong, in the form of those in `crates/CRATE/must-fail`, and the
prover must refuse it. In a copy of the checkout the crate is checked as it stands, beginning with what an earlier `rt check` of the same
text kept, also one in the checkout, since every edit of a crate that is not proved would be refused; then the edits are put there and
tried by `rt must-fail CRATE`. Without a name, all crates that have some, the lowest first.

A line a crate, with each edit that was not refused, could not be applied or read, was not tried, or was refused only because it takes a
name away that a proof cites, which says little of the contract; the last line is `N of M refused`. The status is 1 where one was not.

`--keep FOLDER` works in that folder and leaves it, so that libraries which had to be built are there the next time; `--named WORD` tries
those alone in whose name the word stands, and may be given several times; `--long` says what refused each. `--together` checks the edited
functions and what they call, and nothing else of the crate, with edits of different functions in one check, which takes a small part of
the time: the contracts are those of before, so one edit says nothing of another function. An edit counts there as refused only by what its
own functions lack, not by a call of one that another edit makes wrong; one that lies in no function needs the other way. `--look` proves
nothing: it says at once which of them, and of those in the gate, can no longer be applied, since a line that they name has changed.
"""
import argparse
import pathlib
import re
import shutil
import sys
import tempfile
import time

import copies

EDITS = copies.TOP / "wrong_bodies"
TRIED = re.compile(r"(?m)^(?:rt: )?must-fail (\w+)/([\w.-]+)\.edit: (.*)$")


def kind(said):
    """What the try of an edit came to, and whether it counts as refused."""
    if said.startswith("refused, as it must be"):
        return ("refused for a lost name alone", True) if "only because a proof file names" in said else ("refused", True)
    for word in ("NOT REFUSED", "BAD EDIT", "NOT TRIED"):
        if said.startswith(word):
            return word, False
    return "told otherwise", False


def misfit(crate, edit):
    """Why an edit can't be applied to the crate as it stands, or None."""
    path, old, texts, pairs = None, None, {}, 0
    for line in edit.read_text().splitlines():
        if line.startswith("file: "):
            path = copies.TOP / "crates" / crate / line[len("file: ") :].strip()
            if not path.is_file():
                return f"there is no {path.relative_to(copies.TOP)}"
            texts.setdefault(path, path.read_text())
        elif line.startswith("old: "):
            old = line[len("old: ") :]
        elif line.startswith("new:"):
            if path is None or not old:
                return "a line 'new:' has no 'file:' or no 'old:' before it"
            if texts[path].count(old) != 1:
                return f"this stands {texts[path].count(old)} times in {path.name}: {old.strip()}"
            texts[path] = texts[path].replace(old, line[len("new:") :].removeprefix(" "))
            old, pairs = None, pairs + 1
    return None if pairs else "it has no pair of lines 'old:' and 'new:'"


def look(stand):
    """Says which edits can't be applied, and returns how many."""
    bad = number = 0
    for crate in copies.lowest_first(copies.libraries()):
        gate = sorted((copies.TOP / "crates" / crate / "must-fail").glob("*.edit"))
        for edit in [*gate, *stand.get(crate, [])]:
            why, number = misfit(crate, edit), number + 1
            if why:
                bad += 1
                print(f"{edit.relative_to(copies.TOP)}: {why}")
    print(f"{number - bad} of {number} can be applied")
    return bad


def tried(crate, edits, top, is_long):
    """Tries edits of a crate in the copy, and returns how many were refused."""
    begun = time.time()
    # The prover refuses every edit of a crate that is not proved itself.
    check = copies.ran(["rt", "check", "--jobs", "1"], top / "crates" / crate)
    if check.returncode:
        print(f"{crate}: it is not proved itself, so nothing is known of its {len(edits)} edits", flush=True)
        print(check.stdout[-2000:], flush=True)
        return 0
    folder = top / "crates" / crate / "must-fail"
    shutil.rmtree(folder, ignore_errors=True)
    folder.mkdir()
    for edit in edits:
        shutil.copy2(edit, folder / edit.name)
    run = copies.ran(["rt", "must-fail", crate], top)
    shutil.rmtree(folder)
    found = {name: said for of, name, said in TRIED.findall(run.stdout) if of == crate}
    told = {edit.stem: kind(found.get(edit.stem, "")) for edit in edits}
    refused = sum(counts for _, counts in told.values())
    print(f"{crate}: {refused} of {len(edits)} refused ({time.time() - begun:.0f} s)", flush=True)
    for name, (word, _) in told.items():
        if word != "refused" or is_long:
            print(f"  {name}: {found.get(name, 'NOT TRIED: nothing was said of it')}", flush=True)
    if not found:
        print(run.stdout[-2000:], flush=True)
    return refused


FUNCTION = re.compile(r"(\s*)(?:pub(?:\([a-z]+\))? )?(?:const )?fn (\w+)")


def function_at(text, end):
    """The type, if any, and the name of the function whose text goes over this place, or None."""
    name = None
    for line in reversed(text[:end].split("\n")):
        found = FUNCTION.match(line)
        if name is None and found:
            name = found[2]
            if not found[1]:
                return [name]
        elif name is None and line.startswith("}"):
            return None
        elif name and line.startswith("impl"):
            # an impl of a trait has a name of its own: its module stands for it
            return None if " for " in line else [re.match(r"impl(?:<[^{]*?>)?\s+(\w+)", line)[1], name]
    return None


def functions(crate, edit):
    """The paths of the functions that an edit changes, or of their modules, each with its file; nothing where it changes more than functions."""
    found, texts = {}, {}
    for line in edit.read_text().splitlines():
        if line.startswith("file: "):
            file = line[len("file: ") :].strip()
            if not file.startswith("src/"):
                return None
            texts.setdefault(file, (copies.TOP / "crates" / crate / file).read_text())
        elif line.startswith("old: "):
            old, text = line[len("old: ") :], texts[file]
            its = function_at(text, text.index(old) + len(old)) or []
            # (a method's path has the module of its type, which may be another, so the end of the path is named)
            found["::".join(its if len(its) == 2 else module_of(file) + its)] = file
        elif line.startswith("new:"):
            texts[file] = texts[file].replace(old, line[len("new:") :].removeprefix(" "))
    return found if all(found) else None


def module_of(file):
    """The words of the path of the module that a file of src/ is."""
    return [it for it in file[len("src/") : -len(".rt")].split("/") if it not in ("lib", "mod")]


def meet(some, others):
    """Whether two edits change one function, or one of them a module and the other what stands in it."""
    for one, file in some.items():
        for other, its_file in others.items():
            # (the path of a method names no module)
            whole = "::".join(module_of(file)) in (one, other) and file == its_file
            if one == other or one.startswith(f"{other}::") or other.startswith(f"{one}::") or whole:
                return True
    return False


def rounds(crate, edits):
    """The edits in groups, of which each is checked at once: no two of a group change one function."""
    groups = []
    for edit in edits:
        its = functions(crate, edit)
        if its is None:
            print(f"{crate}: {edit.stem} changes more than functions, and is not tried together with others", flush=True)
            continue
        for group in groups:
            if not any(meet(of, its) for _, of in group):
                group.append((edit, its))
                break
        else:
            groups.append([(edit, its)])
    return groups


def put(edit, folder):
    """Makes a crate's bodies in a folder wrong."""
    for line in edit.read_text().splitlines():
        if line.startswith("file: "):
            path = folder / line[len("file: ") :].strip()
        elif line.startswith("old: "):
            old = line[len("old: ") :]
        elif line.startswith("new:"):
            path.write_text(path.read_text().replace(old, line[len("new:") :].removeprefix(" ")))


LOST = re.compile(r"has no field|is not in scope|has no `|was not admitted|that depends on")


def lacks(path, said):
    """What a function, or one of a module, lacks by itself, and whether that is more than names which are gone; nothing where it is proved."""
    goals = [found[1] for found in re.finditer(rf"(?m)^fn \w+::(?:\w+::)*{re.escape(path)}(?:::\S+)?: (?:no proof|not proved).*?(`search` did not prove [^;\n]*)", said)]
    errors = re.findall(rf"(?m)^(?:\./)?(?:proofs/(?:\w+/)*{re.escape(path.replace('::', '/'))}/\S+: error: .*)$", said)
    return [*goals, *errors], bool(goals) or any(not LOST.search(it) for it in errors)


def tried_together(crate, edits, top, is_long):
    """Tries edits of a crate in the copy by checks of their functions alone, and returns how many were refused."""
    begun, refused, lines, groups = time.time(), 0, [], rounds(crate, edits)
    for group in groups:
        shutil.rmtree(top / "crates" / crate / "src")
        shutil.copytree(copies.TOP / "crates" / crate / "src", top / "crates" / crate / "src")
        for edit, _ in group:
            put(edit, top / "crates" / crate)
        only = [word for its in (its for _, its in group) for path in sorted(its) for word in ("--only", path)]
        said = copies.ran(["rt", "check", "--jobs", "1", *only], top / "crates" / crate).stdout
        if not re.search(r"(?m)^only=\d+ proved=\d+", said):
            # (one that is no code ends the check: the others without those of the files that are told, and these alone)
            told = [(edit, its) for edit, its in group if any(re.search(rf"(?m)^\S*{re.escape(file)}:.*error", said) for file in its.values())]
            if len(group) > 1 and told:
                groups += [[it] for it in told] + [[it for it in group if it not in told]] * (len(told) < len(group))
                continue
            lines += [f"  {edit.stem}: NOT TRIED: the check came to no end" for edit, _ in group] + [said[-2000:]]
            continue
        for edit, its in group:
            told = [lacks(path, said) for path in sorted(its)]
            why = next((reasons[0] for reasons, counts in told if counts), None) or next((reasons[0] for reasons, _ in told if reasons), None)
            is_refused, is_named = any(counts for _, counts in told), why is not None
            if not is_refused and len(group) > 1:
                # (of a function that calls another one which is wrong too not all is told: once more, alone)
                groups.append([(edit, its)])
                continue
            refused += is_named
            if not is_refused or is_long:
                word = "refused" if is_refused else "refused for a lost name alone" if is_named else "NOT REFUSED"
                lines.append(f"  {edit.stem}: {word}{': ' + why[:300] if why else ''}")
    # (the crates above are checked over this one)
    shutil.rmtree(top / "crates" / crate / "src")
    shutil.copytree(copies.TOP / "crates" / crate / "src", top / "crates" / crate / "src")
    print(f"{crate}: {refused} of {len(edits)} refused ({time.time() - begun:.0f} s)", *lines, sep="\n", flush=True)
    return refused


def main():
    words = argparse.ArgumentParser(description=__doc__.splitlines()[0])
    words.add_argument("crates", metavar="CRATE", nargs="*")
    words.add_argument("--keep", metavar="FOLDER", type=pathlib.Path, help="work in this folder, and leave it")
    words.add_argument("--named", metavar="WORD", action="append", help="only the edits in whose name the word stands, or another that is given so")
    words.add_argument("--long", action="store_true", help="say what refused each")
    words.add_argument("--together", action="store_true", help="check the edited functions alone, several edits at once")
    words.add_argument("--look", action="store_true", help="prove nothing: say which can't be applied")
    given = words.parse_args()
    stand = {it.name: sorted(it.glob("*.edit")) for it in EDITS.iterdir() if it.is_dir()}
    unknown = sorted({*given.crates, *stand} - {*copies.libraries()}) + [it for it in given.crates if it not in stand]
    if unknown:
        sys.exit(f"{unknown[0]} is no crate with wrong bodies in {EDITS.name}/")
    if given.look:
        return 1 if look(stand) else 0
    chosen = {it: [edit for edit in stand[it] if any(word in edit.stem for word in given.named or [""])] for it in given.crates or stand}
    refused, number = 0, sum(map(len, chosen.values()))
    with tempfile.TemporaryDirectory(prefix="wrong-") as folder:
        top = given.keep.resolve() if given.keep else pathlib.Path(folder)
        copies.copied(top)
        for crate in copies.lowest_first(it for it in chosen if chosen[it]):
            refused += (tried_together if given.together else tried)(crate, chosen[crate], top, given.long)
    print(f"{refused} of {number} refused")
    return 0 if refused == number else 1


if __name__ == "__main__":
    sys.exit(main())
