#!/usr/bin/env python3
"""Tells what an `import` costs beside the same readings in bulk bodies.

    python3 tests/import_costs.py PROGRAM [--rows 1000000] [--times 3] [--folder .]

Imports unit values of so many rows, a minute apart, and sends the same readings to `batch` in bodies of 100,000, each time to a new journal
of one station; both journals must hold the same readings. Prints the processor seconds of both, the least of so many times, and their peak
memory, and that of an import whose text is longer by comments. The status is 1 where the import takes more than twice the processor time,
or where the peak comes to twice the longer text: then it would be kept twice.
"""
import argparse
import json
import pathlib
import subprocess
import sys
import tempfile

import imports
import journals

# How many bytes of comments are put before the text. At most 67,108,864 bytes are imported, and a million rows have 42,000,000.
COMMENTS = 16_000_000


def station(program, journal):
    """Makes a journal of one station."""
    journal.unlink(missing_ok=True)
    subprocess.run([program, "init", "--journal", journal], check=True)
    subprocess.run([program, "batch", "--journal", journal], input=journals.request(1), stdout=subprocess.DEVNULL, check=True)


def bodies(readings):
    """The requests that put these readings, under the references of an import."""
    data = []
    for number, part in enumerate(imports.chunks(readings), 1):
        head = {"kind": "PutReadings", "by": imports.PERSON, "ref": f"{imports.REFERENCE}-{number}", "site": imports.SITE}
        listed = [["%sT%s:00Z" % imports.minute_texts(at), "%d.%02d" % divmod(value // 10_000, 100)] for at, value in part]
        body = json.dumps({**head, "readings": listed}, separators=(",", ":")).encode()
        data.append(b"POST /edits HTTP/1.1\r\nContent-Length: %d\r\n\r\n" % len(body) + body)
    return b"".join(data)


# A small process measures the program, since a child's peak begins with that of the process that makes it.
MEASURE = """
import json, os, subprocess, sys
source, target, *words = sys.argv[1:]
with open(source, "rb") as given, open(target, "wb") as output:
    process = subprocess.Popen(words, stdin=given, stdout=output)
    _, status, used = os.wait4(process.pid, 0)
print(json.dumps([os.waitstatus_to_exitcode(status), used.ru_utime + used.ru_stime, used.ru_maxrss / 1000]))
"""


def cost(words, source):
    """The processor seconds and the peak memory in MB of a run, whose status must be 0."""
    run = subprocess.run([sys.executable, "-c", MEASURE, source, source.with_name("output"), *words], stdout=subprocess.PIPE, check=True)
    status, seconds, peak = json.loads(run.stdout)
    if status:
        raise SystemExit(f"{words[1]}: status {status}, {source.with_name('output').read_bytes()[:500]!r}")
    return seconds, peak


def main():
    words = argparse.ArgumentParser(description=__doc__, formatter_class=argparse.RawDescriptionHelpFormatter)
    words.add_argument("program", type=lambda path: str(pathlib.Path(path).resolve()))
    words.add_argument("--rows", type=int, default=1_000_000)
    words.add_argument("--times", type=int, default=3)
    words.add_argument("--folder", default=".")
    given = words.parse_args()
    readings = imports.rows(given.rows)
    costs = {"import": [], "bulk": [], "longer": []}
    with tempfile.TemporaryDirectory(dir=given.folder) as folder:
        text, bulk, longer = (pathlib.Path(folder, it) for it in ("text", "bulk", "longer"))
        text.write_bytes(imports.text(given.rows))
        longer.write_bytes(b"# A COMMENT\n" * (COMMENTS // 12) + text.read_bytes())
        bulk.write_bytes(bodies(readings))
        journal = pathlib.Path(folder, "journal")
        left = {}
        for _ in range(given.times):
            for name, source in [("import", text), ("bulk", bulk), ("longer", longer)]:
                station(given.program, journal)
                batch = [given.program, "batch", "--journal", str(journal)]
                costs[name].append(cost(batch if name == "bulk" else imports.words(given.program, journal), source))
                left[name] = journals.read(journal.read_bytes())[0]
        sizes = {it.name: it.stat().st_size / 1e6 for it in (text, bulk, longer)}
    if not left["import"] == left["bulk"] == left["longer"] or len(left["bulk"]) != 1 + len(imports.chunks(readings)):
        raise SystemExit("the journals do not have the same edits")
    seconds = {name: min(it[0] for it in all_of) for name, all_of in costs.items()}
    peak = {name: min(it[1] for it in all_of) for name, all_of in costs.items()}
    share = seconds["import"] / seconds["bulk"]
    print(f"{len(readings)} readings of {given.rows} rows")
    print(f"import: {seconds['import']:.2f} s of processor, peak {peak['import']:.0f} MB, text {sizes['text']:.0f} MB")
    print(f"the same behind comments: {seconds['longer']:.2f} s of processor, peak {peak['longer']:.0f} MB, text {sizes['longer']:.0f} MB")
    print(f"batch, bodies of {imports.MOST} readings: {seconds['bulk']:.2f} s of processor, peak {peak['bulk']:.0f} MB, requests {sizes['bulk']:.0f} MB")
    print(f"the import takes {share:.2f} times the time of the bodies, and its peak is {peak['longer'] / sizes['longer']:.2f} times the longer text")
    return 1 if share > 2 or peak["longer"] >= 2 * sizes["longer"] else 0


if __name__ == "__main__":
    sys.exit(main())
