#!/usr/bin/env python3
"""Makes each allocation of a run fail in turn, and looks at what is replied and kept.

    python3 tests/want_of_memory.py PROGRAM [--row FILE] [--folder .] [--jobs 4] [--from 1] [--step 47]

A whole batch (a station, its rating, the rating's period, three readings in one edit, a review and an approval of three other days
with their sheets, a day before and after turns, and its sheet) is run once for each allocation that it makes, with that one refused.
Every request must be answered: by its reply, or one of them by 507; behind a POST that was answered 507 any whole reply will do. Then
the same batch is sent once more over the journal that was left, with all the memory there is: every edit must be accepted or told to be
repeated, and the last reply must be the one due. With `--row FILE` the batch is the first run of that file of `crates/run_rows/data`, such
as `whole_run.txt` or `logger_year.txt` (some minutes), and its replies with all the memory there is must be those of the row.

A request whose body finds no memory, since its bytes and no fewer are refused, is answered 507, and the next request as ever.

`init` is run so too: it makes a journal, or ends by a status and leaves nothing that keeps a second `init` from making one. So is
`stations`: its lines come, one of which may tell of no memory, or a status and no line; run again, it adds what is missing. So
is `migrate` of a journal of the first format with approved days: whatever comes of it, the journal keeps its bytes, and run again it ends
with 0 and leaves a copy of all records. And `trial --number 1`, for each of its first 300 allocations and then one in `--step`: its whole text comes, or a status and no text.

A run that ends for want of memory, also of memory for its words, has the status 6, its line on standard error, and nothing on
standard output. `init` and `migrate` may end with 4 and its line too, where a file could not be opened.

It needs a C compiler (`cc`) for the few lines that stand before the system's allocator, and says so where there is none.
"""
import argparse
import concurrent.futures
import os
import pathlib
import re
import shutil
import subprocess
import sys
import tempfile

import journals
import play_runs

SHIM = r"""
#define _GNU_SOURCE
#include <dlfcn.h>
#include <errno.h>
#include <stdio.h>
#include <stdlib.h>
#include <sys/syscall.h>
#include <unistd.h>
static unsigned long asked, refused_at, refused_size;
static int ready;
static void *(*next_malloc)(size_t);
static void *(*next_calloc)(size_t, size_t);
static void *(*next_realloc)(void *, size_t);
static int (*next_memalign)(void **, size_t, size_t);
static void *(*next_aligned)(size_t, size_t);
__attribute__((constructor)) static void begin(void) {
    next_malloc = dlsym(RTLD_NEXT, "malloc");
    next_calloc = dlsym(RTLD_NEXT, "calloc");
    next_realloc = dlsym(RTLD_NEXT, "realloc");
    next_memalign = dlsym(RTLD_NEXT, "posix_memalign");
    next_aligned = dlsym(RTLD_NEXT, "aligned_alloc");
    const char *text = getenv("REFUSED_ALLOCATION");
    refused_at = text ? strtoul(text, 0, 10) : 0;
    text = getenv("REFUSED_SIZE");
    refused_size = text ? strtoul(text, 0, 10) : 0;
    ready = 1;
}
__attribute__((destructor)) static void end(void) {
    ready = 0;
    const char *name = getenv("ALLOCATIONS");
    FILE *file = name ? fopen(name, "w") : 0;
    if (file) { fprintf(file, "%lu", asked); fclose(file); }
}
/* The program may end by this, which runs no destructor. */
void _exit(int status) {
    end();
    syscall(SYS_exit_group, status);
    __builtin_unreachable();
}
static int refused(size_t size) { return ready && (++asked == refused_at || (refused_size && size >= refused_size)); }
static char early[65536];
static size_t early_used;
void *malloc(size_t size) {
    if (!next_malloc) { void *p = early + early_used; early_used += (size + 15) & ~15UL; return early_used <= sizeof early ? p : 0; }
    if (refused(size)) { errno = ENOMEM; return 0; }
    return next_malloc(size);
}
void *calloc(size_t n, size_t size) {
    if (!next_calloc) return malloc(n * size);
    if (refused(n * size)) { errno = ENOMEM; return 0; }
    return next_calloc(n, size);
}
void *realloc(void *p, size_t size) {
    if (refused(size)) { errno = ENOMEM; return 0; }
    return next_realloc(p, size);
}
int posix_memalign(void **p, size_t align, size_t size) {
    if (refused(size)) return ENOMEM;
    return next_memalign(p, align, size);
}
void *aligned_alloc(size_t align, size_t size) {
    if (refused(size)) { errno = ENOMEM; return 0; }
    return next_aligned(align, size);
}
static void (*next_free)(void *);
void free(void *p) {
    if ((char *)p >= early && (char *)p < early + sizeof early) return;
    if (!next_free) next_free = dlsym(RTLD_NEXT, "free");
    next_free(p);
}
"""

SITE = '"site":"01646500"'


def post(target, body=""):
    data = body.encode()
    return b"POST %s HTTP/1.1\r\nContent-Length: %d\r\n\r\n%s" % (target.encode(), len(data), data)


def get(target):
    return b"GET %s HTTP/1.1\r\n\r\n" % target.encode()


def edit(kind, reference, members, by="AB"):
    return post("/edits", '{"kind":"%s","by":"%s","ref":"%s",%s,%s}' % (kind, by, reference, SITE, members))


def station(gap):
    arrays = '"stage_array":"9999999992","discharge_array":"0222233332"'
    return [
        edit("AddStation", "a1", '"name":"POTOMAC","zone":"-05:00","gap":%d,%s' % (gap, arrays)),
        edit("AddRating", "a2", '"rating":1,"rows":[["1.00","10"],["2.00","30"]]'),
        edit("PutPeriod", "a3", '"rating":1,"from":"2023-01-01T00:00:00Z","until":null'),
    ]


def whole_batch():
    rows = '"readings":[["2024-01-05T05:00:00Z","1.00"],["2024-01-05T17:00:00Z","2.00"],["2024-01-06T05:00:00Z","1.00"]]'
    day = "/stations/01646500/days/2024-01-05"
    # Days that no reading changes, so that the readings are accepted behind the approval too.
    span = '"from":"2024-02-01","to":"2024-02-03"'
    reviewed = [
        edit("Review", "a5", span, "RV"),
        edit("Decide", "a6", span + ',"decision":"approve"', "AP"),
        get("/stations/01646500/days/2024-02-02/sheet"),
    ]
    return station(720) + [edit("PutReadings", "a4", rows), *reviewed, get(day), post("/turns/10"), get(day + "/sheet"), get(day)]


def parted(stream):
    """The requests of a stream."""
    found, at = [], 0
    while at < len(stream):
        end = stream.index(b"\r\n\r\n", at) + 4
        length = re.search(rb"\r\nContent-Length: (\d+)\r\n", stream[at:end])
        end += int(length[1]) if length else 0
        found.append(stream[at:end])
        at = end
    return found


def row(name):
    """The requests of the first run of a file of rows, and the replies to them."""
    rows = play_runs.File(name)
    run = play_runs.runs_of(rows.rows[0][1])[0]
    return parted(rows.stream(run, ">")), replies(rows.stream(run, "<"))


def replies(output):
    """The status and the body of each reply."""
    found, at = [], 0
    head = re.compile(rb"HTTP/1.1 (\d+) [^\r]*\r\nContent-Type: [^\r]*\r\nContent-Length: (\d+)\r\n\r\n")
    while at < len(output):
        match = head.match(output, at)
        if not match:
            raise ValueError("no reply at %d: %r" % (at, output[at : at + 80]))
        end = match.end() + int(match[2])
        found.append((int(match[1]), output[match.end() : end]))
        at = end
    return found


def run(program, journal, requests, environment):
    return subprocess.run(
        [program, "batch", "--journal", journal], input=b"".join(requests), capture_output=True, env={**os.environ, **environment}
    )


NO_MEMORY = (507, b'{"code":"NoMemory"}')
# The line on standard error that comes with a status, of those that one allocation less may bring.
LINES = {0: b"", 4: b"streamoffice: disk fault\n", 6: b"streamoffice: out of memory\n"}


def is_ended(ran, statuses):
    """Whether a run ended by one of these statuses, with the line of that; and with nothing on standard output, if not by 0."""
    return ran.returncode in statuses and ran.stderr == LINES[ran.returncode] and (ran.returncode == 0 or not ran.stdout)


def is_told(requests, told, due):
    """Whether each request was told its reply, or one of them 507; behind a POST that was told 507 only that no second one is."""
    if told.count(NO_MEMORY) > 1:
        return False
    for request, reply, its in zip(requests, told, due):
        if reply == NO_MEMORY and request.startswith(b"POST"):
            return True
        if reply not in (its, NO_MEMORY):
            return False
    return True


def refused_run(program, shim, folder, requests, due, number):
    """Runs the batch with one allocation refused, and then once more; which statuses other than 200 came."""
    journal = os.path.join(folder, "journal-%d" % number)
    subprocess.run([program, "init", "--journal", journal], check=True)
    ran = run(program, journal, requests, {"LD_PRELOAD": shim, "REFUSED_ALLOCATION": str(number)})
    if not is_ended(ran, (0, 6)):
        raise SystemExit("allocation %d: status %d, %d bytes, %r" % (number, ran.returncode, len(ran.stdout), ran.stderr))
    if ran.returncode == 6:
        came = (("status", 6),)
    else:
        told = replies(ran.stdout)
        if len(told) != len(requests):
            raise SystemExit("allocation %d: %d replies" % (number, len(told)))
        if not is_told(requests, told, due):
            raise SystemExit("allocation %d: a reply that is neither the one due nor 507" % number)
        came = tuple(sorted({status for status, _ in told if status != 200}))
    again = run(program, journal, requests, {})
    told = replies(again.stdout)
    edits = [body for body in (body for _, body in told) if body.startswith(b'{"edit":')]
    posts = sum(request.startswith(b"POST /edits") for request in requests)
    if again.returncode != 0 or any(status != 200 for status, _ in told) or len(edits) != posts or told[-1] != due[-1]:
        raise SystemExit("allocation %d, sent once more: status %d, %r" % (number, again.returncode, told[-1]))
    os.unlink(journal)
    return came


def count_allocations(words, shim, folder, given=None):
    """How many allocations a command makes, and what it writes."""
    count = os.path.join(folder, "count-of-one")
    ran = subprocess.run(words, input=given, capture_output=True, env={**os.environ, "LD_PRELOAD": shim, "ALLOCATIONS": count})
    if ran.returncode != 0:
        raise SystemExit("%s: status %d, %r" % (words[1:], ran.returncode, ran.stderr))
    made = int(pathlib.Path(count).read_text())
    os.unlink(count)
    if made == 0:
        raise SystemExit("%s: no allocation was seen" % words[1:])
    return made, ran.stdout


def refused(words, shim, number, given=None):
    environment = {**os.environ, "LD_PRELOAD": shim, "REFUSED_ALLOCATION": str(number)}
    return subprocess.run(words, input=given, capture_output=True, env=environment)


def refused_body(program, shim, folder):
    """Sends a body whose bytes are refused, and asks for the counts behind it."""
    journal = os.path.join(folder, "body")
    subprocess.run([program, "init", "--journal", journal], check=True)
    requests = [post("/edits", " " * 4_000_000), get("/status")]
    ran = run(program, journal, requests, {"LD_PRELOAD": shim, "REFUSED_SIZE": "4000000"})
    if not is_ended(ran, (0,)) or replies(ran.stdout) != [NO_MEMORY, (200, b'{"edits":0,"pending":0}')]:
        raise SystemExit("a body without memory: status %d, %r, %r" % (ran.returncode, ran.stdout, ran.stderr))
    print("a body whose bytes are refused is skipped and answered 507, and the next request as ever")


def refused_init(program, shim, folder, number):
    """Makes a journal with one allocation refused, and then with all the memory there is; the status of the first."""
    journal = os.path.join(folder, "made-%d" % number)
    words = [program, "init", "--journal", journal]
    ran = refused(words, shim, number)
    again = subprocess.run(words, capture_output=True)
    if not is_ended(ran, (0, 4, 6)) or ran.stdout or again.returncode != (8 if ran.returncode == 0 else 0):
        raise SystemExit("init, allocation %d: status %d, %r, and then %d" % (number, ran.returncode, ran.stderr, again.returncode))
    if subprocess.run([program, "batch", "--journal", journal], input=b"", capture_output=True).returncode != 0:
        raise SystemExit("init, allocation %d: no journal was made" % number)
    os.unlink(journal)
    return ran.returncode


def station_lines(sites, kept):
    numbers = {site: "edit %d" % number for number, site in enumerate(kept, 1)}
    return "".join("%s %s\n" % (numbers.get(site, "refused NoMemory"), site) for site in sites)


def refused_stations(program, shim, folder, document, number):
    """Adds the stations of a document with one allocation refused, and then with all the memory there is; the status of the first."""
    words = [program, "stations", "--journal", os.path.join(folder, "stations-%d" % number)]
    subprocess.run([program, "init", *words[2:]], check=True)
    ran = refused(words, shim, number, document)
    again = refused(words, shim, 0, document)
    sites, told = re.findall(r'site = "(\d+)"', document.decode()), ran.stdout.decode()
    kept = re.findall(r"edit \d+ (\d+)\n", told)
    due = station_lines(sites, kept) if ran.returncode == 0 else ""
    whole = station_lines(sites, kept + [site for site in sites if site not in kept])
    if not is_ended(ran, (0, 6)) or told != due or told.count("NoMemory") > 1 or again.stdout.decode() != whole:
        raise SystemExit("stations, allocation %d: status %d, %r, %r, and then %r" % (number, ran.returncode, told, ran.stderr, again.stdout))
    return ran.returncode


# How many edits the journal has that is copied; days are approved by some of them.
COPIED = 150


def refused_migration(program, shim, folder, number):
    """Copies a journal with one allocation refused, and then with all the memory there is; the status of the first."""
    source, copy = (pathlib.Path(folder, "%s-%d" % (name, number)) for name in ("source", "copy"))
    content, whole = (journals.journal(range(1, COPIED + 1), form) for form in (1, 2))
    source.write_bytes(content)
    words = [program, "migrate", "--from", str(source), "--journal", str(copy)]
    ran = refused(words, shim, number)
    is_done = copy.exists() and copy.read_bytes() == whole
    again = subprocess.run(words, capture_output=True)
    if not is_ended(ran, (0, 4, 6)) or ran.stdout or (ran.returncode == 0 and not is_done):
        raise SystemExit("migrate, allocation %d: status %d, %r" % (number, ran.returncode, ran.stderr))
    if again.returncode != 0 or copy.read_bytes() != whole or source.read_bytes() != content:
        raise SystemExit("migrate, allocation %d, run again: status %d, or what is copied differs" % (number, again.returncode))
    source.unlink()
    copy.unlink()
    return ran.returncode


def refused_trial(program, shim, text, number):
    """Runs a trial with one allocation refused; its status."""
    ran = refused([program, "trial", "--number", "1"], shim, number)
    if not is_ended(ran, (0, 6)) or ran.stdout != (text if ran.returncode == 0 else b""):
        raise SystemExit("trial, allocation %d: status %d, %d bytes, %r" % (number, ran.returncode, len(ran.stdout), ran.stderr))
    return ran.returncode


def tell(name, statuses):
    """Tells how often each status came. The words come first, so the first status that is not 0 is 6."""
    statuses = list(statuses)
    if next(filter(None, statuses), 0) != 6:
        raise SystemExit("%s: the statuses were %s" % (name, statuses))
    told = ", ".join("%d: %d" % (status, statuses.count(status)) for status in sorted(set(statuses)))
    print("%s with one allocation refused, by status: %s" % (name, told))


def main():
    words = argparse.ArgumentParser()
    words.add_argument("program")
    words.add_argument("--row")
    words.add_argument("--folder", default=".")
    words.add_argument("--jobs", type=int, default=4)
    words.add_argument("--from", dest="first", type=int, default=1)
    words.add_argument("--step", type=int, default=47)
    given = words.parse_args()
    program = str(pathlib.Path(given.program).resolve())
    if not shutil.which("cc"):
        print("there is no C compiler here, so no allocation is refused")
        return 0
    requests, asked = row(given.row) if given.row else (whole_batch(), None)
    with tempfile.TemporaryDirectory(dir=given.folder) as folder:
        source, shim, count = (os.path.join(folder, name) for name in ("shim.c", "shim.so", "count"))
        pathlib.Path(source).write_text(SHIM)
        subprocess.run(["cc", "-O1", "-shared", "-fPIC", "-o", shim, source, "-ldl"], check=True)
        journal = os.path.join(folder, "journal")
        subprocess.run([program, "init", "--journal", journal], check=True)
        ran = run(program, journal, requests, {"LD_PRELOAD": shim, "ALLOCATIONS": count})
        due = replies(ran.stdout)
        allocations = int(pathlib.Path(count).read_text())
        if ran.returncode != 0 or any(status != 200 for status, _ in due) or asked not in (None, due):
            raise SystemExit("with all the memory there is: status %d, %r" % (ran.returncode, due))
        refused_body(program, shim, folder)
        table = {}
        with concurrent.futures.ThreadPoolExecutor(given.jobs) as pool:
            calls = [pool.submit(refused_run, program, shim, folder, requests, due, n) for n in range(given.first, allocations + 1)]
            for call in calls:
                came = call.result()
                table[came] = table.get(came, 0) + 1
            made, _ = count_allocations([program, "init", "--journal", os.path.join(folder, "made")], shim, folder)
            tell("init", pool.map(lambda n: refused_init(program, shim, folder, n), range(1, made + 1)))
            document = (pathlib.Path(__file__).resolve().parent.parent / "examples/stations.toml").read_bytes()
            made, _ = count_allocations([program, "stations", "--journal", os.path.join(folder, "made")], shim, folder, document)
            tell("stations", pool.map(lambda n: refused_stations(program, shim, folder, document, n), range(1, made + 1)))
            source = pathlib.Path(folder, "source")
            source.write_bytes(journals.journal(range(1, COPIED + 1), 1))
            words = [program, "migrate", "--from", str(source), "--journal", os.path.join(folder, "copy")]
            made, _ = count_allocations(words, shim, folder)
            tell("migrate", pool.map(lambda n: refused_migration(program, shim, folder, n), range(1, made + 1)))
            made, text = count_allocations([program, "trial", "--number", "1"], shim, folder)
            turns = [*range(1, min(made, 300) + 1), *range(301, made + 1, given.step)]
            tell("trial", pool.map(lambda n: refused_trial(program, shim, text, n), turns))
    print("statuses other than 200 | runs")
    for came, runs in sorted(table.items(), key=str):
        print("%-23s | %d" % (", ".join(str(status) for status in came) or "none", runs))
    print("%d allocations, each refused once: every request was answered, and the batch sent once more was done" % allocations)
    return 0


if __name__ == "__main__":
    sys.exit(main())
