"""Unit values as a text in RDB, and what an `import` of them makes of a journal: what the scripts beside this send and compare with."""
import functools
import struct

import journals

# An edit of an import has so many readings at most.
MOST = 100_000
COLUMN, REFERENCE, PERSON, SITE = "1_00065", "u", "AB", "01646500"
HEAD = """# UNIT VALUES, MADE FOR A TEST
agency_cd\tsite_no\tdatetime\ttz_cd\t%s\t%s_cd
5s\t15s\t20d\t6s\t14n\t10s
""" % (COLUMN, COLUMN)


def is_skipped(place):
    """Whether the row at a place has a word in the place of a value."""
    return place % 997 == 5


def stage(place):
    """The stage of the row at a place, in hundredths of a foot."""
    return 100 + place * 7919 % 900


def rows(count):
    """The readings of so many rows, a minute apart, as instants in seconds and stages in millionths."""
    return [(journals.instant(place), stage(place) * 10_000) for place in range(count) if not is_skipped(place)]


def text(count):
    """Unit values with so many rows."""
    lines = [HEAD]
    for place in range(count):
        day, clock = minute_texts(journals.instant(place))
        value = "Ice" if is_skipped(place) else "%d.%02d" % divmod(stage(place), 100)
        lines.append(f"USGS\t{SITE}\t{day} {clock}\tUTC\t{value}\tP\n")
    return "".join(lines).encode()


@functools.cache
def day_text(day):
    return journals.text_of(86_400 * day)[:10]


def minute_texts(seconds):
    """The day and the clock of an instant."""
    minute = seconds % 86_400 // 60
    return day_text(seconds // 86_400), "%02d:%02d" % (minute // 60, minute % 60)


def chunks(readings):
    """The readings of each edit, in order."""
    return [readings[start : start + MOST] for start in range(0, len(readings), MOST)]


def payload(number, readings):
    """The payload of the record of an edit, counted from 1."""
    head = journals.head_of(PERSON, f"{REFERENCE}-{number}")
    return b"\x03" + head + struct.pack("<I", len(readings)) + b"".join(struct.pack("<qqB", at, value, 0) for at, value in readings)


def words(program, journal):
    """The words of an import into a journal."""
    return [program, "import", "--journal", str(journal), "--site", SITE, "--column", COLUMN, "--by", PERSON, "--ref", REFERENCE]
