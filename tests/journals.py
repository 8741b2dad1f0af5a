"""Journals of one station, read and written apart from the program: what the scripts beside this compare with.

Edit 1 adds the station, every later one puts a reading, and each tenth one a datum correction instead; some put three readings,
flag all so far, take out the one before, put an estimate, add a rating, put a period of the rating before it, or put a field
measurement. Of each hundred some put an estimate of a day of their own, review that day, approve it and, in every second hundred,
take the approval back; a settlement goes before an approval. Each is under a reference of its own."""
import datetime
import json
import struct

# How a journal begins, by its format. The program makes the second one; in the first no edit has a comment.
HEADERS = {1: b"STREAMOFFICE-J1\n", 2: b"STREAMOFFICE-J2\n"}
HEADER = HEADERS[2]
# The instant of edit 0, if it put a reading, and the stage that the scripts send where it doesn't matter.
FIRST, STAGE = 1_704_430_800, 1_000_000
NAME, ZONE, GAP, STAGES, DISCHARGES = "POTOMAC", "-05:00", 720, "9999999992", "9999999992"


def reference(number):
    """The reference of an edit; all are of one length."""
    return "u-%06d" % number


def instant(number):
    """When the reading of an edit was taken: 1,440 of them are of one day."""
    return FIRST + 60 * number


def correction_set(number):
    """The number of the set that the correction of an edit is of."""
    return 1 + number // 10 % 3


def is_rating(number):
    """Whether an edit adds a rating, under its own number: 160 of the first 4,000 edits, since a station has at most 200."""
    return number % 25 == 13 and number < 4_000


def is_period(number):
    """Whether an edit puts a period of a minute, of the rating that was added last."""
    return number % 50 == 17 and number < 4_000


def is_measurement(number):
    """Whether an edit puts a field measurement, under its own number."""
    return number % 20 == 15 and number < 4_000


def is_bulk(number):
    """Whether an edit puts three readings of its minute, each with another flag."""
    return number % 10 == 6 and number < 4_000


def is_flagging(number):
    """Whether an edit flags every reading up to its own minute as affected: none of the first 20, so that few faults leave some."""
    return number % 20 == 4 and 20 < number < 4_000


def is_drop(number):
    """Whether an edit takes out the reading of the edit before it."""
    return number % 50 == 32 and number < 4_000


def is_estimate(number):
    """Whether an edit puts an estimate, each of another day."""
    return number % 20 == 8 and number < 4_000


def step(number):
    """What an edit does to the day of its hundred, if anything: the day is estimated, reviewed, approved, or approved no more."""
    named = {41: "estimate", 42: "review", 43: "approve", 47: "rescind" if number // 100 % 2 == 1 else None}
    return named.get(number % 100) if number < 4_000 else None


def is_approval(number):
    """Whether an edit approves a day, which has to be computed before."""
    return step(number) == "approve"


FLAGS = ["ok", "erroneous", "affected"]
ROWS = [(0, 0), (1_000_000, 10_000_000), (2_000_000, 30_500_000)]


def day(number):
    """The day that the estimate of an edit is of, counted from 1970-01-01."""
    return FIRST // 86_400 + number


def day_text(number):
    return (datetime.date(1970, 1, 1) + datetime.timedelta(days=day(number))).isoformat()


def reviewed_day(number):
    """The day of the hundred of an edit, counted from 1970-01-01: it is before every reading, and far from the other estimates."""
    return 10_957 + number // 100


def reviewed_day_text(number):
    return (datetime.date(1970, 1, 1) + datetime.timedelta(days=reviewed_day(number))).isoformat()


def person(number):
    """Who sends an edit: a day is reviewed by another person than the one who approves it."""
    return {"review": "RV", "approve": "AP"}.get(step(number), "AB")


def sheet(number):
    """The computation sheet that is stored with the approval of the day of an edit's hundred: of an estimate and no reading."""
    lines = [f"PRIMARY COMPUTATION 01646500 {reviewed_day_text(number)}", "STATE A", "LENGTH 86400", "EDITION 1", "READINGS 0"]
    lines += ["MISSING AFFECTED 0 NORATING 0 BELOW 0 ABOVE 0", "STAGE - COVERED 0", "DISCHARGE - COVERED 0"]
    lines += ["MAX STAGE -", "MIN STAGE -", "MAX DISCHARGE -", "MIN DISCHARGE -", "PUBLISHED 12.40 e"]
    return "".join(line + "\n" for line in lines).encode()


def approvals(count):
    """The approvals among the first edits, of days whose approval none of these takes back."""
    return [number for number in range(1, count + 1) if is_approval(number) and not (step(number + 4) and number + 4 <= count)]


def decimal(millionths):
    return "%d.%06d" % (millionths // 1_000_000, millionths % 1_000_000)


def text_of(seconds):
    return datetime.datetime.fromtimestamp(seconds, datetime.timezone.utc).strftime("%Y-%m-%dT%H:%M:%SZ")


def content(number, raw):
    """The members of an edit behind those that every edit has, and its kind."""
    if number == 1:
        names = ["name", "zone", "gap", "stage_array", "discharge_array"]
        return "AddStation", dict(zip(names, [NAME, ZONE, GAP, STAGES, DISCHARGES]))
    at = text_of(instant(number))
    stage = decimal(raw)
    span = {"from": reviewed_day_text(number), "to": reviewed_day_text(number)}
    if step(number) == "estimate":
        return "PutEstimate", {"day": reviewed_day_text(number), "discharge": "12.4"}
    if step(number) == "review":
        return "Review", span
    if step(number):
        return "Decide", {**span, "decision": step(number)}
    if is_rating(number):
        return "AddRating", {"rating": number, "rows": [[decimal(row[0]), decimal(row[1])] for row in ROWS]}
    if is_period(number):
        return "PutPeriod", {"rating": number - 4, "from": at, "until": text_of(instant(number) + 60)}
    if is_measurement(number):
        return "PutMeasurement", {"number": number, "at": at, "gage": stage, "discharge": "10.5", "grade": "good"}
    if is_bulk(number):
        return "PutReadings", {"readings": [[text_of(instant(number) + 20 * n), stage, flag] for n, flag in enumerate(FLAGS)]}
    if is_flagging(number):
        return "FlagReadings", {"from": text_of(FIRST), "to": at, "flag": "affected"}
    if is_drop(number):
        return "DropReadings", {"from": text_of(instant(number - 1)), "to": at}
    if is_estimate(number):
        return "PutEstimate", {"day": day_text(number), "discharge": stage}
    if number % 10 == 0:
        points = [["0", "0.10"], ["1.50", stage]]
        return "PutCorrection", {"set": correction_set(number), "at": at, "points": points, "prorate": number % 20 == 0}
    return "PutReadings", {"readings": [[at, stage]]}


def request(number, raw=STAGE):
    """The request that sends an edit."""
    kind, members = content(number, raw)
    edit = {"kind": kind, "by": person(number), "ref": reference(number), "site": "01646500", **members}
    body = json.dumps(edit, separators=(",", ":")).encode()
    return b"POST /edits HTTP/1.1\r\nContent-Length: %d\r\n\r\n%s" % (len(body), body)


SETTLEMENT = b"POST /settle HTTP/1.1\r\nContent-Length: 0\r\n\r\n"


def settled_request(number, raw=STAGE):
    """The request that sends an edit, behind the settlement that an approval needs."""
    return (SETTLEMENT if is_approval(number) else b"") + request(number, raw)


def requests(numbers):
    return b"".join(settled_request(number) for number in numbers)


def sheet_request(number):
    """The question for the sheet of the day of an edit's hundred."""
    return b"GET /stations/01646500/days/%s/sheet HTTP/1.1\r\n\r\n" % reviewed_day_text(number).encode()


def sheet_reply(number):
    """The reply to it while the day is approved."""
    head = b"HTTP/1.1 200 OK\r\nContent-Type: text/plain; charset=utf-8\r\nContent-Length: %d\r\n\r\n"
    return head % len(sheet(number)) + sheet(number)


def short(text):
    return bytes([len(text)]) + text.encode()


def head_of(by, named, form=2):
    """What stands between the kind and the fields: who, the reference, the site, and in the second format the comment, which is empty."""
    return short(by) + short(named) + struct.pack("<BQ", 8, 1_646_500) + (b"\0" if form == 2 else b"")


def payload(number, raw=STAGE, form=2):
    """The payload of an edit's record, in a format."""
    head = head_of(person(number), reference(number), form)
    span = struct.pack("<ii", reviewed_day(number), reviewed_day(number))
    if step(number) == "estimate":
        return b"\x0d" + head + struct.pack("<iq", reviewed_day(number), 12_400_000)
    if step(number) == "review":
        return b"\x11" + head + span
    if step(number) == "approve":
        return b"\x12" + head + span + b"\0" + struct.pack("<I", len(sheet(number))) + sheet(number)
    if step(number) == "rescind":
        return b"\x12" + head + span + b"\1"
    if number == 1:
        return b"\x01" + head + short(NAME) + short(ZONE) + struct.pack("<I", GAP) + (STAGES + DISCHARGES).encode()
    if is_rating(number):
        rows = b"".join(struct.pack("<qq", *row) for row in ROWS)
        return b"\x0a" + head + struct.pack("<II", number, len(ROWS)) + rows
    if is_period(number):
        return b"\x0b" + head + struct.pack("<IqBq", number - 4, instant(number), 1, instant(number) + 60)
    if is_measurement(number):
        return b"\x0f" + head + struct.pack("<IqqqB", number, instant(number), raw, 10_500_000, 1)
    if is_bulk(number):
        rows = b"".join(struct.pack("<qqB", instant(number) + 20 * n, raw, n) for n in range(len(FLAGS)))
        return b"\x03" + head + struct.pack("<I", len(FLAGS)) + rows
    if is_flagging(number):
        return b"\x05" + head + struct.pack("<qqB", FIRST, instant(number), 2)
    if is_drop(number):
        return b"\x04" + head + struct.pack("<qq", instant(number - 1), instant(number))
    if is_estimate(number):
        return b"\x0d" + head + struct.pack("<iq", day(number), raw)
    if number % 10 == 0:
        points = struct.pack("<Bqqqq", 2, 0, 100_000, 1_500_000, raw)
        return b"\x06" + head + struct.pack("<Bq", correction_set(number), instant(number)) + points + bytes([number % 20 == 0])
    return b"\x03" + head + struct.pack("<IqqB", 1, instant(number), raw, 0)


def block(number, raw=STAGE, form=2):
    """An open gate, the length and the payload."""
    record = payload(number, raw, form)
    return b"\x01" + struct.pack("<I", len(record)) + record


def journal(numbers, form=2):
    """The journal of these edits, in a format."""
    return HEADERS[form] + b"".join(block(number, form=form) for number in numbers) + b"\0"


class Damaged(Exception):
    """The file is no journal, or is damaged at this offset."""


def read(data):
    """The payloads behind open gates, of whatever edits, and how many bytes stand behind the closed one."""
    if not data.startswith(tuple(HEADERS.values())):
        raise Damaged("no header")
    at, payloads = len(HEADER), []
    while True:
        if at >= len(data):
            raise Damaged(at)
        if data[at] != 1:
            return payloads, len(data) - at - 1
        if at + 5 > len(data):
            raise Damaged(at)
        (length,) = struct.unpack_from("<I", data, at + 1)
        if at + 5 + length > len(data):
            raise Damaged(at)
        payloads.append(data[at + 5 : at + 5 + length])
        at += 5 + length
