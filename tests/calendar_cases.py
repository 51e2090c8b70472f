"""Writes a table of cases for `tsds_probe`: random texts of instants, and what Python's datetime says of them.

    python3 calendar_cases.py [SEED] [COUNT]
"""
import json
import random
import re
import sys
from datetime import datetime, timedelta, timezone

EPOCH = datetime(1970, 1, 1, tzinfo=timezone.utc)
LAST = 253_402_300_799_999
FORM = re.compile(
    r"(\d{4}-\d{2}-\d{2})"
    r"(?:T(\d{2}:\d{2})(?::(\d{2})(?:\.(\d{1,9}))?)?(Z|[+-]\d{2}:\d{2})?)?", re.ASCII)


def expected(text):
    """The instant of a text by datetime, or None."""
    if re.fullmatch(r"[0-9]{5,15}", text):
        return int(text) if int(text) <= LAST else None
    parts = FORM.fullmatch(text)
    if not parts:
        return None
    day, minutes, seconds, fraction, zone = parts.groups()
    offset = timedelta()
    if zone and zone != "Z":
        offset = timedelta(hours=int(zone[1:3]), minutes=int(zone[4:6]))
        if int(zone[4:6]) > 59 or offset > timedelta(hours=18):
            return None
        offset = -offset if zone[0] == "-" else offset
    try:
        local = datetime.strptime(f"{day} {minutes or '00:00'}:{seconds or '00'}", "%Y-%m-%d %H:%M:%S")
    except ValueError:
        return None
    if (seconds or "00") > "59":            # strptime takes leap seconds
        return None
    millis = int(((fraction or "") + "000")[:3])
    gap = local.replace(tzinfo=timezone.utc) - EPOCH - offset
    instant = gap // timedelta(milliseconds=1) + millis
    return instant if 0 <= instant <= LAST else None


def printed(instant):
    moment = EPOCH + timedelta(milliseconds=instant)
    return f"{moment.year:04}-{moment:%m-%dT%H:%M:%S}.{instant % 1000:03}Z"


def random_text(random):
    """A text of one of the forms, at times out of range, at times with a byte changed."""
    pick = random.choice
    if random.random() < 0.1:
        text = str(random.randrange(10 ** random.randrange(3, 17))).zfill(random.randrange(1, 17))
    else:
        year = pick([random.randrange(1, 10_000), random.randrange(1968, 2101), 1969, 1970, 1972, 2000, 2100, 9999])
        month = pick([random.randrange(1, 13)] * 8 + [2, random.randrange(0, 20)])
        day = pick([random.randrange(1, 29)] * 6 + [28, 29, 30, 31, random.randrange(0, 40)])
        text = f"{year:04}-{month:02}-{day:02}"
        if random.random() < 0.85:
            high = pick([0] * 19 + [9])
            text += f"T{random.randrange(24 + high):02}:{random.randrange(60 + high):02}"
            if random.random() < 0.8:
                text += f":{random.randrange(60 + high):02}"
                if random.random() < 0.6:
                    text += "." + "".join(pick("0123456789") for _ in range(pick([1, 2, 3, 4, 6, 9, 10])))
            text += pick(["", "Z", "Z", f"{pick('+-')}{random.randrange(20):02}:{random.randrange(61):02}"])
    if random.random() < 0.08:
        place = random.randrange(len(text) + 1)
        text = text[:place] + pick(["", " ", "0", "9", "-", ":", "T", "t", "z", ".", "é", "+"]) + text[place + pick([0, 1]):]
    return text


def main():
    seed = int(sys.argv[1]) if len(sys.argv) > 1 else 1
    count = int(sys.argv[2]) if len(sys.argv) > 2 else 20_000
    source = random.Random(seed)
    for _ in range(count):
        text = random_text(source)
        instant = expected(text)
        answer = {"err": "NotInstant"} if instant is None else {"ok": instant}
        print(json.dumps({"call": "read_instant", "text": text}), "=>", json.dumps(answer))
        if instant is not None:
            print(json.dumps({"call": "print_instant", "instant": instant}), "=>", json.dumps({"ok": printed(instant)}))


main()
