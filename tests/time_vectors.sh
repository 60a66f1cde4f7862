#!/bin/sh
# Computes the tables of times in crates/kms_text/src/tests.rt again, with Python's calendar, and ends with status 1 where
# a row differs. Run it as: sh tests/time_vectors.sh. Where there is no python3 it says so and ends with status 0.
command -v python3 >/dev/null 2>&1 || {
    echo "time_vectors: skipped, there is no python3"
    exit 0
}
cd "$(dirname "$0")/.." || exit 1
exec python3 - <<'END'
import re
import sys
from datetime import datetime, timedelta

FORM = re.compile(
    r"(\d{4})-(\d{2})-(\d{2})T(\d{2}):(\d{2}):(\d{2})(?:\.\d{1,9})?(?:Z|([+-])(\d{2}):(\d{2}))?", re.ASCII
)
EPOCH = datetime(1970, 1, 1)


def moment_of(text):
    """The seconds since 1970 that a text shows, or None."""
    parts = FORM.fullmatch(text)
    if parts is None:
        return None
    try:
        local = datetime(*(int(parts.group(k)) for k in range(1, 7)))
    except ValueError:
        return None
    moment = (local - EPOCH) // timedelta(seconds=1)
    if parts.group(7):
        hours, minutes = int(parts.group(8)), int(parts.group(9))
        if hours > 23 or minutes > 59:
            return None
        seconds = hours * 3600 + minutes * 60
        moment += -seconds if parts.group(7) == "+" else seconds
    return moment if 0 <= moment < 253402300800 else None


def text_of(moment):
    """The text of a moment."""
    at = EPOCH + timedelta(seconds=moment)
    return f"{at.year:04}-{at.month:02}-{at.day:02}T{at.hour:02}:{at.minute:02}:{at.second:02}"


source = open("crates/kms_text/src/tests.rt", encoding="utf-8").read()
written = re.findall(r'^    \((\d[\d_]*), "([^"]*)"\),$', source, re.M)
read_table = source.split("static READ")[1].split("];")[0]
read = re.findall(r'^    \("([^"]*)", (None|Some\(([\d_]+)\))\),$', read_table, re.M)
faults = [f"{moment} is written as {text_of(int(moment))}" for moment, text in written if text_of(int(moment)) != text]
faults += [
    f"{text!r} is read as {moment_of(text)}"
    for text, value, number in read
    if moment_of(text) != (None if value == "None" else int(number))
]
counts = [int(n) for n in re.findall(r"^static (?:WRITTEN|READ): \[.*; (\d+)\]", source, re.M)]
if counts != [len(written), len(read)]:
    faults.append(f"the tables have {counts} rows, and {[len(written), len(read)]} were read")
for fault in faults:
    print("time_vectors:", fault)
print(f"time_vectors: {len(written)} written, {len(read)} read, {len(faults)} faults")
sys.exit(1 if faults else 0)
END
