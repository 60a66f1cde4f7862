#!/usr/bin/env python3
"""What a page of ten costs out of 1,000 and out of 100,000 secrets, per row, in one run, and the ratio of the two.

Usage: bench/page_speed.py PROGRAM
PROGRAM is the built program of crates/kms_lists (`rt run` there builds it). The making of the secrets is taken off.
"""
import subprocess
import sys
import time

QUERIES = {
    "no filter, no key": "offset=500",
    "a filter, no key": "bits=256&offset=100",
    "one key": "sort=name",
    "two keys": "sort=name:desc,created",
}
SIZES = [1_000, 100_000]


def seconds(program, count, rows, query):
    begin = time.perf_counter()
    subprocess.run([program], input=f"{count} {rows} {query}\n", stdout=subprocess.DEVNULL, text=True, check=True)
    return time.perf_counter() - begin


def page_seconds(program, rows, query):
    """Seconds for one page: the count grows until the pages take a second."""
    count = 4
    while True:
        spent = seconds(program, count, rows, query) - seconds(program, 1, rows, query)
        if spent > 1 or count >= 100_000_000:
            return spent / (count - 1)
        count *= 4 if spent > 0.05 else 20


def main():
    if len(sys.argv) != 2:
        sys.exit(__doc__)
    for name, query in QUERIES.items():
        pages = [page_seconds(sys.argv[1], rows, query) for rows in SIZES]
        rates = [1e9 * spent / rows for spent, rows in zip(pages, SIZES)]
        print(f"{name}: " + ", ".join(f"{rate:.2f} ns a row of {rows}" for rate, rows in zip(rates, SIZES)) + f", ratio {rates[1] / rates[0]:.2f}")


main()
