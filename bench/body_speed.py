#!/usr/bin/env python3
"""How many bodies are checked a second: of a secret with every field and 32 and 20,000 bytes of payload, of a container of
100 members, and of metadata of 100 pairs.

Usage: bench/body_speed.py PROGRAM
PROGRAM is the built program of crates/kms_bodies (`rt run` there builds it). The making of the body is taken off.
"""
import subprocess
import sys
import time

BODIES = {
    "secret": "a secret with every field and 32 bytes",
    "payload": "a secret with every field and 20,000 bytes",
    "members": "a container of 100 members",
    "pairs": "metadata of 100 pairs",
}


def seconds(program, count, body):
    begin = time.perf_counter()
    subprocess.run([program], input=f"{count} {body}\n", stdout=subprocess.DEVNULL, text=True, check=True)
    return time.perf_counter() - begin


def check_seconds(program, body):
    """Seconds for one check: the count grows until the checks take a second."""
    count = 100
    while True:
        spent = seconds(program, count, body) - seconds(program, 1, body)
        if spent > 1 or count >= 1_000_000_000:
            return spent / (count - 1)
        count *= 4 if spent > 0.05 else 20


def main():
    if len(sys.argv) != 2:
        sys.exit(__doc__)
    for body, name in BODIES.items():
        print(f"{name}: {1 / check_seconds(sys.argv[1], body):,.0f} checks a second")


main()
