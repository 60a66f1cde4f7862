#!/usr/bin/env python3
"""What a GET and a POST cost over stores of 100 and of 100,000 secrets, in processor time without the opening, and the
memory that a secret takes. The stores are written here, by the format in docs/STORE.md.

Run by hand at the top of the repository, after ./quickstart has built the program:

    python3 bench/rows.py [GETS [POSTS]]
"""
import random
import resource
import subprocess
import sys
import tempfile
import uuid
from pathlib import Path

from open_speed import PROGRAM, store
from pipe import get, post

COUNTS = [100, 100_000]
TAG = 0x123456789ABCDE


def id_of(count: int) -> bytes:
    """The id of a count under the tag: 48 bits of the tag, version 8, its last 12 bits, variant 2, the count."""
    return str(uuid.UUID(int=TAG >> 12 << 80 | 8 << 76 | (TAG & 0xFFF) << 64 | 2 << 62 | count)).encode()


def spent(name: Path, stream: bytes) -> float:
    """Seconds of processor time, of the program and of the system for it."""
    words = ["pipe", "--store", str(name), "--keys", "examples/demo.keys", "--endpoint", "http://k/v1"]
    before = resource.getrusage(resource.RUSAGE_CHILDREN)
    done = subprocess.run([PROGRAM, *words], input=stream, capture_output=True, check=True)
    after = resource.getrusage(resource.RUSAGE_CHILDREN)
    assert b"404 Not Found" not in done.stdout
    return after.ru_utime - before.ru_utime + after.ru_stime - before.ru_stime


def best(folder: str, count: int, stream: bytes) -> float:
    name = Path(folder) / "s"
    least = float("inf")
    for _ in range(5):
        (Path(folder) / "s.0").write_bytes(store(count))
        (Path(folder) / "s.1").write_bytes(b"")
        least = min(least, spent(name, stream))
    return least


def main() -> None:
    if not PROGRAM.exists():
        sys.exit("run ./quickstart first")
    gets = int(sys.argv[1]) if len(sys.argv) > 1 else 20_000
    posts = int(sys.argv[2]) if len(sys.argv) > 2 else 2_000
    drawn = random.Random(1)
    peak = 0
    for count in COUNTS:
        reading = b"".join(get(id_of(drawn.randrange(count))) for _ in range(gets))
        writing = b"".join(post(number) for number in range(posts))
        with tempfile.TemporaryDirectory(dir=".") as folder:
            opening = best(folder, count, b"")
            got = (best(folder, count, reading) - opening) / gets
            put = (best(folder, count, writing) - opening) / posts
        memory = resource.getrusage(resource.RUSAGE_CHILDREN).ru_maxrss * 1024
        took = f", {(memory - peak) / count:.0f} bytes a secret more than at {COUNTS[0]}" if peak else ""
        peak = memory
        print(f"{count:7} secrets: opening {opening * 1e3:7.1f} ms, GET {got * 1e6:6.2f} us, POST {put * 1e6:6.2f} us{took}")


if __name__ == "__main__":
    main()
