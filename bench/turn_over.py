#!/usr/bin/env python3
"""How long the reply to a POST takes that has a snapshot put in the place of the store's records, beside the replies to the
POSTs after it in the same run, which only add a record: over a store whose snapshot has 4 MiB, and over one of 100,000 secrets.
The stores are written here, by the format in docs/STORE.md, with more bytes of records than a store keeps.

Run by hand at the top of the repository, after ./quickstart has built the program:

    python3 bench/turn_over.py [RUNS [POSTS]]
"""
import re
import statistics
import subprocess
import sys
import tempfile
import time
from pathlib import Path
from typing import BinaryIO

from open_speed import PROGRAM, record, store
from pipe import get, post
from rows import id_of

# A record has this many bytes beside its change: its length, its number of steps, its step's number of changes.
AROUND = 10


def rows_for(size: int) -> int:
    """How many secrets a snapshot of so many bytes has."""
    count, total = 0, 8
    while total < size:
        total += len(record(count)) - AROUND
        count += 1
    return count


def reply(stream: BinaryIO) -> bytes:
    """One whole reply."""
    head = b""
    while not head.endswith(b"\r\n\r\n"):
        line = stream.readline()
        assert line, "the program ended"
        head += line
    length = re.search(rb"Content-Length: (\d+)", head)
    return head + stream.read(int(length[1]) if length else 0)


def replies(name: Path, posts: int) -> list[float]:
    """Seconds from each POST to the end of its reply. A GET before them waits until the store is open."""
    words = ["pipe", "--store", str(name), "--keys", "examples/demo.keys", "--endpoint", "http://k/v1"]
    times = []
    with subprocess.Popen([PROGRAM, *words], stdin=subprocess.PIPE, stdout=subprocess.PIPE) as program:
        program.stdin.write(get(id_of(0)))
        program.stdin.flush()
        assert b" 200 " in reply(program.stdout).splitlines()[0]
        for number in range(posts):
            start = time.monotonic()
            program.stdin.write(post(number))
            program.stdin.flush()
            assert b" 201 " in reply(program.stdout).splitlines()[0]
            times.append(time.monotonic() - start)
        program.stdin.close()
    assert program.returncode == 0
    return times


def generation(head: bytes) -> int:
    return int.from_bytes(head[10:18], "big")


def run(name: Path, count: int, posts: int) -> tuple[list[float], int]:
    """The times of one run, and how many bytes its snapshot has."""
    Path(f"{name}.0").write_bytes(store(count))
    Path(f"{name}.1").write_bytes(b"")
    times = replies(name, posts)
    head = Path(f"{name}.1").read_bytes()[:50]
    assert head[:1] == b"\x01" and generation(head) == 2
    return times, int.from_bytes(head[42:50], "big")


def main() -> None:
    if not PROGRAM.exists():
        sys.exit("run ./quickstart first")
    runs = int(sys.argv[1]) if len(sys.argv) > 1 else 5
    posts = int(sys.argv[2]) if len(sys.argv) > 2 else 50
    with tempfile.TemporaryDirectory(dir=".") as folder:
        for count in (rows_for(2**22), 100_000):
            firsts, plain, size = [], [], 0
            for _ in range(runs):
                times, size = run(Path(folder) / "s", count, posts)
                firsts.append(times[0])
                plain += times[2:]
            print(
                f"{count:7} secrets, {size / 2**20:5.2f} MiB of snapshot: with it {min(firsts) * 1e3:6.2f} to"
                f" {max(firsts) * 1e3:6.2f} ms, without {statistics.median(plain) * 1e3:6.3f} ms in the middle"
            )


if __name__ == "__main__":
    main()
