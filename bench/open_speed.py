#!/usr/bin/env python3
"""How long `pipe` takes to open a store and to serve an empty stream, for stores of 1,000 to 100,000 secrets, one step a
record. The stores are written here, by the format in docs/STORE.md.

Run by hand at the top of the repository, after ./quickstart has built the program:

    python3 bench/open_speed.py
"""
import resource
import subprocess
import sys
import tempfile
import time
from pathlib import Path

PROGRAM = Path("crates/barbicand/out/barbicand").resolve()
COUNTS = [1_000, 10_000, 30_000, 100_000]


def text(value: bytes) -> bytes:
    return len(value).to_bytes(2, "big") + value


def record(number: int) -> bytes:
    """One step that puts a secret with a name and nothing else."""
    moment = (499_162_800).to_bytes(8, "big")
    change = b"\x05" + number.to_bytes(8, "big") + text(b"p1") + text(b"u1") + moment + moment
    change += b"\x01" + text(b"secret %d" % number) + bytes(3) + b"\x05" + b"\x00"
    body = (1).to_bytes(4, "big") + (1).to_bytes(2, "big") + change
    return len(body).to_bytes(4, "big") + body


def store(count: int) -> bytes:
    head = b"\x01BKMSTORE\x01" + (1).to_bytes(8, "big") + (0x123456789ABCDE).to_bytes(8, "big") + bytes(16)
    head += (8).to_bytes(8, "big") + bytes(8)
    return head + b"".join(b"\x01" + record(k) for k in range(count)) + b"\x00"


def opening(name: Path) -> float:
    words = ["pipe", "--store", str(name), "--keys", "examples/demo.keys", "--endpoint", "http://k/v1"]
    best = float("inf")
    for _ in range(5):
        start = time.monotonic()
        subprocess.run([PROGRAM, *words], input=b"", capture_output=True, check=True)
        best = min(best, time.monotonic() - start)
    return best


def main() -> None:
    if not PROGRAM.exists():
        sys.exit("run ./quickstart first")
    with tempfile.TemporaryDirectory(dir=".") as folder:
        for count in COUNTS:
            name = Path(folder) / f"s{count}"
            bytes_of = store(count)
            Path(f"{name}.0").write_bytes(bytes_of)
            seconds = opening(name)
            peak = resource.getrusage(resource.RUSAGE_CHILDREN).ru_maxrss
            size = len(bytes_of) / 2**20
            print(f"{count:7} secrets, {size:6.2f} MiB: {seconds * 1e3:7.1f} ms, {seconds / count * 1e6:5.2f} us a secret, {peak / 1024:6.1f} MiB of memory")


if __name__ == "__main__":
    main()
