#!/usr/bin/env python3
"""Measures the built program over one connection: POSTs and GETs of secrets without a payload, and with payloads of 32, 1,024 and
20,000 bytes. Run ./quickstart first, then from the top of the repository: python3 bench/pipe.py [POSTS [GETS [FOLDER]]]. The
store is made in the folder, which is the current one if none is named; name one on a file system in memory to see processor
time alone."""
import re
import resource
import subprocess
import sys
import tempfile
import time
from pathlib import Path

PROGRAM = Path("crates/barbicand/out/barbicand").resolve()
KEYS = Path("examples/demo.keys").resolve()
FIELDS = b"X-Project-Id: p1\r\nX-User-Id: u1\r\nX-Roles: creator\r\n"
SIZES = [0, 32, 1_024, 20_000]


def post(number: int, size: int = 0) -> bytes:
    body = b'{"name":"secret %d"' % number
    if size:
        body += b',"payload":"' + b"p" * size + b'","payload_content_type":"text/plain"'
    body += b"}"
    head = b"POST /v1/secrets HTTP/1.1\r\n" + FIELDS + b"Content-Type: application/json\r\n"
    return head + b"Content-Length: %d\r\n\r\n" % len(body) + body


def get(secret: bytes, behind: bytes = b"") -> bytes:
    return b"GET /v1/secrets/" + secret + behind + b" HTTP/1.1\r\n" + FIELDS + b"\r\n"


def pipe(store: Path, stream: bytes) -> tuple[float, float, bytes]:
    """Seconds of wall clock and of processor time, and the replies."""
    words = ["pipe", "--store", str(store), "--keys", str(KEYS), "--endpoint", "http://k/v1"]
    before = resource.getrusage(resource.RUSAGE_CHILDREN)
    start = time.monotonic()
    done = subprocess.run([PROGRAM, *words], input=stream, capture_output=True, check=True)
    wall = time.monotonic() - start
    after = resource.getrusage(resource.RUSAGE_CHILDREN)
    return wall, after.ru_utime - before.ru_utime + after.ru_stime - before.ru_stime, done.stdout


def measure(folder: Path, size: int, posts: int, gets: int) -> None:
    store = folder / f"s{size}"
    subprocess.run([PROGRAM, "init", "--store", str(store)], check=True)
    fresh = sum(Path(f"{store}.{n}").stat().st_size for n in range(2))
    posting, spent, replies = pipe(store, b"".join(post(k, size) for k in range(posts)))
    secrets = re.findall(rb"/v1/secrets/([0-9a-f-]{36})", replies)
    assert len(secrets) == posts
    written = sum(Path(f"{store}.{n}").stat().st_size for n in range(2)) - fresh
    opening, opened, _ = pipe(store, b"")
    behind = b"/payload" if size else b""
    getting, read, replies = pipe(store, b"".join(get(secrets[k % posts], behind) for k in range(gets)))
    assert replies.count(b"200 OK") == gets
    print(f"payloads of {size:6} bytes: POST {posts / posting:8.0f} a second, each with its two syncs, {spent / posts * 1e6:7.1f} us of processor time, {written / posts:8.0f} bytes on the disk")
    print(f"    GET of {'a payload' if size else 'attributes'}: {(read - opened) / gets * 1e6:7.1f} us of processor time; opening {posts} secrets: {opened * 1e3:.1f} ms")


def main() -> None:
    if not PROGRAM.exists():
        sys.exit("run ./quickstart first")
    posts = int(sys.argv[1]) if len(sys.argv) > 1 else 1_000
    gets = int(sys.argv[2]) if len(sys.argv) > 2 else 10_000
    with tempfile.TemporaryDirectory(dir=sys.argv[3] if len(sys.argv) > 3 else ".") as folder:
        for size in SIZES:
            measure(Path(folder), size, posts, gets)
    peak = resource.getrusage(resource.RUSAGE_CHILDREN).ru_maxrss
    print(f"peak memory {peak / 1024:.1f} MiB")


if __name__ == "__main__":
    main()
