#!/usr/bin/env python3
"""Messages a second that the reader of messages reads, beside a plain loop over `httparse` in the same language, in one run; and
what a GET of a secret's attributes costs through the shipped program, over a store of 100 secrets. Both in processor time, and
in calls for memory where there is a C compiler to count them.

Run by hand at the top of the repository, after `rt run` in crates/kms_messages has built the one and ./quickstart the other
program:

    python3 bench/http_speed.py [GETS]

What isn't built is left out, with a line that says so.
"""
import os
import resource
import subprocess
import sys
import tempfile
from pathlib import Path

from open_speed import PROGRAM, store
from pipe import get
from rows import id_of

MESSAGES = Path("crates/kms_messages/out/kms_messages").resolve()
SOURCE = Path(__file__).resolve().parent / "mallocs.c"
SECRETS = 100
IN_STREAM = 1_000


def run(command: list, stream: bytes, env: dict | None = None) -> tuple[float, bytes]:
    """Seconds of processor time, of the program and of the system for it; and what it wrote."""
    before = resource.getrusage(resource.RUSAGE_CHILDREN)
    done = subprocess.run(command, input=stream, capture_output=True, check=True, env=env)
    after = resource.getrusage(resource.RUSAGE_CHILDREN)
    return after.ru_utime - before.ru_utime + after.ru_stime - before.ru_stime, done.stdout


def calls_for_memory(folder: Path, command: list, stream: bytes) -> int:
    counted = folder / "counted"
    run(command, stream, os.environ | {"LD_PRELOAD": str((folder / "mallocs.so").resolve()), "MALLOCS": str(counted)})
    return int(counted.read_text())


def seconds(way: str, count: int) -> float:
    spent, written = run([MESSAGES], b"%d %s\n" % (count, way.encode()))
    assert written == b"%d\n" % IN_STREAM
    return spent


def rate(way: str) -> float:
    """Messages a second: the count grows until the reading takes half a second. The making of the stream is taken off."""
    count = 10
    while True:
        spent = seconds(way, count + 1) - seconds(way, 1)
        if spent > 0.5 or count >= 10_000_000:
            return IN_STREAM * count / spent
        count *= 4 if spent > 0.05 else 20


def the_reader(folder: Path, counts: bool) -> None:
    reader, heads = rate("reader"), rate("heads")
    print(f"reader: {reader:,.0f} messages a second; heads by httparse alone: {heads:,.0f}, {heads / reader:.2f} times as many")
    if counts:
        calls = [calls_for_memory(folder, [MESSAGES], b"%d reader\n" % count) for count in [1, 2]]
        print(f"  {(calls[1] - calls[0]) / IN_STREAM:.2f} calls for memory a message")


def the_program(folder: Path, count: int, counts: bool) -> None:
    words = ["pipe", "--store", str(folder / "s"), "--keys", "examples/demo.keys", "--endpoint", "http://k/v1"]
    gets = b"".join(get(id_of(number % SECRETS)) for number in range(count))

    def on_a_store(measure, stream: bytes):
        (folder / "s.0").write_bytes(store(SECRETS))
        (folder / "s.1").write_bytes(b"")
        return measure([PROGRAM, *words], stream)

    assert b"404 Not Found" not in on_a_store(run, gets)[1]
    opening, reading = (min(on_a_store(run, stream)[0] for _ in range(5)) for stream in [b"", gets])
    print(f"GET of attributes, {SECRETS} secrets: {(reading - opening) / count * 1e6:.2f} us")
    if counts:
        once, twice = (on_a_store(lambda *of: calls_for_memory(folder, *of), stream) for stream in [gets, gets + gets])
        print(f"  {(twice - once) / count:.2f} calls for memory a GET")


def main() -> None:
    with tempfile.TemporaryDirectory(dir=".") as name:
        folder = Path(name)
        counting = ["cc", "-O2", "-shared", "-fPIC", "-o", folder / "mallocs.so", SOURCE, "-ldl"]
        try:
            counts = subprocess.run(counting, check=False).returncode == 0
        except FileNotFoundError:
            counts = False
        if MESSAGES.exists():
            the_reader(folder, counts)
        else:
            print("the reader isn't measured: run `rt run` in crates/kms_messages first")
        if PROGRAM.exists():
            the_program(folder, int(sys.argv[1]) if len(sys.argv) > 1 else 20_000, counts)
        else:
            print("the program isn't measured: run ./quickstart first")


if __name__ == "__main__":
    main()
