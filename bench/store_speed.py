#!/usr/bin/env python3
"""How long commits take, and how long a store of 1, 2, 4 and 8 MiB takes to open and to read, in one run.

Usage: bench/store_speed.py PROGRAM [FOLDER]
PROGRAM is the built program of crates/kms_stores (`rt run` there builds it). The stores are made in FOLDER, or in a new
folder of the system's, and removed again. Each commit waits for the disk twice.
"""
import os
import shutil
import subprocess
import sys
import tempfile
import time

RECORD = 1_000
FRAMED = RECORD + 5
SIZES = [1, 2, 4, 8]


def answers(program, folder, *lines):
    """The program's answers to these lines, and the seconds that it took."""
    begin = time.perf_counter()
    done = subprocess.run([program], input="".join(line + "\n" for line in lines), stdout=subprocess.PIPE, text=True, check=True, cwd=folder)
    return done.stdout.split("\n")[:-1], time.perf_counter() - begin


def built_loop(folder):
    """The loop in C, or None where there is no compiler."""
    compiler = shutil.which("cc") or shutil.which("gcc")
    if compiler is None:
        return None
    loop = os.path.join(folder, "two_syncs")
    source = os.path.join(os.path.dirname(os.path.abspath(__file__)), "two_syncs.c")
    subprocess.run([compiler, "-O2", "-o", loop, source], check=True)
    return loop


def loop_time(loop, folder, count):
    """The microseconds of one turn of the loop, out of so many."""
    if loop is None:
        return None
    done = subprocess.run([loop, "loop.file", str(count), str(FRAMED)], stdout=subprocess.PIPE, text=True, check=True, cwd=folder)
    return int(done.stdout)


def main():
    program = os.path.abspath(sys.argv[1])
    with tempfile.TemporaryDirectory(dir=sys.argv[2] if len(sys.argv) > 2 else None) as folder:
        _, nothing = answers(program, folder, "?")
        loop = built_loop(folder)
        answers(program, folder, "make s")
        first = None
        count = 0
        for size in SIZES:
            more = size * 2**20 // FRAMED - count
            before = loop_time(loop, folder, more)
            _, spent = answers(program, folder, f"add s {more} {RECORD}")
            after = loop_time(loop, folder, more)
            count += more
            opens = [answers(program, folder, "open s") for _ in range(5)]
            seconds = min(spent for _, spent in opens) - nothing
            first = first or seconds / size
            print(f"{size} MiB, {opens[0][0][0]}: opened and read in {seconds * 1000:.1f} ms, {seconds / size / first:.2f} of the first per MiB; {more} commits, {spent / more * 1e6:.0f} us each, beside {before} and {after} us of the loop")


if __name__ == "__main__":
    main()
