#!/usr/bin/env python3
"""Bytes a second of `seal` and `unseal` in a built program, beside Python's cryptography and
`openssl speed`, in one run, as ratios.

Usage: bench/token_speed.py PROGRAM
PROGRAM is the built program of crates/kms_vectors (`rt run` there builds it). Its rates have the
reading and printing of hexadecimal digits in them.
"""

import base64
import os
import shutil
import subprocess
import sys
import time

try:
    from cryptography.fernet import Fernet
except ImportError:
    Fernet = None


def rate(program, size, count, line):
    """Bytes a second over `count` calls, with the start of the program taken off."""
    def seconds(times):
        begin = time.perf_counter()
        subprocess.run([program], input=f"repeat {times} {line}\n", stdout=subprocess.DEVNULL, text=True, check=True)
        return time.perf_counter() - begin

    spent = seconds(count + 1) - seconds(1)
    if spent <= 0.05:
        sys.exit("the machine is too busy, or the count too small, to tell")
    return size * count / spent


def openssl_rate(size):
    done = subprocess.run(
        ["openssl", "speed", "-mr", "-elapsed", "-seconds", "1", "-bytes", str(size), "-evp", "aes-128-cbc"],
        capture_output=True, text=True, check=True,
    )
    return float(next(line for line in done.stdout.split("\n") if line.startswith("+F:")).split(":")[-1])


def main():
    if len(sys.argv) != 2:
        sys.exit(__doc__)
    program = sys.argv[1]
    key, iv = os.urandom(32), os.urandom(16)
    for size in [32, 1024, 20000]:
        count = max(100, 8_000_000 // (size + 200))
        plain = os.urandom(size)
        seal = f"seal {key.hex()} 0 {iv.hex()} {plain.hex()}"
        token = subprocess.run([program], input=seal + "\n", capture_output=True, text=True, check=True).stdout.strip()
        rates = {
            "seal": rate(program, size, count, seal),
            "unseal": rate(program, size, count, f"unseal {key.hex()} {token}"),
        }
        print(f"{size} bytes: seal {rates['seal'] / 1e6:.1f} MB/s, unseal {rates['unseal'] / 1e6:.1f} MB/s")
        if Fernet is not None:
            fernet = Fernet(base64.urlsafe_b64encode(key))
            begin = time.perf_counter()
            for _ in range(count):
                fernet._encrypt_from_parts(plain, 0, iv)
            theirs = size * count / (time.perf_counter() - begin)
            print(f"  seal is {rates['seal'] / theirs:.2f} of cryptography's rate")
            begin = time.perf_counter()
            for _ in range(count):
                fernet.decrypt(token.encode())
            theirs = size * count / (time.perf_counter() - begin)
            print(f"  unseal is {rates['unseal'] / theirs:.2f} of cryptography's rate")
        if shutil.which("openssl"):
            print(f"  seal is {rates['seal'] / openssl_rate(size):.3f} of openssl's AES-128-CBC alone")
    return 0


if __name__ == "__main__":
    sys.exit(main())
