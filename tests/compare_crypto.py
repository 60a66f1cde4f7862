#!/usr/bin/env python3
"""Compares AES-128, HMAC-SHA-256 and Fernet tokens of the built code with openssl, Python's hmac and
Python's cryptography, on random keys and texts of all lengths around the ends of blocks.

Usage: tests/compare_crypto.py PROGRAM [CASES]
PROGRAM is the built program of crates/kms_vectors (`rt run` there builds it). What needs a tool that
is missing is skipped, and said. The status is 1 if anything differs.
"""

import base64
import hashlib
import hmac
import random
import shutil
import subprocess
import sys

try:
    from cryptography.fernet import Fernet
    from cryptography.hazmat.primitives.ciphers import Cipher, algorithms, modes
except ImportError:
    Fernet = None

ALPHABET = "ABCDEFGHIJKLMNOPQRSTUVWXYZabcdefghijklmnopqrstuvwxyz0123456789-_"


def answers(program, lines):
    done = subprocess.run([program], input="".join(line + "\n" for line in lines), capture_output=True, text=True, check=True)
    return done.stdout.split("\n")[:-1]


def openssl_block(option, key, block):
    done = subprocess.run(
        ["openssl", "enc", option, "-aes-128-ecb", "-nopad", "-K", key.hex()], input=block, capture_output=True, check=True
    )
    return done.stdout.hex()


def tag_of(key, signed):
    return hmac.new(key[:16], signed, hashlib.sha256).digest()


def answer_of(key, text):
    """The plain bytes of a token in hexadecimal digits, or the name of the first fault of its text."""
    try:
        raw = base64.b64decode(text, altchars=b"-_", validate=True)
    except ValueError:
        return "Base64"
    if base64.urlsafe_b64encode(raw).decode() != text:
        return "Base64"
    if len(raw) < 73:
        return "Short"
    if raw[0] != 0x80:
        return "Version"
    if (len(raw) - 57) % 16:
        return "Length"
    if tag_of(key, raw[:-32]) != raw[-32:]:
        return "Mac"
    decryptor = Cipher(algorithms.AES(key[16:]), modes.CBC(raw[9:25])).decryptor()
    plain = decryptor.update(raw[25:-32]) + decryptor.finalize()
    count = plain[-1]
    if count not in range(1, 17) or plain[-count:] != bytes([count]) * count:
        return "Padding"
    return plain[:-count].hex()


def with_faults(draw, key, token):
    """Each front of a token, it with each character changed, and three that are signed anew."""
    raw = base64.urlsafe_b64decode(token)
    texts = [token[:length] for length in range(len(token))]
    for at, was in enumerate(token):
        for other in {draw.choice(ALPHABET), draw.choice("=+/ .~"), "A"} - {was}:
            texts.append(token[:at] + other + token[at + 1 :])
    for signed in [raw[:-33], raw[:-33] + bytes([raw[-33] ^ 1]), b"\x81" + raw[1:-32]]:
        texts.append(base64.urlsafe_b64encode(signed + tag_of(key, signed)).decode())
    return texts


def compare(name, lines, wanted, found):
    wrong = [(line, want, got) for line, want, got in zip(lines, wanted, found, strict=True) if want != got]
    for line, want, got in wrong[:3]:
        print(f"{name}: {line[:200]}\n  wanted {want[:200]}\n  found  {got[:200]}")
    print(f"{name}: {len(lines) - len(wrong)} of {len(lines)} agree")
    return not wrong


def main():
    if len(sys.argv) < 2:
        sys.exit(__doc__)
    program = sys.argv[1]
    cases = int(sys.argv[2]) if len(sys.argv) > 2 else 100
    seed = random.randrange(2**32)
    print(f"seed {seed}")
    draw = random.Random(seed)
    lengths = [draw.choice([16, 32, 48, 64, 128, 1024]) + draw.randint(-2, 2) for _ in range(cases)] + list(range(70))
    good = True

    blocks = [(draw.randbytes(16), draw.randbytes(16)) for _ in range(cases)]
    if shutil.which("openssl"):
        lines = [f"aes {key.hex()} {block.hex()}" for key, block in blocks]
        wanted = [f"{openssl_block('-e', key, block)} {openssl_block('-d', key, block)}" for key, block in blocks]
        good &= compare("AES-128 and openssl", lines, wanted, answers(program, lines))
    else:
        print("AES-128: skipped, no openssl")

    texts = [(draw.randbytes(draw.choice([0, 1, 16, 32, 63, 64, 65, 100])), draw.randbytes(length)) for length in lengths]
    lines = [f"mac {key.hex()} {text.hex()}" for key, text in texts]
    wanted = [hmac.new(key, text, hashlib.sha256).hexdigest() for key, text in texts]
    good &= compare("HMAC and hmac", lines, wanted, answers(program, lines))

    if Fernet is None:
        print("tokens: skipped, no cryptography")
        return 0 if good else 1

    sealed = [(draw.randbytes(32), draw.randrange(2**40), draw.randbytes(16), draw.randbytes(length)) for length in lengths]
    lines = [f"seal {key.hex()} {moment} {iv.hex()} {plain.hex()}" for key, moment, iv, plain in sealed]
    found = answers(program, lines)
    theirs = [Fernet(base64.urlsafe_b64encode(key)) for key, _, _, _ in sealed]
    wanted = [
        fernet._encrypt_from_parts(plain, moment, iv).decode() for fernet, (_, moment, iv, plain) in zip(theirs, sealed)
    ]
    good &= compare("seal and cryptography", lines, wanted, found)
    opened = [fernet.decrypt(token.encode()).hex() for fernet, token in zip(theirs, found)]
    good &= compare("sealed here, opened by cryptography", lines, [plain.hex() for _, _, _, plain in sealed], opened)

    lines = [
        f"unseal {key.hex()} {fernet.encrypt(plain).decode()}" for fernet, (key, _, _, plain) in zip(theirs, sealed)
    ]
    good &= compare("sealed by cryptography, opened here", lines, [plain.hex() for _, _, _, plain in sealed], answers(program, lines))

    cases = []
    for length in [0, 15, 16, 33, 50, 63]:
        key = draw.randbytes(32)
        token = Fernet(base64.urlsafe_b64encode(key)).encrypt(draw.randbytes(length)).decode()
        cases += [(key, text) for text in with_faults(draw, key, token)]
    lines = [f"unseal {key.hex()} {text}" for key, text in cases]
    good &= compare("cut and changed tokens, by their faults", lines, [answer_of(key, text) for key, text in cases], answers(program, lines))
    return 0 if good else 1


if __name__ == "__main__":
    sys.exit(main())
