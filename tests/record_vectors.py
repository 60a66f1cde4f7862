#!/usr/bin/env python3
"""Computes the tables of the tests in crates/kms_record/src again, with a writer and a reader of its own, and ends with
status 1 where a table differs. With --write it writes the tables there.

The PARTs of the rows have bytes and whether they are a record: each kind of change, and each limit at its edge and one past it. MUTATED
says which of 2,000 changed rows are records, folded into one number. ACCEPTED has, for each place of the record
ONE_SECRET, how many of the 256 values make it a record."""
import re
import struct
import sys
from pathlib import Path

SOURCES = Path(__file__).resolve().parent.parent / "crates" / "kms_record" / "src"
END = 253402300800
NAME = re.compile(rb"[A-Za-z0-9._-]{1,64}")
MUTATIONS = 2000
PARTS = 14


def u8(n):
    return struct.pack(">B", n)


def u16(n):
    return struct.pack(">H", n)


def u32(n):
    return struct.pack(">I", n)


def u64(n):
    return struct.pack(">Q", n)


def text(value):
    data = value if isinstance(value, bytes) else value.encode()
    return u16(len(data)) + data


def option(value, spell):
    return b"\0" if value is None else b"\1" + spell(value)


def token(data):
    return u32(len(data)) + data


def listed(values, spell):
    return u8(len(values)) + b"".join(spell(value) for value in values)


def limit(value):
    return {None: b"\0", -1: b"\1"}.get(value) or b"\2" + u32(value)


def with_defaults(defaults, fields):
    unknown = set(fields) - set(defaults)
    if unknown:
        sys.exit(f"record_vectors: no fields {unknown}")
    return {**defaults, **fields}


def key(kind, **fields):
    f = with_defaults({"project": "p1", "number": 1, "wrapped": bytes(range(140))}, fields)
    return u8(kind) + text(f["project"]) + u32(f["number"]) + f["wrapped"]


def token_replaced(**fields):
    f = with_defaults({"secret": 0, "number": 2, "token": b"g" * 100}, fields)
    return u8(3) + u64(f["secret"]) + u32(f["number"]) + token(f["token"])


def key_dropped(**fields):
    f = with_defaults({"project": "p1", "number": 1}, fields)
    return u8(4) + text(f["project"]) + u32(f["number"])


def head(f):
    return u64(f["id"]) + text(f["project"]) + text(f["creator"]) + u64(f["created"]) + u64(f["updated"])


HEAD = {"id": 0, "project": "p1", "creator": "u1", "created": 499162800, "updated": 499162801}


def secret(**fields):
    f = with_defaults({**HEAD, "updated": 499162800, "name": "a", "algorithm": None, "bits": None, "mode": None, "kind": 5,
                       "expiration": None}, fields)
    return (u8(5) + head(f) + option(f["name"], text) + option(f["algorithm"], text) + option(f["bits"], u16)
            + option(f["mode"], text) + u8(f["kind"]) + option(f["expiration"], u64))


def payload(**fields):
    f = with_defaults({"secret": 0, "updated": 7, "media": 1, "number": 1, "token": b"g" * 120}, fields)
    return u8(6) + u64(f["secret"]) + u64(f["updated"]) + u8(f["media"]) + u32(f["number"]) + token(f["token"])


def metadata(**fields):
    f = with_defaults({"secret": 0, "updated": 7, "pairs": [("a", "x"), ("b", "")]}, fields)
    return u8(7) + u64(f["secret"]) + u64(f["updated"]) + listed(f["pairs"], lambda p: text(p[0]) + text(p[1]))


def container(**fields):
    f = with_defaults({**HEAD, "name": None, "kind": 1, "members": [("public_key", 1), (None, 2)]}, fields)
    return (u8(8) + head(f) + option(f["name"], text) + u8(f["kind"])
            + listed(f["members"], lambda m: option(m[0], text) + u64(m[1])))


def consumer_added(**fields):
    f = with_defaults({"container": 3, "name": "lbaas", "url": "https://lb.example/v2/1", "created": 9}, fields)
    return u8(9) + u64(f["container"]) + text(f["name"]) + text(f["url"]) + u64(f["created"])


def consumer_dropped(**fields):
    f = with_defaults({"container": 3, "name": "lbaas", "url": "https://lb.example/v2/1"}, fields)
    return u8(10) + u64(f["container"]) + text(f["name"]) + text(f["url"])


def acl(**fields):
    f = with_defaults({"target": 4, "access": 1, "created": 5, "updated": 6, "users": ["u1", "u2"]}, fields)
    return u8(11) + u64(f["target"]) + u8(f["access"]) + u64(f["created"]) + u64(f["updated"]) + listed(f["users"], text)


def acl_dropped(target=4):
    return u8(12) + u64(target)


def order(**fields):
    f = with_defaults({**HEAD, "algorithm": "aes", "bits": 256, "mode": "cbc", "name": None, "expiration": None,
                       "state": b"\0"}, fields)
    return (u8(13) + head(f) + text(f["algorithm"]) + u16(f["bits"]) + option(f["mode"], text) + option(f["name"], text)
            + option(f["expiration"], u64) + f["state"])


def quota(**fields):
    f = with_defaults({"project": "p1", "limits": (1, -1, None, 1000000000)}, fields)
    return u8(14) + text(f["project"]) + option(f["limits"], lambda four: b"".join(map(limit, four)))


def deleted(id=5):
    return u8(15) + u64(id)


def step(*changes):
    return u16(len(changes)) + b"".join(changes)


def body(*steps):
    return u32(len(steps)) + b"".join(steps)


def one(change):
    return body(step(change))


class Off(Exception):
    """The bytes are no record."""


class Input:
    def __init__(self, data):
        self.data = data

    def take(self, count):
        if len(self.data) < count:
            raise Off
        front, self.data = self.data[:count], self.data[count:]
        return front

    def number(self, size, low, high):
        value = int.from_bytes(self.take(size), "big")
        if not low <= value < high:
            raise Off
        return value

    def text(self):
        data = self.take(self.number(2, 0, 256))
        try:
            data.decode()
        except UnicodeDecodeError as fault:
            raise Off from fault
        return data

    def name(self):
        data = self.take(self.number(2, 0, 2**16))
        if not NAME.fullmatch(data):
            raise Off
        return data

    def id(self):
        self.number(8, 0, 2**62)

    def time(self):
        self.number(8, 0, END)

    def token(self):
        self.take(self.number(4, 100, 26765))

    def option(self, read):
        if self.number(1, 0, 2):
            read()

    def listed(self, read):
        return [read() for _ in range(self.number(1, 0, 101))]

    def head(self):
        self.id()
        self.name()
        self.name()
        self.time()
        self.time()

    def pair(self):
        key = self.text()
        self.text()
        return key

    def member(self):
        self.option(self.text)
        self.id()

    def limit(self):
        if self.number(1, 0, 3) == 2:
            self.number(4, 0, 1000000001)

    def state(self):
        form = self.number(1, 0, 3)
        if form == 1:
            self.id()
        if form == 2:
            self.number(1, 0, 3)

    def change(self):
        kind = self.number(1, 1, 16)
        if kind in (1, 2):
            self.name()
            self.take(4 + 140)
        if kind == 3:
            self.id()
            self.take(4)
            self.token()
        if kind == 4:
            self.name()
            self.take(4)
        if kind == 5:
            self.head()
            self.option(self.text)
            self.option(self.text)
            self.option(lambda: self.number(2, 1, 32768))
            self.option(self.text)
            self.number(1, 0, 6)
            self.option(self.time)
        if kind == 6:
            self.id()
            self.time()
            self.number(1, 0, 2)
            self.take(4)
            self.token()
        if kind == 7:
            self.id()
            self.time()
            keys = self.listed(self.pair)
            if any(a >= b for a, b in zip(keys, keys[1:])):
                raise Off
        if kind == 8:
            self.head()
            self.option(self.text)
            self.number(1, 0, 3)
            self.listed(self.member)
        if kind in (9, 10):
            self.id()
            self.text()
            self.text()
        if kind == 9:
            self.time()
        if kind == 11:
            self.id()
            self.number(1, 0, 2)
            self.time()
            self.time()
            names = self.listed(self.name)
            if len(set(names)) < len(names):
                raise Off
        if kind in (12, 15):
            self.id()
        if kind == 13:
            self.head()
            self.text()
            self.number(2, 1, 32768)
            self.option(self.text)
            self.option(self.text)
            self.option(self.time)
            self.state()
        if kind == 14:
            self.name()
            self.option(lambda: [self.limit() for _ in range(4)])


def is_body(data):
    left = Input(data)
    try:
        for _ in range(left.number(4, 1, 2**32)):
            for _ in range(left.number(2, 1, 2**16)):
                left.change()
    except Off:
        return False
    return not left.data


GOOD = one(secret())
LONG = "n" * 64
BAD_TEXTS = [b"\xc3(", b"\xff", b"\xed\xa0\x80", b"\xf4\x90\x80\x80", b"\xc0\x80", b"\xe2\x82"]


def edges(make, name, good, bad):
    return [one(make(**{name: value})) for value in [*good, *bad]]


def cuts(record):
    """The record without its last byte, with one more, and cut in its midst."""
    return [record[:-1], record + b"\0", record[: len(record) // 2]]


def heads(make):
    rows = edges(make, "id", [2**62 - 1], [2**62, 2**64 - 1])
    rows += edges(make, "project", [LONG, "A-z_0.9"], ["", LONG + "n", "a/b", "\u00e9"])
    rows += edges(make, "creator", [LONG], ["", LONG + "n", "a b"])
    rows += edges(make, "created", [0, END - 1], [END])
    return rows + edges(make, "updated", [0, END - 1], [END])


def optional_texts(make, name):
    rows = edges(make, name, [None, "", "x" * 255, "\u20ac\U0001f511"], ["x" * 256])
    return rows + edges(make, name, [], BAD_TEXTS[:2])


def texts(make, name):
    return edges(make, name, ["", "x", "x" * 255, "\u00e9"], ["x" * 256, *BAD_TEXTS])


KINDS = [key(1), key(2), token_replaced(), key_dropped(), secret(), payload(), metadata(), container(), consumer_added(),
         consumer_dropped(), acl(), acl_dropped(), order(), quota(), deleted()]


def rows():
    out = [one(change) for change in KINDS]
    out += [body(step(*KINDS)), body(step(secret()), step(secret())), body(*(step(change) for change in KINDS))]
    out += [cut for change in KINDS for cut in cuts(one(change))]
    out += [b"", body(), body(step()), body(step(secret()), step()), u32(2) + GOOD[4:], u32(2**32 - 1) + GOOD[4:],
            GOOD[:4] + b"\xff\xff" + GOOD[6:], one(u8(0) + secret()[1:]), one(u8(16) + secret()[1:]), one(u8(255))]
    for kind in (1, 2):
        out += [one(key(kind, **f)) for f in [{"project": LONG}, {"project": LONG + "n"}, {"project": ""}, {"number": 0},
                                             {"number": 2**32 - 1}, {"wrapped": bytes(139)}, {"wrapped": bytes(141)}]]
    for make in (token_replaced, payload):
        out += edges(make, "token", [b"t" * 100], [b"t" * 99, b""])
        out += edges(make, "secret", [2**62 - 1], [2**62])
    out += edges(payload, "updated", [END - 1], [END]) + edges(payload, "media", [0, 1], [2, 255])
    out += edges(key_dropped, "project", [LONG], [LONG + "n", "", "a b"]) + edges(key_dropped, "number", [0, 2**32 - 1], [])
    out += heads(secret)
    for name in ("name", "algorithm", "mode"):
        out += optional_texts(secret, name)
    out += edges(secret, "bits", [1, 32767], [0, 32768, 65535]) + edges(secret, "kind", range(6), [6, 255])
    out += edges(secret, "expiration", [0, END - 1], [END])
    out += [GOOD.replace(b"\1\0\1a", b"\2\0\1a"), GOOD.replace(b"\1\0\1a", b"\0"), GOOD.replace(b"\1\0\1a", b"\1\0\2a")]
    out += edges(metadata, "secret", [2**62 - 1], [2**62]) + edges(metadata, "updated", [END - 1], [END])
    pairs = lambda *keys: [(name, "") for name in keys]
    hundred = [f"k{n:02}" for n in range(101)]
    out += edges(metadata, "pairs", [[], pairs("a"), pairs("a", "aa", "b"), pairs("A", "a"), pairs("a", "\u00e9"),
                                     pairs(""), pairs("", "a"), pairs(*sorted(hundred[:100])), [("x" * 255, "y" * 255)]],
                 [pairs("a", "a"), pairs("b", "a"), pairs("aa", "a"), pairs("a", "c", "b"), pairs("a", "b", "a"), pairs("a", ""),
                  pairs(*sorted(hundred)), [("x" * 256, "")], [("x", "y" * 256)], [(b"\xff", "")], [("x", b"\xc3(")]])
    out += heads(container) + optional_texts(container, "name") + edges(container, "kind", [0, 1, 2], [3, 255])
    members = lambda count: [(None, n) for n in range(count)]
    out += edges(container, "members", [[], members(100), [("x" * 255, 0)], [(None, 1), (None, 1)], [("", 2**62 - 1)]],
                 [members(101), [("x" * 256, 0)], [(b"\xff", 0)], [(None, 2**62)]])
    for make in (consumer_added, consumer_dropped):
        out += edges(make, "container", [2**62 - 1], [2**62]) + texts(make, "name") + texts(make, "url")
    out += edges(consumer_added, "created", [0, END - 1], [END])
    out += edges(acl, "target", [2**62 - 1], [2**62]) + edges(acl, "access", [0, 1], [2])
    out += edges(acl, "created", [END - 1], [END]) + edges(acl, "updated", [END - 1], [END])
    users = lambda count: [f"u{n}" for n in range(count)]
    out += edges(acl, "users", [[], ["u"], users(100), [LONG], ["u", "U"]],
                 [["u", "u"], ["a", "b", "a"], users(101), [LONG + "n"], [""], ["a b"]])
    out += [one(acl_dropped(n)) for n in (0, 2**62 - 1, 2**62)] + [one(deleted(n)) for n in (0, 2**62 - 1, 2**62)]
    out += heads(order) + texts(order, "algorithm") + optional_texts(order, "mode") + optional_texts(order, "name")
    out += edges(order, "bits", [1, 32767], [0, 32768]) + edges(order, "expiration", [0, END - 1], [END])
    out += edges(order, "state", [b"\1" + u64(2**62 - 1), b"\2\0", b"\2\1", b"\2\2"],
                 [b"\1" + u64(2**62), b"\2\3", b"\3", b"\1", b"\2", b"\0\0", b""])
    out += edges(quota, "project", [LONG], [LONG + "n", ""])
    out += edges(quota, "limits", [None, (None,) * 4, (-1,) * 4, (0,) * 4, (1000000000,) * 4],
                 [(1000000001, 0, 0, 0), (0, 0, 0, 1000000001), (0, 0, 2**32 - 1, 0)])
    out += [one(quota())[:-4] + b"\3" + bytes(4), one(quota(limits=None))[:-1] + b"\2"]
    return list(dict.fromkeys(out))


ROWS = rows()
PARTED = [ROWS[part::PARTS] for part in range(PARTS)]


def mutated():
    """Folds which of the changed rows are records."""
    state, folded = 1, 0
    for _ in range(MUTATIONS):
        state = (state * 1103515245 + 12345) % 2**31
        part = PARTED[state // 7 % PARTS]
        row = bytearray(part[state // 131 % len(part)])
        if row:
            row[state // 11 % len(row)] = state // 65536 % 256
        folded = (folded * 3 + is_body(bytes(row))) % 1000000007
    return folded


def accepted():
    counts = []
    for place in range(len(GOOD)):
        changed = (GOOD[:place] + bytes([value]) + GOOD[place + 1:] for value in range(256))
        counts.append(sum(is_body(data) for data in changed))
    lines, line = [], "   "
    for count in counts:
        if len(f"{line} {count},") > 97:
            lines.append(line)
            line = "   "
        line += f" {count},"
    return "\n".join([*lines, line]) + "\n"


TABLES = {
    **{("rows.rt", f"static PART_{part}"): f"static PART_{part}: [&str; {len(rows)}] = [\n"
       + "".join(f'    "{"-+"[is_body(data)]}{data.hex()}",\n' for data in rows) + "];\n"
       for part, rows in enumerate(PARTED)},
    ("tests.rt", "static ACCEPTED"): f"static ACCEPTED: [u16; {len(GOOD)}] = [\n" + accepted() + "];\n",
    ("tests.rt", "const MUTATED"): f"const MUTATED: u64 = {mutated()};\n",
}


def main():
    status = 0
    for (file, name), table in TABLES.items():
        path = SOURCES / file
        source = path.read_text(encoding="utf-8")
        end = r"\];\n" if "static" in name else r";\n"
        written, found = re.subn(rf"^{name}: .*?{end}", lambda _: table, source, flags=re.DOTALL | re.MULTILINE)
        if found != 1:
            sys.exit(f"record_vectors: {path} has {found} tables {name}")
        if written != source and sys.argv[1:] == ["--write"]:
            path.write_text(written, encoding="utf-8")
        elif written != source:
            print(f"record_vectors: {name} of {path} differs", file=sys.stderr)
            status = 1
    sys.exit(status)


main()
