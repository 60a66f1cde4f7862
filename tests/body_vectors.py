#!/usr/bin/env python3
"""Computes the tables in crates/kms_secret/src/table/ and crates/kms_box/src/table.rt again, with rules of its own, and
ends with status 1 where a table differs. With --write it writes these files.

A case is a body, field by field with `¦` between them, and after `¦¦` what is to come of it: the fields of the checked
body, or `bad FIELD`, `415` (the types that a request names), `413` (too many bytes), `400` (not offered). A field is
`-` where it is absent, `=` and its text, `@` and the number of a secret, for a link to it, or N`*`PART`~`END: the PART
N times and the END. A long text in an answer is its length and a sum of its bytes. Nothing here comes from the program: base64 and days are Python's, and the rules are
written from the Barbican API v1 reference and docs/PROFILE.md."""
import base64
import calendar
import re
import string
import sys
from itertools import combinations, product
from pathlib import Path

CRATES = Path(__file__).resolve().parent.parent / "crates"
END = 253402300800
KEY = set(string.ascii_letters + string.digits + "-_.")
KINDS = ["symmetric", "public", "private", "passphrase", "certificate", "opaque"]
NAMES = {
    "rsa": (["public_key", "private_key"], ["private_key_passphrase"]),
    "certificate": (["certificate"], ["private_key", "private_key_passphrase", "intermediates"]),
}


class Bad(Exception):
    """The first rule that a body breaks."""


class Sum(str):
    """An answer that stands for a payload."""


class Part:
    """A text that is a part many times, and an end."""

    def __init__(self, count, part, end=""):
        self.count, self.part, self.end = count, part, end

    def __str__(self):
        return self.part * self.count + self.end


class Link(str):
    """A link to the secret of a number."""

    def __new__(cls, number):
        link = super().__new__(cls, f"http://k/v1/secrets/01234567-89ab-8cde-8000-{number:012x}")
        link.number = number
        return link


# ---- how a case is written


def plain(field):
    return str(field) if isinstance(field, Part) else field


def spelled(field):
    if field is None:
        return "-"
    if isinstance(field, int):
        return str(field)
    if isinstance(field, Part):
        return f"{field.count}*{field.part}" + (f"~{field.end}" if field.end else "")
    if isinstance(field, Link):
        return f"@{field.number}"
    return "=" + field


def summed(data):
    total = 0
    for byte in data:
        total = (total * 31 + byte) % 2**32
    return f"{len(data)}:{total}"


def shown(value):
    if value is None:
        return "-"
    if isinstance(value, Sum):
        return "=" + value
    if isinstance(value, str):
        data = value.encode()
        return "=" + value if len(data) <= 40 else summed(data)
    return str(value)


# ---- rules of single fields


def short(field, text):
    if text is not None and len(text.encode()) > 255:
        raise Bad(f"bad {field}")
    return text


def needed(field, text):
    if text is None or text == "":
        raise Bad(f"bad {field}")
    return short(field, text)


def bits(number):
    if number not in range(1, 32768):
        raise Bad("bad bit_length")
    return number


def moment_of(text):
    found = re.fullmatch(
        r"(\d{4})-(\d\d)-(\d\d)T(\d\d):(\d\d):(\d\d)(?:\.\d{1,9})?(Z|[+-]\d\d:\d\d)?", text, re.ASCII
    )
    if not found:
        return None
    year, month, day, hour, minute, second = (int(part) for part in found.groups()[:6])
    if not 1 <= month <= 12 or hour > 23 or minute > 59 or second > 59:
        return None
    leap = calendar.isleap(year)
    if not 1 <= day <= (29 if leap and month == 2 else calendar.mdays[month]):
        return None
    if year == 0:
        return None
    moment = calendar.timegm((year, month, day, hour, minute, second))
    zone = found.group(7)
    if zone and zone != "Z":
        hours, minutes = int(zone[1:3]), int(zone[4:6])
        if hours > 23 or minutes > 59:
            return None
        moment += (hours * 3600 + minutes * 60) * (-1 if zone[0] == "+" else 1)
    return moment if 0 <= moment < END else None


def later(text, moment):
    if text is None:
        return None
    time = moment_of(text)
    if time is None or time <= moment:
        raise Bad("bad expiration")
    return time


def media(text):
    if text is None:
        return None
    form = "".join(c.lower() if c.isascii() else c for c in text if c != " ")
    return {
        "text/plain": "text/plain",
        "text/plain;charset=utf-8": "text/plain",
        "application/octet-stream": "application/octet-stream",
    }.get(form)


def decoded(text):
    data = text if isinstance(text, bytes) else text.encode()
    try:
        found = base64.b64decode(data, validate=True)
    except ValueError:
        return None
    return found if base64.b64encode(found) == data else None


def sized(kind, data):
    if not data:
        raise Bad("bad payload")
    if len(data) > 20000:
        raise Bad("413")
    return Sum(f"{kind} {summed(data)}")


# ---- bodies


def secret(name, algorithm, number, mode, kind, expiration, payload, content_type, encoding, moment):
    kept = [short("name", name), short("algorithm", algorithm)]
    kept.append(None if number is None else bits(number))
    kept.append(short("mode", mode))
    if kind is not None and kind not in KINDS:
        raise Bad("bad secret_type")
    kept.append(kind or "opaque")
    kept.append(later(expiration, moment))
    if payload == "" or (payload is None and (content_type is not None or encoding is not None)):
        raise Bad("bad payload")
    if payload is None:
        return kept + [None]
    kind = media(content_type)
    if kind is None:
        raise Bad("bad payload_content_type")
    if encoding != (None if kind == "text/plain" else "base64"):
        raise Bad("bad payload_content_encoding")
    return kept + [sized(kind, payload.encode() if kind == "text/plain" else decoded(payload))]


def put(content_type, encoding, body):
    kind = media(content_type)
    if kind is None or (encoding is not None and (kind == "text/plain" or encoding != "base64")):
        raise Bad("415")
    if kind == "text/plain":
        try:
            body.decode()
        except UnicodeDecodeError:
            raise Bad("bad payload") from None
    return [sized(kind, decoded(body) if encoding else body)]


def is_key(key):
    return 1 <= len(key) <= 255 and set(key) <= KEY


def metadata(pairs):
    if pairs is None or len(pairs) > 100:
        raise Bad("bad metadata")
    kept = {}
    for key, value in pairs:
        if not is_key(key) or len(value.encode()) > 255 or key.lower() in kept:
            raise Bad("bad metadata")
        kept[key.lower()] = value
    return [text for pair in sorted(kept.items()) for text in pair]


def pair(key, value):
    if key is None or not is_key(key):
        raise Bad("bad key")
    if value is None or len(value.encode()) > 255:
        raise Bad("bad value")
    return [key.lower(), value]


def order(kind, meta, moment):
    if kind not in ("key", "asymmetric", "certificate"):
        raise Bad("bad type")
    if kind != "key":
        raise Bad("400")
    if meta is None:
        raise Bad("bad meta")
    algorithm, number, mode, name, content_type, expiration = meta
    kept = [needed("algorithm", algorithm), bits(number), short("mode", mode), short("name", name)]
    if content_type not in (None, "application/octet-stream"):
        raise Bad("bad payload_content_type")
    return kept + [later(expiration, moment)]


def linked(text):
    found = re.search(
        r"/secrets/([0-9a-fA-F]{8}-[0-9a-fA-F]{4}-[0-9a-fA-F]{4}-[0-9a-fA-F]{4}-[0-9a-fA-F]{12})\Z", text or ""
    )
    if not found:
        raise Bad("bad secret_ref")
    return int(found.group(1).replace("-", ""), 16)


def member(name, ref):
    return [short("name", name), linked(ref)]


def container(name, kind, members):
    name = short("name", name)
    if kind not in ("generic", "rsa", "certificate"):
        raise Bad("bad type")
    try:
        kept = [member(*one) for one in members or []]
    except Bad:
        raise Bad("bad secret_refs") from None
    ids = [one[1] for one in kept]
    words = [one[0] for one in kept]
    if len(kept) > 100 or len(set(ids)) < len(ids):
        raise Bad("bad secret_refs")
    if kind != "generic":
        must, may = NAMES[kind]
        if any(words.count(word) != 1 for word in must) or any(words.count(word) > 1 for word in may):
            raise Bad("bad secret_refs")
        if any(word not in must + may for word in words):
            raise Bad("bad secret_refs")
    return [name, kind] + [part for one in kept for part in one]


def consumer(name, url):
    return [needed("name", name), needed("URL", url)]


# ---- cases

LONG = [Part(255, "x"), Part(256, "x"), Part(127, "é"), Part(127, "é", "x"), Part(128, "é"), "", "a", "Aé ¬\n"]
NUMBERS = [-(2**63), -256, -1, 0, 1, 2, 56, 256, 32766, 32767, 32768, 65537, 2**32 + 1, 2**64 - 1]
WORDS = KINDS + ["", "Opaque", "OPAQUE", "opaque ", " opaque", "opaqu", "opaques", "symetric", "key"]
MOMENT = 499162800
TIMES = [
    (text, moment)
    for text, moments in {
        "1985-10-26T08:20:00": [MOMENT - 1, MOMENT, MOMENT + 1, 0],
        "1985-10-26T08:20:01": [MOMENT],
        "1985-10-26T01:20:01-07:00": [MOMENT, MOMENT + 1],
        "1985-10-26T08:20:01.180394Z": [MOMENT, MOMENT + 1],
        "1985-10-26T08:20:00.999999999": [MOMENT, MOMENT - 1],
        "1985-10-26T08:20:01.1234567890": [MOMENT],
        "1985-10-26T08:20:01.": [MOMENT],
        "1970-01-01T00:00:00": [0],
        "1970-01-01T00:00:01": [0, 1],
        "1970-01-01T00:00:00+00:01": [0],
        "1970-01-01T00:00:00-00:01": [0, 59, 60],
        "9999-12-31T23:59:59": [0, END - 2, END - 1, END, 2**64 - 1],
        "9999-12-31T23:59:59-00:01": [0],
        "2000-02-29T00:00:00Z": [0],
        "1900-02-29T00:00:00Z": [0],
        "1985-02-29T00:00:00": [0],
        "2016-12-31T23:59:60": [0],
        "2016-12-31T24:00:00": [0],
        "2016-12-31t23:59:59": [0],
        "2016-12-31 23:59:59": [0],
        "2016-12-31T23:59:59z": [0],
        "2016-12-31T23:59:59+24:00": [0],
        "2016-12-31": [0],
        " 2016-12-31T23:59:59": [0],
        "": [0],
        "never": [0],
    }.items()
    for moment in moments
]
TYPES = [
    "text/plain", "TEXT/PLAIN", "Text/Plain", " text/plain ", "t e x t/p l a i n", "text/plain;charset=utf-8",
    "text/plain; charset=UTF-8", "text/plain ; charset = UTF-8", "TEXT/PLAIN;CHARSET=UTF-8", "text/plain;  charset=utf-8  ",
    "text/plain;", "text/plain; charset=utf8", "text/plain;charset=iso-8859-1", "text/plain;charset=utf-8;",
    "text/plain\t", "text/plain;\tcharset=utf-8", "text/plain\n", "text/plain,text/plain", "text/plai", "text/plainn", "text/plain;charset",
    "text/html", "image/gif", "application/json", "*/*", "", " ", "é",
]
BYTES = [
    "application/octet-stream", "Application/Octet-Stream", "APPLICATION/OCTET-STREAM", " application / octet-stream ",
]
NO_BYTES = [
    "application/octet-stream;", "application/octet-stream;charset=utf-8", "application/octet_stream", "application/octet-strea",
]
ENCODED = [
    "YQ==", "YQ", "YQ=", "YQ===", "YR==", "YWI=", "YWJ=", "YWI", "YWJj", "YWJj=", "YWJj\n", "YW\nJj", "\nYWJj", "YQ==\r\n", "=", "==",
    "====", "Y", "Y===", "YWJj YWJj", " YWJj", "-_-_", "+/+/", "////", "YQ==YQ==", "YWJjYQ==", "AA==", "AAAA", "é", "YWJé", "YWJ.", "YWJj\0",
]


def secret_case(moment=1000, **given):
    fields = ["name", "algorithm", "number", "mode", "kind", "expiration", "payload", "content_type", "encoding"]
    return [given.get(field) for field in fields] + [moment]


def attributes():
    case = secret_case
    yield case()
    for field, value in product(["name", "algorithm", "mode"], LONG):
        yield case(**{field: value})
    for value in ["aes", "AES", "Aes"]:
        yield case(algorithm=value)
    for value in NUMBERS:
        yield case(number=value)
    for value in WORDS:
        yield case(kind=value)
    yield case(
        name="n", algorithm="aes", number=256, mode="cbc", kind="symmetric", expiration="2030-01-01T00:00:00", payload="aGk=",
        content_type="application/octet-stream", encoding="base64",
    )


def expirations():
    for text, moment in TIMES:
        yield secret_case(moment=moment, expiration=text)


def media_types():
    for value in TYPES + NO_BYTES:
        yield secret_case(payload="hunter2", content_type=value)
    for value in BYTES:
        yield secret_case(payload="aGk=", content_type=value, encoding="base64")


def texts():
    case = secret_case
    for text, kind, encoding in product([None, "", "YQ=="], [None, "text/plain", "application/octet-stream", "text"], [None, "", "base64", "BASE64"]):
        yield case(payload=text, content_type=kind, encoding=encoding)
    for encoding in ["base64 ", " base64", "Base64", "base-64", "binary", "utf-8"]:
        yield case(payload="YQ==", content_type="application/octet-stream", encoding=encoding)
    for text in [Part(20000, "a"), Part(20001, "a"), Part(10000, "é"), Part(10000, "é", "a"), " ", "\n", "\0", "é"]:
        yield case(payload=text, content_type="text/plain")


def encoded():
    sizes = [Part(6666, "AAAA", "AAA="), Part(6667, "AAAA"), Part(6667, "AAAA", "AA=="), Part(6667, "AAAA", "A"), Part(6667, "AAAA", "AB=="), Part(6666, "////", "//8=")]
    for text in ENCODED + sizes:
        yield secret_case(payload=text, content_type="application/octet-stream", encoding="base64")


def two_rules():
    """Each break alone, and each two at once that aren't of one field. Some break two rules in one field's value."""
    breaks = [
        {"name": Part(256, "n")}, {"algorithm": Part(256, "n")}, {"number": 0}, {"mode": Part(256, "n")}, {"kind": "x"}, {"expiration": "x"},
        {"payload": ""}, {"payload": "a"}, {"payload": "a", "content_type": "x"},
        {"payload": "a", "content_type": "text/plain", "encoding": "base64"},
        {"payload": "a", "content_type": "application/octet-stream"},
        {"payload": "a", "content_type": "application/octet-stream", "encoding": "base64"},
        {"payload": Part(20001, "a"), "content_type": "text/plain"},
        {"payload": Part(20001, "a"), "content_type": "x"},
        {"payload": Part(20001, "a"), "content_type": "text/plain", "encoding": "base64"},
        {"payload": Part(6667, "AAAA"), "content_type": "application/octet-stream", "encoding": "base64"},
    ]
    for one in breaks:
        yield secret_case(**one)
    for a, b in combinations(breaks, 2):
        if not a.keys() & b.keys():
            yield secret_case(**a, **b)


def payloads():
    for kind, encoding in product(TYPES + BYTES + NO_BYTES + [None], [None, "base64"]):
        yield [kind, encoding, b"aGk="]
    for encoding, kind in product(["", "BASE64", "base64 ", "gzip"], ["text/plain", "application/octet-stream", "x"]):
        yield [kind, encoding, b"aGk="]
    bodies = [b"", b"a", b"\xff", b"a\xc3", b"\xc3\xa9", b"\xed\xa0\x80", b"\xf4\x90\x80\x80", b"\xc0\x80", b"\0", b"YQ==\n", b"YR==", b"YQ", b"YQ==", b"\xffQ=="]
    for body, (kind, encoding) in product(bodies, [("text/plain", None), ("application/octet-stream", None), ("application/octet-stream", "base64"), ("x", None)]):
        yield [kind, encoding, body]


def long_payloads():
    for part, count, end in [(b"a", 20000, b""), (b"a", 20001, b""), (b"\xc3\xa9", 10000, b""), (b"\xc3\xa9", 10000, b"\xc3"), (b"AAAA", 6666, b"AAA="), (b"AAAA", 6667, b""), (b"AAAA", 6667, b"A")]:
        for kind, encoding in [("text/plain", None), ("application/octet-stream", None), ("application/octet-stream", "base64"), ("text/plain", "base64"), ("x", None), (None, None)]:
            yield [kind, encoding, part, count, end]


def pairs():
    for c in range(0x20, 0x7F):
        yield [chr(c), "v"]
    for key in ["", "é", "\n", "\0", Part(255, "k"), Part(256, "k"), Part(255, "K"), Part(254, "k", "é"), "Owner", "OWNER-1_.x", "-", ".", "K"]:
        yield [key, "v"]
    for value in LONG:
        yield ["k", value]
    yield from [[None, None], [None, "v"], ["k", None], ["", Part(256, "v")], ["k", Part(256, "v")], ["É", None]]


def metadatas():
    yield None
    yield []
    yield from [[("a", "1")], [("Owner", "web")], [("b", "1"), ("a", "2")], [("b", "1"), ("A", "2"), ("a.b", "3"), ("a-b", "4"), ("a_b", "5"), ("a0", "6")]]
    yield from [[("a", "1"), ("A", "1")], [("A", "1"), ("b", "2"), ("a", "3")], [("x", "1"), ("b", "2"), ("X", "1")], [("aB", ""), ("Ab", "")], [("a", "1"), ("a", "1")]]
    yield from [[("k", value)] for value in LONG]
    yield from [[(key, "v")] for key in [Part(255, "K"), Part(256, "k"), "", " ", "é", "a b", "a/b", "a\n"]]
    yield from [[("a", "1"), (key, "v"), ("c", "1")] for key in ["", "a b", "b", "A", "C"]]
    yield [("a", "1"), ("b", Part(256, "x"))]
    yield [(Part(254, "k", "A"), "1"), (Part(254, "K", "b"), "2"), (Part(254, "k"), "3")]
    yield [(Part(254, "k", "A"), "1"), (Part(254, "K", "a"), "2")]
    for count in [20, 21, 99, 100, 101]:
        yield [(f"k{n * 37 % 101}", f"v{n}") for n in range(count)]
    yield [(f"k{n * 37 % 101}", f"v{n}") for n in range(99)] + [("K0", "")]


def orders():
    good = {"algorithm": "aes", "number": 256, "mode": None, "name": None, "content_type": None, "expiration": None}

    def case(kind="key", moment=1000, **given):
        return [kind, list({**good, **given}.values()), moment]

    for kind in ["key", "asymmetric", "certificate", None, "", "Key", "KEY", "x", "Asymmetric", "key ", "certificates"]:
        yield case(kind)
        yield [kind, None, 1000]
        yield case(kind, algorithm=None, number=0)
    for value in LONG + [None, "AES", "des"]:
        yield case(algorithm=value)
    for field, value in product(["mode", "name"], LONG):
        yield case(**{field: value})
    for value in NUMBERS + [None]:
        yield case(number=value)
    for value in TYPES[:4] + BYTES + ["application/octet-stream;", "", "x"]:
        yield case(content_type=value)
    for text, moment in TIMES:
        yield case(moment=moment, expiration=text)
    breaks = [
        {"algorithm": ""}, {"algorithm": None}, {"number": None}, {"number": 0}, {"mode": Part(256, "n")}, {"name": Part(256, "n")},
        {"content_type": "text/plain"}, {"expiration": "x"},
    ]
    for a, b in combinations(breaks, 2):
        if not a.keys() & b.keys():
            yield case(**a, **b)
    yield case(mode="cbc", name="n", content_type="application/octet-stream", expiration="2030-01-01T00:00:00")


def ref(n, front=None):
    return Link(n) if front is None else front + Link(n)[len("http://k/v1") :]


REFS = [
    ref(1), ref(1, ""), ref(1, "x"), ref(1).upper(), ref(1)[:-36] + ref(1)[-36:].upper(), ref(1)[:-12] + "00000000000A", ref(10), ref(255), ref(1) + "/", ref(1)[:-1], ref(1) + "0", ref(1)[1:],
    ref(1).replace("secrets", "containers"), ref(1).replace("secrets", "secret"), ref(1).replace("secrets", "Secrets"), ref(1).replace("/secrets/", "secrets/"),
    ref(1).replace("/secrets/", "/secrets//"), ref(1).replace("-", ""), ref(1)[:-36] + "{" + ref(1)[-36:] + "}", ref(1)[:-1] + "g", "", "x", None, ref(1)[:-12] + "f" * 12,
    "/secrets/" + "0" * 36, "é/secrets/ffffffff-ffff-ffff-ffff-ffffffffffff", ref(1) + "\n", " " + ref(1), ref(1) + " ",
]


def members():
    for text in REFS:
        yield [None, text]
    for name in LONG:
        yield [name, ref(1)]
    yield from [[Part(256, "n"), None], [Part(256, "n"), "x"], ["n", "x"]]


def kinds():
    for name in LONG + [None]:
        yield [name, "generic", None]
    for kind in ["generic", "rsa", "certificate", None, "", "Generic", "RSA", "Certificate", "x", "generic ", "certificates"]:
        yield [None, kind, None]
        yield [None, kind, []]
        yield [Part(256, "n"), kind, [(None, "x")]]
        yield [None, kind, [(None, "x")]]


def sets_of_names():
    words = ["public_key", "private_key", "private_key_passphrase", "certificate", "intermediates"]
    for kind, picks in product(["rsa", "certificate"], product([False, True], repeat=5)):
        yield [None, kind, [(word, ref(n)) for n, (word, pick) in enumerate(zip(words, picks)) if pick]]


def one_more(kind):
    """Members that are good for two kinds, and others with them."""
    base = [("public_key", ref(1)), ("private_key", ref(2))] if kind == "rsa" else [("certificate", ref(1)), ("private_key", ref(2))]
    extras = [
        ("public_key", ref(3)), ("private_key", ref(3)), ("certificate", ref(3)), ("intermediates", ref(3)), ("private_key_passphrase", ref(3)),
        ("Private_Key", ref(3)), ("private_key ", ref(3)), ("", ref(3)), (None, ref(3)), ("x", ref(3)),
        ("private_key_passphrase", ref(1)), ("private_key_passphrase", ref(2)),
        ("private_key_passphrase", "y/secrets/" + ref(2)[-36:].upper()),
        (Part(256, "x"), ref(3)), ("private_key_passphrase", "x"), ("private_key_passphrase", None),
    ]
    for extra in extras:
        yield [None, kind, base + [extra]]
        yield ["n", kind, [extra] + base]
    for a, b in [(0, 1), (3, 4), (4, 4)]:
        yield [None, kind, base + [extras[a], (extras[b][0], ref(4))]]


def lists():
    for members in [[("a", ref(1)), ("a", ref(2))], [(None, ref(1)), (None, ref(2))], [("a", ref(1)), ("b", ref(1))], [(None, ref(1)), (None, ref(2)), (None, ref(1))], [(Part(255, "a"), ref(1))], [(Part(256, "a"), ref(1))]]:
        yield [None, "generic", members]
    for text in REFS:
        yield [None, "generic", [(None, text)]]


def many_members():
    """How many members without a name, each of another secret, and which number one more has."""
    return [(kind, count, more) for kind in ["generic", "rsa"] for count, more in [(99, 99), (100, 100), (99, 0), (99, 98), (98, 50), (101, 7)]]


def consumers():
    for field, value in product([0, 1], LONG + [None]):
        yield [value if field == 0 else "lb", value if field == 1 else "https://lb.example/v2/1"]
    yield from [["", ""], [None, None], [Part(256, "n"), ""], ["lb", Part(256, "u")]]


# ---- tables


def answer(check, *body):
    try:
        return "¦".join(shown(value) for value in check(*body))
    except Bad as bad:
        return str(bad)


def literal(text):
    out = []
    for c in text:
        if c in '"\\':
            out.append("\\" + c)
        elif c in "\n\t\r\0":
            out.append({"\n": "\\n", "\t": "\\t", "\r": "\\r", "\0": "\\0"}[c])
        elif ord(c) < 0x20:
            out.append(f"\\u{{{ord(c):x}}}")
        else:
            out.append(c)
    return '"' + "".join(out) + '"'


def bytes_literal(data):
    return 'b"' + "".join(chr(b) if 0x20 <= b < 0x7F and b not in b'"\\' else f"\\x{b:02x}" for b in data) + '"'


def table(name, rows):
    rows = list(rows)
    return f"pub static {name}: [&str; {len(rows)}] = [\n" + "".join(f"    {literal(row)},\n" for row in rows) + "];\n"


def row(fields, end):
    return "¦".join([spelled(field) for field in fields] + ["", end])


def flat(things):
    return [field for thing in things for field in thing]


HEAD = "// Bodies that the tests check, and what comes of them; tests/body_vectors.py computes them and says how they read.\n"


def secret_table(name, cases):
    return table(name, (row(c, answer(secret, *map(plain, c[:-1]), c[-1])) for c in cases))


def secret_tables():
    return [
        secret_table("ATTRIBUTES", attributes()), secret_table("EXPIRATIONS", expirations()), secret_table("MEDIA_TYPES", media_types()),
        secret_table("TEXTS", texts()), secret_table("ENCODED", encoded()), secret_table("TWO_RULES", two_rules()),
    ]


def payload_tables():
    rows = [(row([c[0], c[1]], answer(put, *c)), c[2]) for c in payloads()]
    short = f"pub static PAYLOADS: [(&str, &[u8]); {len(rows)}] = [\n" + "".join(f"    ({literal(a)}, {bytes_literal(b)}),\n" for a, b in rows) + "];\n"
    rows = [(row([c[0], c[1]], answer(put, c[0], c[1], c[2] * c[3] + c[4])), c[2], c[3], c[4]) for c in long_payloads()]
    return [
        short,
        f"pub static LONG_PAYLOADS: [(&str, &[u8], u32, &[u8]); {len(rows)}] = [\n"
        + "".join(f"    ({literal(a)}, {bytes_literal(b)}, {n}, {bytes_literal(c)}),\n" for a, b, n, c in rows)
        + "];\n",
    ]


def metadata_tables():
    rows = []
    for body in metadatas():
        want = answer(metadata, None if body is None else [tuple(map(plain, one)) for one in body])
        rows.append("¦".join((["-"] if body is None else ["="] + [spelled(f) for f in flat(body)]) + ["", want]))
    return [table("PAIRS", (row(c, answer(pair, *map(plain, c))) for c in pairs())), table("METADATA", rows)]


def order_tables():
    rows = []
    for kind, meta, moment in orders():
        want = answer(order, kind, None if meta is None else [plain(f) for f in meta], moment)
        rows.append(row([kind] + ([None] if meta is None else [""] + meta) + [moment], want))
    return [table("ORDERS", rows)]


def container_table(name, cases):
    rows = []
    for title, kind, body in cases:
        want = answer(container, plain(title), kind, None if body is None else [tuple(map(plain, one)) for one in body])
        rows.append("¦".join([spelled(title), spelled(kind)] + (["-"] if body is None else ["="] + [spelled(f) for f in flat(body)]) + ["", want]))
    return table(name, rows)


def box_tables():
    rows = []
    for kind, count, more in many_members():
        want = answer(container, None, kind, [(None, ref(n)) for n in [*range(count), more]])
        rows.append(f"    ({literal(kind)}, {count}, {more}, {literal(want if want.startswith('bad') else summed(want.encode()))}),\n")
    return [
        container_table("KINDS", kinds()), container_table("SETS_OF_NAMES", sets_of_names()), container_table("GENERIC", one_more("generic")),
        container_table("RSA", one_more("rsa")), container_table("CERTIFICATE", one_more("certificate")), container_table("LISTS", lists()),
        f"pub static MANY_MEMBERS: [(&str, u32, u32, &str); {len(rows)}] = [\n" + "".join(rows) + "];\n",
        table("MEMBERS", (row(c, answer(member, *map(plain, c))) for c in members())),
        table("CONSUMERS", (row(c, answer(consumer, *map(plain, c))) for c in consumers())),
    ]


FILES = {
    "kms_secret/src/table/secrets.rt": secret_tables, "kms_secret/src/table/payloads.rt": payload_tables,
    "kms_secret/src/table/metadata.rt": metadata_tables, "kms_secret/src/table/orders.rt": order_tables, "kms_box/src/table.rt": box_tables,
}


def tokens(text):
    """Its literals, words and marks, without the layout and the commas that the formatter gives."""
    return re.findall(r'b?"(?:[^"\\]|\\.)*"|\w+|[^\s\w,]', text)


def main():
    status = 0
    for name, tables in FILES.items():
        path, text = CRATES / name, "\n".join([HEAD, *tables()])
        if sys.argv[1:] == ["--write"]:
            path.write_text(text)
        elif tokens(path.read_text()) != tokens(text):
            print(f"body_vectors: {path} differs")
            status = 1
    return status


if __name__ == "__main__":
    sys.exit(main())
