#!/usr/bin/env python3
"""Computes the tables in crates/kms_json/src/table.rt and crates/kms_requests/src/table.rt again, and ends with status 1 where
a text differs. With --write it writes these files.

The bodies of answers are what Python's json module prints. A row of the other tables is a kind of body, its Content-Type and what is
read, with `¦` between them, and after `¦¦` the body. What is read is `415`, `bad FIELD`, or the fields in the API's order
with `¦` between them. A field is `-` where it is absent or null, `=` and its text, a number, or a truth value; a list is its
items, each with `;` behind it, in brackets; an object within is its fields in parentheses. Nothing here comes from the program: json parses,
and the rules are those of docs/PROFILE.md."""
import json
import math
import sys
from pathlib import Path

CRATES = Path(__file__).resolve().parent.parent / "crates"
K = "http://k/v1"
FIRST = "01234567-89ab-8cde-8000-000000000000"
SECOND = "01234567-89ab-8cde-8000-000000000001"
DAY = "1985-10-26T08:20:00"
LATER = "1985-10-26T08:20:01"
END = "9999-12-31T23:59:59"

# ---- answers


def secret(**more):
    shown = dict(algorithm=None, bit_length=None, created=DAY, creator_id="u1", expiration=None, mode=None, name=None,
                 secret_ref=f"{K}/secrets/{FIRST}", secret_type="opaque", status="ACTIVE", updated=DAY)
    return shown | more


def order(**more):
    meta = dict(algorithm="aes", bit_length=256, expiration=None, mode="cbc", name=None,
                payload_content_type="application/octet-stream")
    shown = dict(created=DAY, creator_id="u1", meta=meta, order_ref=f"{K}/orders/{FIRST}", type="key", updated=LATER)
    return shown | more


def failed(code, reason):
    return order(status="ERROR", error_status_code=code, error_reason=reason)


def container(**more):
    shown = dict(consumers=[], container_ref=f"{K}/containers/{SECOND}", created=DAY, creator_id="u1", name=None,
                 secret_refs=[], status="ACTIVE", type="rsa", updated=LATER)
    return shown | more


def limits(secrets, orders, containers, consumers):
    return dict(secrets=secrets, orders=orders, containers=containers, consumers=consumers)


CONSUMER = {"name": "n\u00e9", "URL": 'u"\\\n\u0001\u007f'}
MEMBERS = [
    {"name": "private_key", "secret_ref": f"{K}/secrets/{FIRST}"},
    {"name": None, "secret_ref": f"{K}/secrets/{SECOND}"},
]
ANSWERS = [
    ("PLAIN_SECRET", secret(name="a")),
    ("FULL_SECRET", secret(algorithm="aes", bit_length=256, mode="cbc", secret_type="symmetric", expiration=END,
                           updated=LATER, content_types={"default": "application/octet-stream"})),
    ("METADATA", {"metadata": {"a": 'q"', "b.c": "\u00e9\n"}}),
    ("NO_METADATA", {"metadata": {}}),
    ("PAIR", {"key": "a", "value": "\t"}),
    ("NO_ACL", {"read": {"project-access": True}}),
    ("ACL", {"read": {"project-access": False, "users": ["u1"], "created": DAY, "updated": LATER}}),
    ("PENDING", order(status="PENDING")),
    ("ACTIVE", order(status="ACTIVE", secret_ref=f"{K}/secrets/{SECOND}")),
    ("UNSUPPORTED", failed("400", "algorithm and bit_length not offered")),
    ("NO_QUOTA", failed("403", "quota of secrets reached")),
    ("NO_IDS", failed("500", "ids spent")),
    ("EMPTY_CONTAINER", container(name="c")),
    ("FULL_CONTAINER", container(secret_refs=MEMBERS, consumers=[CONSUMER])),
    ("QUOTAS", {"quotas": limits(-1, 0, 1000000000, 5)}),
    ("PROJECT_QUOTAS", {"project_quotas": limits(None, -1, None, 7)}),
    ("SECRETS", {"secrets": [secret(name="a")], "total": 30,
                 "next": f"{K}/secrets?limit=1&offset=6&x=a+b%26", "previous": f"{K}/secrets?limit=1&offset=4&x=a+b%26"}),
    ("CONTAINERS", {"containers": [container(name="c")], "total": 11, "next": f"{K}/containers?limit=10&offset=10"}),
    ("CONSUMERS", {"consumers": [CONSUMER], "total": 4,
                   "previous": f"{K}/containers/{SECOND}/consumers?limit=100&offset=0"}),
    ("ORDERS", {"orders": [order(status="PENDING")], "total": 1}),
    ("PROJECTS", {"project_quotas": [{"project_id": "p1", "project_quotas": limits(None, -1, None, 7)}], "total": 1}),
    ("NO_PROJECTS", {"project_quotas": [], "total": 18446744073709551615, "next": f"{K}/project-quotas?limit=10&offset=10"}),
    ("BAD_LIMIT", {"code": 400, "description": "BadBody: limit", "title": "Bad Request"}),
]

# ---- bodies


class Refused(Exception):
    """The first rule that a body breaks."""


class Other:
    """A number that isn't a whole one in range, or is written otherwise."""


def whole(text):
    number = int(text)
    if text == "-0" or not -(2**63) <= number < 2**64:
        return other(text)
    return number


def other(text):
    if math.isinf(float(text)):
        raise Refused("bad body")
    return Other()


def texts_are_whole(value):
    if isinstance(value, str) and any(0xD800 <= ord(c) < 0xE000 for c in value):
        raise Refused("bad body")
    if isinstance(value, list):
        for item in value:
            texts_are_whole(item)


def members(pairs):
    for key, value in pairs:
        texts_are_whole(key)
        texts_are_whole(value)
    return dict(pairs)


def constant(_):
    raise Refused("bad body")


def depth(value):
    if isinstance(value, dict):
        return 1 + max(map(depth, value.values()), default=0)
    if isinstance(value, list):
        return 1 + max(map(depth, value), default=0)
    return 0


def body_object(content_type, text):
    if content_type != "-" and content_type.split(";")[0].strip(" \t").lower() != "application/json":
        raise Refused("415")
    try:
        value = json.loads(text, parse_int=whole, parse_float=other, parse_constant=constant, object_pairs_hook=members)
    except ValueError:
        raise Refused("bad body") from None
    texts_are_whole(value)
    if depth(value) > 127 or not isinstance(value, dict):
        raise Refused("bad body")
    return value


def field(d, name, kind, blamed=None):
    value = d.get(name)
    if value is not None and type(value) is not kind:
        raise Refused(f"bad {blamed or name}")
    return value


def text(d, name, blamed=None):
    value = field(d, name, str, blamed)
    return "-" if value is None else "=" + value


def number(d, name):
    value = field(d, name, int)
    return "-" if value is None else str(value)


def truth(d, name):
    value = field(d, name, bool)
    return "-" if value is None else str(value).lower()


def listed(items):
    return "[" + "".join(item + ";" for item in items) + "]"


def within(value, fields):
    return "-" if value is None else "(" + "¦".join(fields(value)) + ")"


def users(d):
    value = field(d, "users", list)
    if value is None:
        return "-"
    for user in value:
        if type(user) is not str:
            raise Refused("bad users")
    return listed("=" + user for user in value)


def refs(d):
    value = field(d, "secret_refs", list)
    if value is None:
        return "-"
    shown = []
    for one in value:
        if type(one) is not dict:
            raise Refused("bad secret_refs")
        shown.append(text(one, "name", "secret_refs") + "¦" + text(one, "secret_ref", "secret_refs"))
    return listed(shown)


def metadata(d):
    value = field(d, "metadata", dict)
    if value is None:
        return "-"
    for one in value.values():
        if type(one) is not str:
            raise Refused("bad metadata")
    return listed(f"={key}¦={value[key]}" for key in sorted(value, key=str.encode))


def meta(d):
    return [text(d, "algorithm"), number(d, "bit_length"), text(d, "mode"), text(d, "name"),
            text(d, "payload_content_type"), text(d, "expiration")]


READERS = {
    "secret": lambda d: [text(d, "name"), text(d, "algorithm"), number(d, "bit_length"), text(d, "mode"),
                         text(d, "secret_type"), text(d, "expiration"), text(d, "payload"),
                         text(d, "payload_content_type"), text(d, "payload_content_encoding")],
    "metadata": lambda d: [metadata(d)],
    "pair": lambda d: [text(d, "key"), text(d, "value")],
    "acl": lambda d: [within(field(d, "read", dict), lambda r: [users(r), truth(r, "project-access")])],
    "container": lambda d: [text(d, "name"), text(d, "type"), refs(d)],
    "member": lambda d: [text(d, "name"), text(d, "secret_ref")],
    "consumer": lambda d: [text(d, "name"), text(d, "URL")],
    "order": lambda d: [text(d, "type"), within(field(d, "meta", dict), meta)],
    "quota": lambda d: [within(field(d, "project_quotas", dict),
                               lambda q: [number(q, k) for k in ("secrets", "orders", "containers", "consumers")])],
}


def outcome(kind, content_type, body):
    try:
        return "¦".join(READERS[kind](body_object(content_type, body)))
    except Refused as refused:
        return str(refused)


def each_type(key):
    """The field with a value of each JSON type."""
    return ['{"%s":%s}' % (key, value) for value in ("null", "true", "1", '"a"', "[]", "{}")]


def nested(count, left="{\"a\":", right="}"):
    return left * count + "1" + right * count


FULL = {
    "secret": '{"payload_content_encoding":"base64","payload_content_type":"text/plain","payload":"p","expiration":"e",'
              '"secret_type":"s","mode":"m","bit_length":7,"algorithm":"g","name":"n"}',
    "metadata": '{"metadata":{"b":"1","B":"2","a":"3","\u00e9":"4","b":"5"}}',
    "pair": '{"value":"v","key":"k"}',
    "acl": '{"read":{"project-access":false,"users":["b","a","b"]}}',
    "container": '{"secret_refs":[{"secret_ref":"r","name":"m"},{},{"secret_ref":"s"}],"type":"t","name":"n"}',
    "member": '{"secret_ref":"r","name":"n"}',
    "consumer": '{"URL":"u","name":"n"}',
    "order": '{"meta":{"expiration":"e","payload_content_type":"c","name":"n","mode":"m","bit_length":7,"algorithm":"g"},"type":"t"}',
    "quota": '{"project_quotas":{"consumers":4,"containers":3,"orders":2,"secrets":-1}}',
}
KEYS = {
    "secret": ["name", "algorithm", "bit_length", "mode", "secret_type", "expiration", "payload", "payload_content_type",
               "payload_content_encoding"],
    "metadata": ["metadata"], "pair": ["key", "value"], "acl": ["read"], "container": ["name", "type", "secret_refs"],
    "member": ["name", "secret_ref"], "consumer": ["name", "URL"], "order": ["type", "meta"], "quota": ["project_quotas"],
}
INNER = {
    ("acl", "read"): ["users", "project-access"],
    ("order", "meta"): ["algorithm", "bit_length", "mode", "name", "payload_content_type", "expiration"],
    ("quota", "project_quotas"): ["secrets", "orders", "containers", "consumers"],
    ("metadata", "metadata"): ["a"],
}
ODD = [
    # what isn't JSON, or is no object
    "", " ", "{}", " {\t}\r\n", "null", "[]", "[{}]", "1", '"a"', "true", "{} x", "{}{}", "{},", '{"a":1,}', '{"a" 1}', "{'a':1}",
    '{"a":1', '{"a":tru}', "\ufeff{}", "{}\u00a0", '{"a":NaN}', '{"a":Infinity}', '{"a":-}', '{"a":.5}', '{"a":1.}', '{"a":1e}',
    '{"name":"\u0001"}', '{"name":"\\x41"}', '{"name":"\\u12"}', '{"name":"\\u0000\\u001f\\"\\\\\\/\\b\\f\\n\\r\\t"}', '{1:2}', "{}\\0",
    # texts and surrogates
    '{"name":"\\ud800"}', '{"other":"\\udc00"}', '{"other":["\\ud800\\ud800"]}', '{"\\udfff":1}', '{"name":"\\ud83d\\ude00\u00e9"}',
    '{"name":"\\ud800","name":"a"}', '{"name":"\\uD83D\\uDE00"}', '{"name":"\U0010ffff\u007f"}',
    # numbers
    '{"other":1e999}', '{"other":-1e999}', '{"other":1e-999}', '{"other":1' + "0" * 308 + '}', '{"other":1' + "0" * 309 + '}',
    '{"bit_length":0}', '{"bit_length":-0}', '{"bit_length":-1}', '{"bit_length":1.0}', '{"bit_length":1e2}', '{"bit_length":1E+2}',
    '{"bit_length":0e0}', '{"bit_length":01}', '{"bit_length":+1}', '{"bit_length":-01}', '{"bit_length":0x1}',
    '{"bit_length":18446744073709551615}', '{"bit_length":18446744073709551616}', '{"bit_length":-9223372036854775808}',
    '{"bit_length":-9223372036854775809}', '{"bit_length":"1"}', '{"bit_length":123456789012345678901234567890}',
    # keys
    '{"name":1,"name":"a"}', '{"name":"a","name":1}', '{"name":"a","name":"b"}', '{"name":1,"\\u006eame":null}', '{"name":"a","name":null}',
    '{"Name":1}', '{"other":[1.5,{"name":1}],"":null}', '{"name ":1}',
    # the first of two faults, in the API's order
    '{"mode":1,"algorithm":1,"bit_length":""}', '{"payload":{},"mode":true}', '{"payload_content_type":1,"payload":1,"expiration":1}',
    # nesting
    nested(126), nested(127), nested(128), '{"a":' + nested(126, "[", "]") + "}", '{"a":' + nested(127, "[", "]") + "}",
]
MORE = [
    ("metadata", '{"metadata":{"a":1,"a":"2"}}'), ("metadata", '{"metadata":{"a":"2","a":1}}'), ("metadata", '{"metadata":{"":""}}'),
    ("acl", '{"read":{"users":["a",null]}}'), ("acl", '{"read":{"users":[1]}}'), ("acl", '{"read":{"users":[["a"]]}}'),
    ("acl", '{"read":{"users":1,"project-access":1}}'), ("acl", '{"read":{"project_access":true}}'), ("acl", '{"users":["a"]}'),
    ("container", '{"secret_refs":[1]}'), ("container", '{"secret_refs":[null]}'), ("container", '{"secret_refs":[{"name":1}]}'),
    ("container", '{"secret_refs":[{"secret_ref":[]}],"type":1}'), ("container", '{"secret_refs":[{"name":null,"secret_ref":"x"}]}'),
    ("container", '{"secret_refs":[{"secret_ref":1}],"name":1}'), ("container", '{"secret_refs":[{},"a"]}'),
    ("order", '{"type":"asymmetric","meta":1}'), ("order", '{"type":"asymmetric","meta":{"algorithm":1}}'),
    ("order", '{"meta":{"bit_length":1.5,"algorithm":1}}'), ("order", '{"meta":{"bit_length":"1"},"type":1}'),
    ("quota", '{"project_quotas":{"secrets":-0}}'), ("quota", '{"project_quotas":{"consumers":"1","secrets":1.5}}'),
    ("quota", '{"secrets":1}'), ("pair", '{"value":5}'), ("pair", '{"value":5,"key":5}'), ("consumer", '{"url":1}'),
]
TYPES = ["application/json", "Application/JSON", "application/json;charset=utf-8", "application/json;", " \tapplication/json \t; x",
         "application/json ", "application/jsonx", "application/jso", "xapplication/json", "application / json", "", ";", "text/plain",
         "application/json,application/json", "application/json\u00a0", "application/\u212ason"]


def groups():
    """The bodies by the name of their table, each with what is read."""
    rows = {"ODD_BODIES": [("secret", "-", body) for body in ODD]}
    rows["TYPED_BODIES"] = [("secret", kind, '{"name":"a"}') for kind in TYPES] + [("secret", "text/plain", "x")]
    for kind in READERS:
        some = [(kind, "-", FULL[kind]), (kind, "application/json", "{}"), (kind, "-", "["), (kind, "x", "{}")]
        for key in KEYS[kind]:
            some += [(kind, "-", body) for body in each_type(key)]
            for inner in INNER.get((kind, key), []):
                some += [(kind, "-", '{"%s":%s}' % (key, body)) for body in each_type(inner)]
        some += [(kind, "-", body) for other, body in MORE if other == kind]
        rows[kind.upper() + "_BODIES"] = some
    return {name: [row + (outcome(*row),) for row in dict.fromkeys(some)] for name, some in rows.items()}


# ---- the tables


def quoted(text):
    made = ""
    for c in text:
        if c in '"\\':
            made += "\\" + c
        elif c == "\n":
            made += "\\n"
        elif c == "\t":
            made += "\\t"
        elif c == "\r":
            made += "\\r"
        elif c != "¦" and (ord(c) < 32 or ord(c) > 126):
            made += "\\u{%x}" % ord(c)
        else:
            made += c
    return f'"{made}"'


def answers():
    lines = ["// Bodies of answers that the tests compare; tests/json_vectors.py computes them and says how they read.", ""]
    for name, value in ANSWERS:
        shown = json.dumps(value, sort_keys=True, separators=(",", ":"), ensure_ascii=False)
        lines += [f"pub static {name}: &str = {quoted(shown)};", ""]
    return "\n".join(lines)


def requests():
    lines = ["// Bodies of requests that the tests compare; tests/json_vectors.py computes them and says how they read.", ""]
    for name, rows in groups().items():
        lines += [f"pub static {name}: [&str; {len(rows)}] = ["]
        for kind, content_type, body, read in rows:
            spelled = "-" if content_type == "-" else "=" + content_type
            lines += ["    " + quoted(f"{kind}¦{spelled}¦{read}¦¦{body}") + ","]
        lines += ["];", ""]
    return "\n".join(lines)


TABLES = [(CRATES / "kms_json" / "src" / "table.rt", answers), (CRATES / "kms_requests" / "src" / "table.rt", requests)]


def plain(text):
    """The text without its layout."""
    return "".join(text.split())


def main():
    status = 0
    for path, table in TABLES:
        if "--write" in sys.argv[1:]:
            path.write_text(table())
        elif plain(path.read_text()) != plain(table()):
            print(f"{path.relative_to(CRATES)} differs")
            status = 1
    return status


if __name__ == "__main__":
    sys.exit(main())
