#!/usr/bin/env python3
"""Computes the messages and what comes of them in crates/kms_http/src/table.rt again, and ends with status 1 where the text
differs. With --write it writes that file.

A case is a message, a bar and the answer. An answer is the status of a message that isn't read, `more` for a part of one, and for a message `close ` where the line
ends after it, then the status that its routing has (405 with the path's methods), or project, user, roles and the shape;
then `; ` and how many bytes of body it has. Nothing here comes from the program: heads are read by one regular expression
after RFC 9112 in httparse's default form, and the rules are those of docs/PROFILE.md."""
import re
import sys
import uuid
from pathlib import Path

TABLE = Path(__file__).resolve().parent.parent / "crates" / "kms_http" / "src" / "table.rt"
TOKEN = rb"[!#$%&'*+.^_`|~0-9A-Za-z-]+"
HEAD = re.compile(
    rb"(?:\r?\n)*(" + TOKEN + rb") ([^\x00-\x20\x7f]+) HTTP/1\.([01])\r?\n((?:" + TOKEN + rb":[\t\x20-\x7e\x80-\xff]*\r?\n)*)\r?\n"
)
NAME = re.compile(r"[A-Za-z0-9._-]{1,64}")
KEY = re.compile(r"[A-Za-z0-9._-]{1,255}")
ID = re.compile(r"[0-9A-Fa-f]{8}-[0-9A-Fa-f]{4}-[0-9A-Fa-f]{4}-[0-9A-Fa-f]{4}-[0-9A-Fa-f]{12}")
SIZE = 25
ORDER = ["GET", "POST", "PUT", "PATCH", "DELETE"]

# each path: a pattern, and what its methods ask for, with the parts of the shape
ROUTES = [
    ("/v1/secrets", {"GET": "ListSecrets query", "POST": "PostSecret content_type"}),
    ("/v1/secrets/ID", {"GET": "GetSecret id accept", "PUT": "PutPayload id put", "DELETE": "DeleteSecret id"}),
    ("/v1/secrets/ID/payload", {"GET": "GetPayload id accept"}),
    ("/v1/secrets/ID/metadata", {"GET": "GetMetadata id", "PUT": "PutMetadata id content_type", "POST": "PostPair id content_type"}),
    ("/v1/secrets/ID/metadata/KEY", {"GET": "GetPair id key", "PUT": "PutPair id key content_type", "DELETE": "DeletePair id key"}),
    ("/v1/KIND/ID/acl", {"GET": "GetAcl kind id", "PUT": "PutAcl kind id content_type", "PATCH": "PatchAcl kind id content_type", "DELETE": "DeleteAcl kind id"}),
    ("/v1/containers", {"GET": "ListContainers query", "POST": "PostContainer content_type"}),
    ("/v1/containers/ID", {"GET": "GetContainer id", "DELETE": "DeleteContainer id"}),
    ("/v1/containers/ID/secrets", {"POST": "PostMember id content_type", "DELETE": "DeleteMember id content_type"}),
    ("/v1/containers/ID/consumers", {"GET": "ListConsumers id query", "POST": "PostConsumer id content_type", "DELETE": "DeleteConsumer id content_type"}),
    ("/v1/orders", {"GET": "ListOrders query", "POST": "PostOrder content_type"}),
    ("/v1/orders/ID", {"GET": "GetOrder id", "DELETE": "DeleteOrder id"}),
    ("/v1/quotas", {"GET": "GetQuotas"}),
    ("/v1/project-quotas", {"GET": "ListQuotas query"}),
    ("/v1/project-quotas/PROJECT", {"GET": "GetProjectQuotas project", "PUT": "PutProjectQuotas project content_type", "DELETE": "DeleteProjectQuotas project"}),
]
SEGMENT = {"ID": r"(?P<id>[^/]+)", "KEY": r"(?P<key>[^/]+)", "PROJECT": r"(?P<project>[^/]+)", "KIND": r"(?P<kind>secrets|containers)"}


def pattern(path):
    return re.compile("".join(SEGMENT.get(part, re.escape(part)) for part in re.split(r"(ID|KEY|PROJECT|KIND)", path)))


PATTERNS = [(pattern(path), methods) for path, methods in ROUTES]


def text(value):
    return 'Text { text: "%s" }' % value


def some(value):
    return "None" if value is None else f"Some({value})"


def decoded(value):
    try:
        return value.decode()
    except UnicodeDecodeError:
        return ""


def alone(values):
    return some(text(decoded(values[0]) if len(values) == 1 else "") if values else None)


def part(name, found, query, values):
    if name == "id":
        return some(f"Id({uuid.UUID(found['id']).int})" if ID.fullmatch(found["id"]) else None)
    if name == "key":
        return some(text(found["key"]) if KEY.fullmatch(found["key"]) else None)
    if name == "project":
        if not NAME.fullmatch(found["project"]):
            return "None"
        raw = list(found["project"].encode())
        return "Some(Name { bytes: %s, len: %d })" % (raw + [0] * (64 - len(raw)), len(raw))
    if name == "kind":
        return {"secrets": "Secret", "containers": "Container"}[found["kind"]]
    if name == "query":
        return text(query)
    if name == "accept":
        accept = values("accept")
        return some(text(",".join(map(decoded, accept))) if accept else None)
    if name == "put":
        return "PutShape { content_type: %s, content_encoding: %s }" % (alone(values("content-type")), alone(values("content-encoding")))
    return alone(values("content-type"))


def shape(method, target, values):
    path, _, query = target.partition("?")
    path = path.removesuffix("/")
    for expression, methods in PATTERNS:
        found = expression.fullmatch(path)
        if found:
            if method not in methods:
                return "405 " + ", ".join(m for m in ORDER if m in methods)
            name, *parts = methods[method].split()
            if not parts:
                return name
            found = found.groupdict()
            return name + " { " + ", ".join(f"{p}: {part(p, found, query, values)}" for p in parts) + " }"
    return "404"


def caller(values):
    status = values("x-identity-status")
    fields = [values(name) for name in ("x-project-id", "x-user-id", "x-roles")]
    if status not in ([], [b"Confirmed"]) or any(len(field) != 1 for field in fields):
        return None
    project, user, roles = (field[0] for field in fields)
    if not all(NAME.fullmatch(name.decode("latin-1")) for name in (project, user)):
        return None
    held = {role.strip(b" \t").decode("latin-1").lower() for role in roles.split(b",")}
    known = ["admin", "creator", "observer", "audit", "key-manager:service-admin"]
    flags = "".join("10"[role not in held] for role in known)
    return f"{project.decode()} {user.decode()} {flags}"


def answer(stream):
    end = stream.find(b"\r\n\r\n")
    if end < 0:
        return "more"
    head, rest = stream[: end + 4], stream[end + 4 :]
    if head.count(b"\n") > 66:
        return "431"
    found = HEAD.fullmatch(head)
    if not found:
        return "400"
    try:
        target = found[2].decode()
    except UnicodeDecodeError:
        return "400"
    method = found[1].decode()
    fields = []
    for line in found[4].split(b"\n")[:-1]:
        name, _, value = line.removesuffix(b"\r").partition(b":")
        fields.append((name.decode().lower(), value.strip(b" \t")))

    def values(name):
        return [value for other, value in fields if other == name]

    if values("transfer-encoding"):
        return "411"
    lengths = values("content-length")
    size = 0
    if lengths:
        if len(lengths) > 1 or not re.fullmatch(rb"[0-9]+", lengths[0]):
            return "400"
        size = int(lengths[0])
        if size > 65536:
            return "413"
    elif method in ("POST", "PUT", "PATCH"):
        return "411"
    if len(rest) < size:
        return "more"
    elements = [element.strip(b" \t").lower() for value in values("connection") for element in value.split(b",")]
    close = "close " if found[3] == b"0" or b"close" in elements else ""
    who = caller(values)
    if who is None:
        said = "401"
    else:
        said = shape(method, target, values)
        if not said[0].isdigit():
            said = who + " " + said
    return f"{close}{said}; {size}"


WHO = b"X-Project-Id: p1\r\nX-User-Id: u1\r\nX-Roles: creator\r\n"
ID_TEXT = "01234567-89ab-8cde-8000-00000000000f"


def request(method, target, fields=b"", body=None, who=WHO, version=b"HTTP/1.1"):
    if isinstance(target, str):
        target = target.encode()
    size = b"" if body is None else b"Content-Length: %d\r\n" % len(body)
    return method.encode() + b" " + target + b" " + version + b"\r\n" + who + fields + size + b"\r\n" + (body or b"")


def filled(path, kind="secrets"):
    return path.replace("ID", ID_TEXT).replace("KEY", "a.B-1").replace("PROJECT", "p2").replace("KIND", kind)


def cases():
    # every line of the table, and a method that its path hasn't
    for path, methods in ROUTES:
        for kind in ("secrets", "containers") if "KIND" in path else ("secrets",):
            for method in ORDER:
                body = b"{}" if method in ("POST", "PUT", "PATCH") else None
                if method in methods or method in ("PATCH", "POST"):
                    yield request(method, filled(path, kind), body=body)
            yield request("HEAD", filled(path, kind))
    # targets
    for target in [
        "/v1/secrets/", "/v1/secrets//", "//v1/secrets", "/v1//secrets", "/V1/secrets", "/v1/Secrets", "/v1", "/", "*",
        "http://h/v1/secrets", "/v1/secrets?", "/v1/secrets?limit=1&offset=%20", "/v1/secrets/?a=/", "/v1/secrets?a?b",
        "/v1/secrets#a", "/v1/%73ecrets", "/v1/secrets/" + ID_TEXT.upper(), "/v1/secrets/" + ID_TEXT[:-1],
        "/v1/secrets/" + ID_TEXT + "0", "/v1/secrets/%30" + ID_TEXT[1:], "/v1/secrets/x", "/v1/secrets/" + ID_TEXT + "/",
        "/v1/secrets/" + ID_TEXT + "//", "/v1/secrets/x/payload", "/v1/secrets/x/payload/", "/v1/secrets/x/payloads",
        "/v1/secrets/x/metadata/", "/v1/secrets/x/metadata//", "/v1/secrets/x/metadata/a%20b", "/v1/secrets/x/metadata/K_1",
        "/v1/secrets/x/metadata/a/b", "/v1/secrets/" + ID_TEXT + "/metadata/" + "k" * 40, "/v1/secrets/x/consumers",
        "/v1/containers/x/payload", "/v1/containers/acl/acl", "/v1/orders/x/acl", "/v1/quotas/x", "/v1/project-quotas/a",
        "/v1/project-quotas/a@b", "/v1/project-quotas/" + "p" * 64, "/v1/project-quotas/" + "p" * 65, "/v1/nothing",
        "/v1/secrets/\u00e9", "/v1/secrets?\u00e9",
    ]:
        yield request("GET", target)
    yield request("GET", b"/v1/secrets\xff")
    yield request("GET", b"/v1/secrets?\xc3")
    yield request("get", "/v1/secrets")
    yield request("TRACE", "/v1/nothing")
    # identity
    for who in [
        b"", b"X-Project-Id: p1\r\nX-User-Id: u1\r\n", b"X-Project-Id: p1\r\nX-Roles: creator\r\n", b"X-User-Id: u1\r\nX-Roles: creator\r\n",
        WHO + b"X-Project-Id: p1\r\n", WHO + b"x-user-id: u2\r\n", WHO + b"X-Roles: admin\r\n", WHO + b"X-Identity-Status: Confirmed\r\n",
        WHO + b"X-Identity-Status: confirmed\r\n", WHO + b"X-Identity-Status: Invalid\r\n", WHO + b"X-Identity-Status:\r\n",
        WHO + b"X-Identity-Status: Confirmed\r\nX-Identity-Status: Confirmed\r\n",
        b"X-Project-Id: \r\nX-User-Id: u1\r\nX-Roles: creator\r\n", b"X-Project-Id: a b\r\nX-User-Id: u1\r\nX-Roles: creator\r\n",
        b"X-Project-Id: p1\r\nX-User-Id: \xc3\xa9\r\nX-Roles: creator\r\n",
        b"X-Project-Id: p1\r\nX-User-Id: " + b"u" * 64 + b"\r\nX-Roles: creator\r\n",
        b"X-Project-Id: p1\r\nX-User-Id: " + b"u" * 65 + b"\r\nX-Roles: creator\r\n",
        b"x-roles:\r\nX-USER-ID:u_1\r\nx-project-ID: \t p.1 \t\r\n",
    ]:
        yield request("GET", "/v1/quotas", who=who)
    for roles in [
        b"admin", b"ADMIN, Observer ,\taudit", b"key-manager:service-admin", b"Key-Manager:Service-Admin,creator", b"creators", b"creato",
        b"admin;creator", b"a,,b", b",", b"admin creator", b"\xe9,audit", b"creator,creator",
    ]:
        yield request("GET", "/v1/quotas", who=b"X-Project-Id: p1\r\nX-User-Id: u1\r\nX-Roles: " + roles + b"\r\n")
    # fields of the shape
    for fields in [
        b"Accept: application/json\r\n", b"Accept:\r\n", b"Accept: text/*\r\nACCEPT: a;q=1, b\r\n", b"Accept: \xff\r\n",
        b"Accept: a\r\nAccept: \xff\r\nAccept: b\r\n",
    ]:
        yield request("GET", "/v1/secrets/" + ID_TEXT + "/payload", fields=fields)
    for fields in [
        b"Content-Type: text/plain\r\n", b"Content-Type: application/json; charset=utf-8\r\nContent-Encoding: base64\r\n",
        b"Content-Type: a\r\nContent-Type: a\r\n", b"Content-Type: \xff\r\n", b"Content-Encoding: gzip\r\ncontent-encoding: gzip\r\n",
        b"Content-Type:\r\nContent-Encoding:\r\n",
    ]:
        yield request("PUT", "/v1/secrets/" + ID_TEXT, fields=fields, body=b"abc")
    yield request("POST", "/v1/secrets", fields=b"Content-Type: text/html\r\n", body=b"{}")
    # heads
    q = b"GET /v1/quotas HTTP/1.1\r\n" + WHO
    for head in [
        b"", b"GET", q, q + b"\r", q + b"\r\n", b"\r\n" + q + b"\r\n", b"\n\n" + q + b"\r\n", b" " + q + b"\r\n", b"\r" + q + b"\r\n",
        q.replace(b"\r\n", b"\n") + b"\r\n", q + b"\n", q + b"\n\r\n\r\n", q + b"A: b\n\n\r\n\r\n", q + b"A : b\r\n\r\n", q + b"A: b\r\n c\r\n\r\n",
        q + b"A: a\0b\r\n\r\n", q + b"A: a\x7f\r\n\r\n", q + b"A: a\tb\r\n\r\n", q + b"A: \xff\r\n\r\n", q + b": a\r\n\r\n", q + b"A\r\n\r\n", q + b"A\xc3: b\r\n\r\n",
        q + b"Host: a\r\nHost: b\r\n\r\n", q + b"Expect: 100-continue\r\n\r\n", q + b"A:" + b"b" * 300 + b"\r\n\r\n",
        q.replace(b"1.1", b"1.0") + b"\r\n", q.replace(b"1.1", b"1.2") + b"\r\n", q.replace(b"1.1", b"2.0") + b"\r\n", q.replace(b"HTTP/1.1", b"HTTP/1.1 ") + b"\r\n",
        q.replace(b"GET ", b"GET  ") + b"\r\n", q.replace(b"quotas H", b"quotas  H") + b"\r\n", q.replace(b" HTTP/1.1", b"") + b"\r\n", q.replace(b"GET", b"G(T") + b"\r\n",
        q.replace(b"quotas", b"quo\ttas") + b"\r\n", q.replace(b"GET", b"") + b"\r\n", b"HELLO\r\n\r\n", b"\r\n\r\n", b"\0\r\n\r\n",
        b"GET / HTTP/1.1\r\n\r\n" + q, q + b"\r\nrest", q + b"A: 1\r\n" * 61 + b"\r\n", q + b"A: 1\r\n" * 62 + b"\r\n", b"\n" + q + b"A: 1\r\n" * 61 + b"\r\n",
    ]:
        yield head
    # bodies and the end of the line
    for fields in [
        b"Content-Length: 0\r\n", b"Content-Length: 2\r\n", b"Content-Length: 5\r\n", b"Content-Length: 6\r\n", b"Content-Length: 005\r\n", b"Content-Length: +5\r\n",
        b"Content-Length: -1\r\n", b"Content-Length: 5.\r\n", b"Content-Length: 0x5\r\n", b"Content-Length: 5 5\r\n", b"Content-Length: 5, 5\r\n", b"Content-Length:\r\n",
        b"Content-Length: 5\r\nContent-Length: 5\r\n", b"Content-Length: 65536\r\n", b"Content-Length: 65537\r\n", b"Content-Length: 18446744073709551621\r\n",
        b"Content-Length: 99999999999999999999\r\n", b"Content-Length: 00000000000000000000005\r\n", b"content-LENGTH:\t5\t\r\n", b"",
        b"Transfer-Encoding: chunked\r\n", b"Transfer-Encoding: identity\r\nContent-Length: 5\r\n", b"Transfer-Encoding:\r\nContent-Length: x\r\n",
        b"Content-Length: 70000\r\nContent-Length: 5\r\n", b"Connection: close\r\nContent-Length: 5\r\n", b"Connection: keep-alive, Close\r\nContent-Length: 5\r\n",
        b"Connection: closed\r\nContent-Length: 5\r\n", b"Connection: a\r\nconnection:\tCLOSE\t,\r\nContent-Length: 5\r\n", b"Connection: close;\r\nContent-Length: 5\r\n",
    ]:
        yield request("POST", "/v1/orders", fields=fields) + b"{   }"
    for method in ["GET", "DELETE", "OPTIONS", "PATCH"]:
        yield request(method, "/v1/orders") + b"{}"
        yield request(method, "/v1/orders", fields=b"Content-Length: 2\r\n") + b"{}"


def literal(data):
    out = []
    for byte in data:
        char = chr(byte)
        if char in "\r\n\t\0\\\"":
            out.append({"\r": "\\r", "\n": "\\n", "\t": "\\t", "\0": "\\0", "\\": "\\\\", '"': '\\"'}[char])
        elif 32 <= byte < 127:
            out.append(char)
        else:
            out.append(f"\\x{byte:02x}")
    return "".join(out)


def table():
    rows = list(dict.fromkeys(cases()))
    parts = [rows[start : start + SIZE] for start in range(0, len(rows), SIZE)]
    lines = "// Messages and what comes of them; tests/message_vectors.py computes them and says how they read.\n"
    lines += "/// A message, and after its last bar what comes of it.\npub type Case = &'static [u8];\n"
    for number, part in enumerate(parts):
        cells = "".join('b"%s|%s",\n' % (literal(row), literal(answer(row).encode())) for row in part)
        lines += f"\nstatic PART_{number}: [Case; {len(part)}] = [\n{cells}];\n"
        lines += f"\nfn part_{number}() -> &'static [Case] {{\n    &PART_{number}\n}}\n"
    calls = "".join(f"part_{number}(),\n" for number in range(len(parts)))
    lines += f"\n/// All cases, in parts.\npub fn parts() -> [&'static [Case]; {len(parts)}] {{\n[\n{calls}]\n}}\n"
    return lines


def squeezed(code):
    """The code without its layout."""
    return re.sub(r",(?=[)\]])", "", re.sub(r"\s", "", code))


def main():
    want = table()
    if "--write" in sys.argv[1:]:
        TABLE.write_text(want)
    elif squeezed(TABLE.read_text()) != squeezed(want):
        print(f"{TABLE}: the messages differ")
        sys.exit(1)


main()
