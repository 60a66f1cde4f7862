#!/usr/bin/env python3
"""Computes the rows, the answers to queries and the pages in crates/kms_page/src/table.rt again, and ends with status 1
where a text differs. With --write it writes that file.

An answer is `bad FIELD`, or the places on the page, ` of `, the total, `; ` and what stands behind the path in the link
to the page at `offset + limit`. A page is the places and the total, `; ` and the link to the next page, `; ` and the link
to the one before, each `-` where there is none; its rows are those of the table again and again. Nothing here comes from the program: Python's urllib reads queries, its sort is stable,
and the rules are those of docs/PROFILE.md."""
import re
import sys
from pathlib import Path
from urllib.parse import parse_qsl, quote_plus

TABLE = Path(__file__).resolve().parent.parent / "crates" / "kms_page" / "src" / "table.rt"
KINDS = ["symmetric", "public", "private", "passphrase", "certificate", "opaque"]
MOST = 4294967295

# name, algorithm, bit length, mode, kind, created, updated, expiration
ROWS = [
    ("b", "aes", 256, "cbc", "symmetric", 10, 90, None),
    (None, None, None, None, "opaque", 10, 20, 500),
    ("a", "aes", 128, "gcm", "symmetric", 11, 80, 400),
    ("b", "rsa", 2048, None, "private", 12, 80, None),
    ("B", "AES", 256, "cbc", "symmetric", 12, 12, 500),
    ("ab", None, 256, None, "certificate", 13, 13, 9000000000),
    ("", "des", 56, "cbc", "opaque", 13, 14, 400),
    ("é", "aes", 32767, "ctr", "passphrase", 14, 300, None),
    (None, "rsa", 1024, None, "public", 15, 15, 77),
    ("a b&c=d", "aes", 256, "gcm", "opaque", 16, 16, 78),
    ("a", "aes", 1, "", "private", 17, 17, 500),
    ("b", None, None, "cbc", "public", 18, 18, 78),
]
# the places in ROWS of the rows that the list shows; place 4 is not shown
SHOWN = [0, 1, 2, 3, 5, 6, 7, 8, 9, 10, 11]

QUERIES = [
    # pages
    ("Secrets", ""), ("Secrets", "limit=3"), ("Secrets", "limit=3&offset=3"), ("Secrets", "offset=9&limit=3"),
    ("Secrets", "offset=10"), ("Secrets", "offset=11"), ("Secrets", "offset=12"), ("Secrets", "offset=4294967295"),
    ("Secrets", "limit=100"), ("Secrets", "limit=101"), ("Secrets", "limit=4294967295"), ("Secrets", "limit=0007&offset=0001"),
    # numbers off their range
    ("Secrets", "limit=0"), ("Secrets", "limit=4294967296"), ("Secrets", "offset=4294967296"), ("Secrets", "offset=-1"),
    ("Secrets", "limit=%2B5"), ("Secrets", "offset="), ("Secrets", "limit=1%20"), ("Secrets", "offset=1.0"),
    ("Secrets", "offset=18446744073709551616"), ("Secrets", "bits=4294967296"), ("Secrets", "bits=0x10"), ("Secrets", "limit"),
    # repeats, and parameters that no list takes
    ("Secrets", "limit=2&limit=2"), ("Secrets", "name=a&name=a"), ("Secrets", "sort=name&sort=alg"), ("Secrets", "o%66fset=1&offset=2"),
    ("Secrets", "created=1"), ("Secrets", "updated=gt:1"), ("Secrets", "expiration="), ("Secrets", "acl_only=1"), ("Secrets", "acl%5Fonly=1"),
    ("Secrets", "limit=0&acl_only=1"), ("Secrets", "acl_only=1&limit=0"), ("Secrets", "bits=x&sort=y"), ("Secrets", "sort=y&bits=x"),
    ("Secrets", "foo=1&foo=2&limit=2"), ("Secrets", "ACL_ONLY=1&Limit=0"),
    # filters
    ("Secrets", "name=a"), ("Secrets", "name="), ("Secrets", "name"), ("Secrets", "name=%C3%A9"), ("Secrets", "name=a+b%26c%3Dd"),
    ("Secrets", "alg=aes"), ("Secrets", "alg=AES"), ("Secrets", "bits=256"), ("Secrets", "bits=0256&limit=2"), ("Secrets", "bits=0"),
    ("Secrets", "bits=4294967295"), ("Secrets", "mode=cbc"), ("Secrets", "mode="), ("Secrets", "secret_type=opaque"),
    ("Secrets", "secret_type=Opaque"), ("Secrets", "secret_type="), ("Secrets", "alg=aes&bits=256"),
    ("Secrets", "name=a&alg=aes&bits=1&mode=&secret_type=private"), ("Secrets", "name=zz&offset=3"), ("Secrets", "name=%FF%C3"),
    # sort keys
    ("Secrets", "sort=name"), ("Secrets", "sort=name:asc"), ("Secrets", "sort=name:desc"), ("Secrets", "sort=name:desc,created"),
    ("Secrets", "sort=alg,bits:desc"), ("Secrets", "sort=bits"), ("Secrets", "sort=bits:desc"), ("Secrets", "sort=mode,name"),
    ("Secrets", "sort=secret_type"), ("Secrets", "sort=secret_type:desc"), ("Secrets", "sort=created:desc"), ("Secrets", "sort=updated"),
    ("Secrets", "sort=expiration"), ("Secrets", "sort=expiration:desc"), ("Secrets", "sort=expiration,updated:desc&limit=4&offset=2"),
    ("Secrets", "sort=name,alg,bits,mode,secret_type,created,updated,expiration"), ("Secrets", "name=b&sort=updated"),
    ("Secrets", "sort=name%3Adesc%2Calg"), ("Secrets", "sort=expiration:desc&limit=3&offset=9"),
    ("Secrets", "sort="), ("Secrets", "sort=,"), ("Secrets", "sort=name,"), ("Secrets", "sort=name,name"), ("Secrets", "sort=name,name:desc"),
    ("Secrets", "sort=name:"), ("Secrets", "sort=name:up"), ("Secrets", "sort=name:desc:asc"), ("Secrets", "sort=Name"),
    ("Secrets", "sort=size"), ("Secrets", "sort=+name"), ("Secrets", "sort=:desc"),
    # links
    ("Secrets", "foo"), ("Secrets", "a=b=c&&d&=&x=%FF&limit=1"), ("Secrets", "z=~*-._+%20&%C3%A9=1&limit=2&y=%zz"),
    # the other lists have no filters and no keys
    ("Containers", "limit=2&offset=1&name=a&name=b&sort=,&bits=x"), ("Consumers", "offset=10&secret_type=z"), ("Orders", "limit=0"),
    ("Quotas", "acl_only=1"), ("Orders", "limit=5&sort=name&limit=6"), ("Containers", "created=1"), ("Quotas", "offset=3&limit=200"),
]

# how many rows there are, and the query
PAGES = [
    (25, "limit=10"), (25, "limit=10&offset=10"), (25, "limit=10&offset=20"), (25, "limit=10&offset=40"), (25, "limit=10&offset=25"),
    (25, "limit=5&offset=20"), (25, "limit=4&offset=20"), (25, "limit=10&offset=5"), (25, "limit=10&offset=15"), (25, "limit=10&offset=1"),
    (25, "limit=100"), (25, "limit=101"), (25, "offset=4294967295"), (25, ""), (0, ""), (0, "offset=3&limit=2"),
    (99, "limit=100"), (100, "limit=100"), (101, "limit=100"), (101, "limit=100&offset=100"), (101, "limit=101"),
    (25, "name=b&limit=3"), (25, "name=b&limit=3&offset=3"), (25, "name=b&limit=2&offset=4"), (25, "name=b&limit=4&offset=8"),
    (25, "sort=created:desc&limit=6"), (25, "sort=created:desc&limit=5&offset=20"), (25, "alg=aes&sort=name&limit=4&offset=4"),
]


class Bad(Exception):
    pass


def number(text):
    if text == "" or any(c not in "0123456789" for c in text) or int(text) > MOST:
        raise ValueError
    return int(text)


def limit(text):
    if number(text) == 0:
        raise ValueError
    return min(number(text), 100)


def kind(text):
    if text not in KINDS:
        raise ValueError
    return text


def sorts(text):
    keys = ["name", "alg", "bits", "mode", "secret_type", "created", "updated", "expiration"]
    found = []
    for piece in text.split(","):
        word, colon, direction = piece.partition(":")
        if word not in keys or (colon and direction not in ("asc", "desc")) or word in [k for k, _ in found]:
            raise ValueError
        found.append((word, direction == "desc"))
    return found


PAGING = {"offset": number, "limit": limit}
RULES = dict(PAGING, name=str, alg=str, bits=number, mode=str, secret_type=kind, sort=sorts)


def read(listing, text):
    pairs = parse_qsl(text, keep_blank_values=True, errors="replace")
    rules = RULES if listing == "Secrets" else PAGING
    found = {}
    for name, value in pairs:
        if name in ("created", "updated", "expiration", "acl_only"):
            raise Bad(name)
        if name in rules:
            try:
                good = rules[name](value)
            except ValueError:
                raise Bad(name) from None
            if name in found:
                raise Bad(name)
            found[name] = good
    return found, [(n, v) for n, v in pairs if n not in PAGING]


def sort_key(key, row):
    value = dict(zip(["name", "alg", "bits", "mode", "secret_type", "created", "updated", "expiration"], row))[key]
    if isinstance(value, str):
        value = value.encode()
    return (value is not None, value if value is not None else 0)


def escaped(text):
    return quote_plus(text, safe="*").replace("~", "%7E")


def page(rows, shown, found):
    """The places on the page, how many rows pass, the offset and the limit."""
    at = list(shown)
    for i, name in enumerate(["name", "alg", "bits", "mode", "secret_type"]):
        if name in found:
            at = [p for p in at if rows[p][i] == found[name]]
    for key, descends in reversed(found.get("sort", [])):
        at.sort(key=lambda p: sort_key(key, rows[p]), reverse=descends)
    offset, most = found.get("offset", 0), found.get("limit", 10)
    return " ".join(str(p) for p in at[offset : offset + most]), len(at), offset, most


def query_text(most, offset, others):
    pairs = [("limit", str(most)), ("offset", str(offset))] + others
    return "?" + "&".join(f"{escaped(n)}={escaped(v)}" for n, v in pairs)


def answer(listing, text):
    try:
        found, others = read(listing, text)
    except Bad as bad:
        return f"bad {bad}"
    places, total, offset, most = page(ROWS, SHOWN, found)
    return f"{places} of {total}; " + query_text(most, offset + most, others)


def page_with_links(count, text):
    found, others = read("Secrets", text)
    places, total, offset, most = page([ROWS[p % len(ROWS)] for p in range(count)], range(count), found)
    path = "http://k/v1/secrets"
    later = path + query_text(most, offset + most, others) if offset + most < total else "-"
    earlier = path + query_text(most, max(offset - most, 0), others) if offset > 0 else "-"
    return f"{places} of {total}; {later}; {earlier}"


def literal(value):
    if value is None:
        return "None"
    if isinstance(value, str):
        value = '"' + value.replace("\\", "\\\\").replace('"', '\\"') + '"'
    return f"Some({value})"


def table():
    out = ["// The rows and the answers to queries that the tests compare; tests/pages.py computes them.\n"]
    out.append("use crate::Listing;\nuse kms_world::SecretKind;\n\n")
    out.append("pub struct Attributes {\n")
    out.append("    pub name: Option<&'static str>,\n    pub algorithm: Option<&'static str>,\n    pub bits: Option<u16>,\n")
    out.append("    pub mode: Option<&'static str>,\n    pub kind: SecretKind,\n    pub created: u64,\n    pub updated: u64,\n")
    out.append("    pub expiration: Option<u64>,\n}\n\n")
    out.append(f"pub static ROWS: [Attributes; {len(ROWS)}] = [\n")
    for name, alg, bits, mode, what, created, updated, expiration in ROWS:
        out.append(f"Attributes {{ name: {literal(name)}, algorithm: {literal(alg)}, bits: {literal(bits)}, mode: {literal(mode)}, ")
        out.append(f"kind: SecretKind::{what.capitalize()}, created: {created}, updated: {updated}, expiration: {literal(expiration)} }},\n")
    out.append(f"];\n\npub static SHOWN: [usize; {len(SHOWN)}] = {SHOWN};\n\n")
    out.append(f"pub static QUERIES: [(Listing, &str, &str); {len(QUERIES)}] = [\n")
    for listing, text in QUERIES:
        out.append(f'(Listing::{listing}, "{text}", "{answer(listing, text)}"),\n')
    out.append("];\n\n")
    out.append("// How many rows there are, the query, and the page with its links.\n")
    out.append(f"pub static PAGES: [(usize, &str, &str); {len(PAGES)}] = [\n")
    for count, text in PAGES:
        out.append(f'({count}, "{text}", "{page_with_links(count, text)}"),\n')
    out.append("];\n")
    return "".join(out)


def bare(text):
    """The text without the layout of `rt fmt`."""
    return re.sub(r",([\]})])", r"\1", re.sub(r"\s", "", text))


def main():
    want = table()
    if "--write" in sys.argv[1:]:
        TABLE.write_text(want, encoding="utf-8")
        return
    have = TABLE.read_text(encoding="utf-8")
    if bare(have) != bare(want):
        sys.exit("pages: the tables of queries and pages aren't those of the rules")
    print(f"pages: {len(QUERIES)} queries over {len(ROWS)} rows, {len(PAGES)} pages")


main()
