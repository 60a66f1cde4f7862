#!/usr/bin/env python3
"""Computes the cells of the policy in crates/kms_policy/src/tests.rt again, from the action table in docs/PROFILE.md
and its rules, and ends with status 1 where a text differs. With --write it writes the texts into that file.

A text has the answers to one action: for each of six callers a bar and 21 letters. The caller is user u1 of project p1
and has no role, or admin, creator, observer, audit or service-admin alone. The first letter is the answer without a
row. The others are the answers on a row of p1 that u1 made, of p1 that u2 made, of p2 that u1 made and of p2 that u2
made, five for each: without an access list, with one that names u1 and leaves project access on, names u1 and shuts it
off, names u2 and leaves it on, names u2 and shuts it off. `+` is granted; `p`, `r` and `x` are denied for project, role
and private."""
import re
import sys
from itertools import product
from pathlib import Path

TOP = Path(__file__).resolve().parent.parent
PROFILE = TOP / "docs" / "PROFILE.md"
TESTS = TOP / "crates" / "kms_policy" / "src" / "tests.rt"
ROLES = [None, "admin", "creator", "observer", "audit", "service-admin"]
ROW = re.compile(r"\| (`[^|]+`) \| (yes|no) \| (yes|no) \| ([^|`]+) \|")
CELLS = re.compile(r"(static CELLS: \[\(Action, &str\); 21\] = \[\n)(.*?)(\];\n)", re.DOTALL)


def table():
    """The lines of the action table: action, whether the list and the owner serve, roles."""
    for line in PROFILE.read_text(encoding="utf-8").splitlines():
        row = ROW.fullmatch(line)
        if row:
            for action in re.findall(r"`([^`]+)`", row.group(1)):
                yield action, row.group(2) == "yes", row.group(3) == "yes", set(row.group(4).split(", "))


def rows():
    """No row, and then each row: project, owner, users on the list, project access."""
    yield None
    for project, owner in product(["p1", "p2"], ["u1", "u2"]):
        yield project, owner, [], True
        for user, access in product(["u1", "u2"], [True, False]):
            yield project, owner, [user], access


def letter(list_serves, owner_serves, roles, role, row):
    """The answer to user u1 of project p1 who has this role alone, by the first rule that applies."""
    if list_serves and row and "u1" in row[2]:
        return "+"
    if row and row[0] != "p1":
        return "p"
    if role == "admin" and "admin" in roles:
        return "+"
    if owner_serves and role == "creator" and row and row[1] == "u1":
        return "+"
    if role not in roles:
        return "r"
    if row and not row[3]:
        return "x"
    return "+"


def variant(action):
    """The name of the action in the program."""
    return "".join(part.capitalize() for part in action.split(":"))


def main():
    lines = []
    for action, list_serves, owner_serves, roles in table():
        text = "".join(
            "|" + "".join(letter(list_serves, owner_serves, roles, role, row) for row in rows()) for role in ROLES
        )
        lines.append(f'    (\n        Action::{variant(action)},\n        "{text}",\n    ),\n')
    if len(lines) != 21:
        sys.exit(f"policy_cells: the table has {len(lines)} actions, not 21")
    have = TESTS.read_text(encoding="utf-8")
    found = CELLS.search(have)
    if not found:
        sys.exit("policy_cells: no table CELLS in the tests")
    want = have[: found.start(2)] + "".join(lines) + have[found.end(2) :]
    if "--write" in sys.argv[1:]:
        TESTS.write_text(want, encoding="utf-8")
    elif re.sub(r"\s", "", have) != re.sub(r"\s", "", want):
        sys.exit("policy_cells: the table CELLS in the tests isn't that of docs/PROFILE.md")
    print("policy_cells: 21 actions, 126 answers each")


main()
