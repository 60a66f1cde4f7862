#!/usr/bin/env python3
"""Works out which definitions the contract of `run` rests on, and ends with status 1 where docs/TRUST.md names others.
With --write it writes the tables there, between their two marks.

A definition is reached where the contract of `run` or a clause of the trait `Host` names it, or one that is reached does: names are
looked up in the file's own definitions and in its `use` lines. The lines are those of the definitions that are reached, with
the comments before them. Needs no built program, and takes seconds."""
import re
import sys
from pathlib import Path

TOP = Path(__file__).resolve().parent.parent
CRATES = TOP / "crates"
PAGE = TOP / "docs" / "TRUST.md"
ROOT = CRATES / "kms_serve" / "src" / "program.rt"
TRAIT = CRATES / "kms_host" / "src" / "host.rt"

# The order of reading, by crate.
PARTS = [
    ("The plain key manager", "kms_model kms_world kms_policy kms_secret kms_box kms_page kms_text kms_elements"),
    ("The wire", "kms_http kms_requests kms_json kms_words"),
    ("The disk and the store", "kms_journal kms_record kms_kept kms_store"),
    ("Keys and tokens", "kms_opened kms_sealing kms_ring kms_fernet kms_aes"),
    ("The run", "kms_host kms_core kms_operations kms_serve"),
]

STARTS = re.compile(r"^(?:unfoldable |abbrev |pub |infixl |infixr |infix )+(?:record |data )?(\S+)")
USES = re.compile(r"^\s*(?:pub |ghost )?use ([\w.]+?)(?:\.\{(.*?)\})?(?: as (\w+))?;?\s*$", re.S)
NAMES = re.compile(r"[^\s(){},;:\[\]λ]+")


def said(line):
    """A line without its comment."""
    return re.sub(r"(^|\s)--.*$|//.*$", "", line)


class Names:
    """What the `use` lines of a text bring in: names, each with its path and the name there, and short names of paths."""

    def __init__(self, lines):
        self.one, self.path = {}, {}
        for line in lines:
            found = USES.match(line)
            if not found:
                continue
            path, inside, short = found.groups()
            if inside is None:
                self.path[short or path.split(".")[-1]] = path
            for item in (inside or "").split(", "):
                name, _, other = item.strip().partition(" as ")
                if name:
                    self.one[(other or name).strip("◌").strip()] = (path, name)

    def look_up(self, word):
        """The paths and names that a word of a text may stand for."""
        if word in self.one:
            yield self.one[word]
        head, _, rest = word.partition(".")
        if rest and head in self.path:
            yield self.path[head], rest.split(".")[0]
        elif rest and head in self.one:
            path, name = self.one[head]
            yield path, name
        if word == "←" and ">>=" in self.one:
            yield self.one[">>="]


class Spec:
    """A file of definitions: each with its lines, from the comment before it on."""

    def __init__(self, path):
        lines = path.read_text().splitlines()
        self.names = Names(lines)
        self.defined, self.size, self.title = {}, {}, ""
        comment, name, titled, module = 0, None, False, False
        for line in lines:
            if line.startswith("module "):
                module = True
                continue
            if module:
                line = line[2:] if line.startswith("  ") else line
            if line.startswith("--"):
                if not titled:
                    self.title += " " + line[2:].strip()
                comment, name = comment + 1, None
                continue
            titled = True
            start = STARTS.match(line)
            if line.startswith("use ") or not line.strip():
                comment = 0
                continue
            if start and start.group(1) != "mod":
                new = start.group(1).strip("◌")
                if new not in self.defined:
                    self.defined[new], self.size[new] = [], 0
                name = new
            if name is None:
                # a further equation behind a comment of its own
                first = line.split()[0]
                name = first if first in self.defined else None
            if name is not None:
                self.defined[name].append(said(line))
                self.size[name] += comment + 1
                comment = 0
            elif not line.startswith("pub mod "):
                sys.exit(f"trust: {path.relative_to(TOP)} has a line that belongs to no definition: {line}")
        self.title = self.title.strip()
        # what a name of a record's field or a constructor belongs to
        self.inside = {}
        for name, text in self.defined.items():
            for line in text:
                field = re.match(r"\s+(?:pub )?([\w']+) :", line)
                if field:
                    self.inside.setdefault(field.group(1), name)


SPECS, SOURCES, OTHERS = {}, {}, {}


def spec(path):
    if path not in SPECS:
        SPECS[path] = Spec(path)
    return SPECS[path]


def places(path, name):
    """Where a path and a name of a `use` line lead to: (file, definition) of specs, or a note of a type or a library."""
    parts = path.split(".")
    if parts[0] != "Rattle" or not (CRATES / (parts[1] if len(parts) > 1 else "")).is_dir() or len(parts) < 4:
        library = parts[1] if parts[0] == "Rattle" and len(parts) > 1 else parts[0]
        OTHERS.setdefault(library, set()).add(".".join(parts[2:]))
        return
    crate, rest = parts[1], parts[3:]
    if rest[0] == "declared":
        for length in range(len(rest), 1, -1):
            source = (CRATES / crate / "src").joinpath(*rest[1:length]).with_suffix(".rt")
            if source.is_file():
                kind = rest[length] if length < len(rest) else name
                SOURCES.setdefault(source, set()).add(kind)
                return
        SOURCES.setdefault(CRATES / crate / "src" / "lib.rt", set()).add(rest[-1])
        return
    for length in range(len(rest), 0, -1):
        file = (CRATES / crate / "specs").joinpath(*rest[:length]).with_suffix(".antt")
        if file.is_file():
            name = rest[length] if length < len(rest) else name
            name = name.strip("◌")
            there = spec(file)
            if name in there.defined:
                yield file, name
            elif name in there.inside:
                yield file, there.inside[name]
            elif name in there.names.one:
                yield from places(*there.names.one[name])
            else:
                sys.exit(f"trust: {file.relative_to(TOP)} has no definition {name}")
            return
    sys.exit(f"trust: no file for {path}")


def contract(path, begin, end):
    """The names that a part of a source cites in its clauses, up to the line of its end."""
    lines = path.read_text().splitlines()
    names = Names(lines)
    at = next(i for i, line in enumerate(lines) if line.startswith(begin))
    last = next(i for i in range(at, len(lines)) if lines[i] == end)
    for line in lines[at:last]:
        for word in NAMES.findall(said(line)):
            for found in names.look_up(word):
                yield from places(*found)


def reached():
    """The definitions that are reached, file by file, in the order in which they are met."""
    seen, order = set(), {}
    left = list(contract(ROOT, "pub fn run<", "{")) + list(contract(TRAIT, "pub trait Host", "}"))
    while left:
        file, name = left.pop(0)
        if (file, name) in seen:
            continue
        seen.add((file, name))
        order.setdefault(file, []).append(name)
        here = spec(file)
        for word in NAMES.findall("\n".join(here.defined[name])):
            head = word.split(".")[0]
            for local in dict.fromkeys((word, head)):
                if local in here.defined:
                    left.append((file, local))
            if word in here.inside and here.inside[word] != name and word[0].isupper():
                left.append((file, here.inside[word]))
            for found in here.names.look_up(word):
                left.extend(places(*found))
    return order


def size_of(file, names):
    return sum(spec(file).size[name] for name in names)


def tables(order):
    """The text between the marks."""
    out, total, count, left = [], 0, 0, set(order)
    for title, crates in PARTS:
        rows = []
        for crate in crates.split():
            for file, names in order.items():
                if file.relative_to(CRATES).parts[0] != crate:
                    continue
                left.discard(file)
                lines = size_of(file, names)
                total, count = total + lines, count + len(names)
                shown = ", ".join(f"`{name}`" for name in names)
                rows.append((f"| {crate} `{file.stem}` | {lines} | {shown} |", lines))
        out += [f"### {title}: {sum(lines for _, lines in rows)} lines", "", "| file | lines | definitions |", "|---|---|---|"]
        out += [row for row, _ in rows] + [""]
    if left:
        sys.exit(f"trust: no part has the crate of {sorted(map(str, left))[0]}")
    out += ["### Types of the source", "", "| file | types |", "|---|---|"]
    for source in sorted(SOURCES):
        where = source.relative_to(CRATES)
        out.append(f"| {where.parts[0]} `{'/'.join(where.parts[1:])}` | {', '.join(f'`{kind}`' for kind in sorted(SOURCES[source]))} |")
    out += ["", "### Libraries", "", "| library | what is cited of it |", "|---|---|"]
    for library in sorted(OTHERS):
        out.append(f"| {library} | {', '.join(f'`{part}`' for part in sorted(OTHERS[library]))} |")
    out += ["", f"{count} definitions in {len(order)} files, {total} lines."]
    return "\n".join(out)


def listed(text):
    """The rows of a page: what stands in their first column, and the words in the last."""
    rows = {}
    for line in text.splitlines():
        cells = [cell.strip() for cell in line.strip("|").split("|")]
        if line.startswith("| ") and len(cells) >= 2 and cells[0] not in ("file", "library"):
            rows[cells[0]] = set(re.findall(r"`([^`]+)`", cells[-1]))
    return rows


def main():
    begin, end = "<!-- computed -->", "<!-- end of what is computed -->"
    page = PAGE.read_text()
    before, _, rest = page.partition(begin)
    old, _, after = rest.partition(end)
    now = tables(reached())
    if sys.argv[1:] == ["--write"]:
        PAGE.write_text(f"{before}{begin}\n\n{now}\n\n{end}{after}")
        return 0
    was, is_now, wrong = listed(old), listed(now), 0
    for row in sorted(was.keys() | is_now.keys()):
        for name in sorted(is_now.get(row, set()) - was.get(row, set())):
            print(f"trust: {row}: {name} is reached by the contract of run, and docs/TRUST.md doesn't have it", file=sys.stderr)
            wrong = 1
        for name in sorted(was.get(row, set()) - is_now.get(row, set())):
            print(f"trust: {row}: {name} stands in docs/TRUST.md, and the contract of run doesn't reach it", file=sys.stderr)
            wrong = 1
    if wrong:
        print("trust: see that a reader should believe these, and then write the tables by tests/trust.py --write", file=sys.stderr)
    return wrong


if __name__ == "__main__":
    sys.exit(main())
