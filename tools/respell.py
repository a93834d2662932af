#!/usr/bin/env python3
"""Respells the repository's own names of antt.

usage: tools/respell.py [FOLDER]    FOLDER is a checkout, by default the one that this file is in

The table beside this file, respelled.tsv, has a line for each name: the old spelling, a tab and the new one. They are replaced
  - in crates/*/specs and crates/*/proofs: in the code of .antt files, and in their comments inside backticks;
  - in crates/*/src: in the code of .rt files, outside of strings, and in their comments inside backticks. No table name
    is a word of the code itself, so that only `ghost use` lines and clauses change;
  - in crates/*/must-fail: on the `old:` and `new:` lines of .edit files;
  - in README.md, docs and host: inside backticks, and in .rs, .c and .h files only in those of comments.
A name that a file imports from outside the repository is left alone in that file, unless the file declares it too. It is for a tree
as the kit's script leaves it, once: later, a name of a generated record may be spelled as an old one is.
"""

import os
import re
import sys

HERE = os.path.dirname(os.path.realpath(__file__))
ROOT = os.path.realpath(sys.argv[1]) if len(sys.argv) > 1 else os.path.dirname(HERE)
# a token of antt
TOKEN = re.compile(r'[^\s(){}.;,@"«»\[\]\\`]+')
# in prose a token may stand after the name of its crate and a slash
WORD = re.compile(r'[^\s(){}.;,@"«»\[\]\\`/|]+')
USE = re.compile(r"^[ \t]*(?:ghost )?(?:pub )?use ([^\s{;]+)\.\{([^}]*)\}", re.M)
STRING = re.compile(r'("(?:[^"\\]|\\.)*")')


def table():
    with open(os.path.join(HERE, "respelled.tsv"), encoding="utf-8") as f:
        rows = dict(line.rstrip("\n").split("\t") for line in f if line.strip())
    chained = sorted(set(rows) & set(rows.values()))
    if chained:
        raise SystemExit("respell: both an old and a new name: " + ", ".join(chained))
    return rows


def foreign(text, crates, rows):
    """The table's names that a file imports from outside the repository and doesn't declare."""
    found = set()
    for module, names in USE.findall(text):
        parts = module.split(".")
        if not (parts[0] == "Rattle" and len(parts) > 1 and parts[1] in crates):
            found |= {n.strip().split(" as ")[-1].strip() for n in names.split(",")}
    return {
        n for n in found & set(rows)
        if not re.search(r"^\s*(?:abbrev |unfoldable )?(?:pub )?" + re.escape(n) + r"\s*:\s", text, re.M)
    }


def replaced(text, rows, token=TOKEN):
    return token.sub(lambda m: rows.get(m.group(), m.group()), text)


def in_backticks(text, rows):
    """The text with the names inside pairs of backticks replaced; a line with an unpaired one is left alone."""
    lines = text.split("\n")
    for i, line in enumerate(lines):
        parts = line.split("`")
        if len(parts) > 2 and len(parts) % 2 == 1:
            lines[i] = "`".join(replaced(p, rows, WORD) if k % 2 else p for k, p in enumerate(parts))
    return "\n".join(lines)


def commented(line, mark):
    """A line in its code and its comment."""
    for m in re.finditer(mark, line):
        if line[: m.start()].count('"') % 2 == 0:
            return line[: m.start()], line[m.start() :]
    return line, ""


def source(text, rows, mark, code):
    """A file with comments that begin with a mark; names in the code are replaced where code is true."""
    lines = []
    for line in text.split("\n"):
        body, comment = commented(line, mark)
        if code:
            pieces = STRING.split(body)
            body = "".join(p if k % 2 else replaced(p, rows) for k, p in enumerate(pieces))
        lines.append(body + in_backticks(comment, rows))
    return "\n".join(lines)


def edit(text, rows):
    """A must-fail edit: what it takes and what it puts there."""
    return re.sub(r"^(old|new):.*$", lambda m: replaced(m.group(), rows), text, flags=re.M)


def kind(path):
    """How names stand in the file of this path in the repository, or None."""
    parts = path.split("/")
    end = os.path.splitext(path)[1]
    if parts[0] == "crates" and len(parts) > 3:
        if parts[2] in ("specs", "proofs") and end == ".antt":
            return lambda t, rows: source(t, rows, r"(?<!\S)--(?=\s|$)", True)
        if parts[2] == "src" and end == ".rt":
            return lambda t, rows: source(t, rows, r"//", True)
        if parts[2] == "must-fail" and end == ".edit":
            return edit
    if parts[0] in ("docs", "host") or path == "README.md":
        if end == ".md":
            return in_backticks
        if end in (".rs", ".h", ".c"):
            return lambda t, rows: source(t, rows, r"//|/\*|^\s*\*", False)
    return None


def main():
    rows = table()
    crates = set(os.listdir(os.path.join(ROOT, "crates")))
    changed = 0
    for folder, dirs, files in os.walk(ROOT):
        dirs[:] = sorted(d for d in dirs if d not in (".git", "out", "target"))
        for name in sorted(files):
            path = os.path.join(folder, name)
            change = kind(os.path.relpath(path, ROOT))
            if change is None or os.path.islink(path):
                continue
            with open(path, encoding="utf-8", newline="") as f:
                text = f.read()
            left = foreign(text, crates, rows)
            new = change(text, {o: n for o, n in rows.items() if o not in left})
            if new != text:
                changed += 1
                with open(path, "w", encoding="utf-8", newline="") as f:
                    f.write(new)
    print(f"respell: {len(rows)} names, {changed} files changed")


if __name__ == "__main__":
    main()
