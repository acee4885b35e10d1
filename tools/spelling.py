#!/usr/bin/env python3
"""Brings the repository's own names of definitions and lemmas to one spelling: words in snake case, as `table_bytes` for `tableBytes` and `table-bytes`.

usage: spelling.py [--check]

Types and modules keep their upper camel case, and names of Rust, of the toolchain and of its libraries keep theirs. It goes by whole words in specs/,
proofs/, clauses, must-fail edits and the code spans of comments and pages. With --check nothing is written. Names that would fall together are printed
and turned by the table OTHERWISE alone. A second run changes nothing.
"""

import collections
import glob
import re
import sys

WORD = r"[^\s(){}.;,@\"«»`]+"
DECLARED = re.compile(rf"^\s*((?:pub |abbrev |unfoldable |data |record )*)((?:{WORD}[ ]+)*?{WORD})((?:[ ]+[({{][^(){{}}]*[)}}])*)[ ]+:(?:\s|$)")
# The toolchain's own words, which proofs declare, and what their names begin with.
MADE = ("invariant-loop", "decreases-loop")
# Names that would fall together with others, and what they are called instead: a lemma that would have its function's name gets `_lem`.
LEMMAS = "begin-state block-place head_bytes heard-by in-range length-in letter-on longest-log mark-numbers marked-rows row_count scratch-size shown_by state-rows state-size states-of trimmed-bytes"
OTHERWISE = {n: n.replace("-", "_") + "_lem" for n in LEMMAS.split()} | {"bit-and": "bit_of_and", "bit-or": "bit_of_or", "bit-xor": "bit_of_xor"}


def snake(name):
    name = re.sub(r"(?<=[a-z0-9])([A-Z])", lambda m: "_" + m[1].lower(), name)
    return name.replace("-", "_")


def is_odd(name):
    return name[:1].islower() or name[:1] in "≤" if ("-" in name or re.search(r"[a-z][A-Z]", name)) else False


def sources():
    return sorted(glob.glob("crates/*/specs/**/*.antt", recursive=True) + glob.glob("crates/*/proofs/**/*.antt", recursive=True))


def text_of(path):
    with open(path, encoding="utf-8") as f:
        return f.read()


def declared(paths):
    names = collections.defaultdict(set)
    for path in paths:
        for line in text_of(path).split("\n"):
            if line.lstrip().startswith("--"):
                continue
            found = DECLARED.match(line)
            if found:
                for name in found[2].split():
                    names[name].add(path)
    return names


def outside(path, text):
    """The names that a file imports from elsewhere than this repository."""
    names = set()
    for line in re.findall(r"(?m)^(?:ghost )?use ([^\n]*)", text):
        module = line.split(".{")[0]
        if not re.match(r"Rattle\.(?!std|core)", module):
            names |= set(re.findall(WORD, line[len(module):]))
    return names


def turned_code(text, table):
    return re.sub(WORD, lambda m: table.get(m[0], m[0]), text)


def turned_spans(text, table):
    return re.sub(r"`[^`\n]*`", lambda m: turned_code(m[0], table) if not m[0].startswith("``") else m[0], text)


def turned_words(text, table):
    """A page or a comment: code spans, and words that are spelled like no English word, as `tableBytes`."""
    text = turned_spans(text, table)
    return re.sub(r"\b[a-z]+[a-z0-9]*[A-Z]\w*\??", lambda m: table.get(m[0], m[0]), text)


def by_comments(text, mark, table, code):
    lines = []
    for line in text.split("\n"):
        at = re.search(rf"(?:^|(?<=\s)){mark}(?:\s|$)", line)
        cut = at.start() if at else len(line)
        lines.append(code(line[:cut], table) + turned_words(line[cut:], table))
    return "\n".join(lines)


def turned_rust(text, table):
    parts = re.split(r'("(?:\\.|[^"\\])*")', text)
    return "".join(p if i % 2 else turned_code(p, table) for i, p in enumerate(parts))


def main(words):
    paths = sources()
    names = declared(paths)
    table = {n: OTHERWISE.get(n, snake(n)) for n in names if n in OTHERWISE or is_odd(n) and not n.startswith(MADE)}
    if not any(is_odd(n) for n in table):
        print("every name is in this spelling already")
        return 0
    ends = collections.defaultdict(set)
    for n in set(names) - set(table):
        ends[n].add(n)
    for n, to in table.items():
        ends[to].add(n)
    for to, olds in sorted(ends.items()):
        if len(olds) > 1:
            where = {n: sorted(names[n])[:3] for n in olds}
            print(f"falls together: {to}: {where}")
    changed = 0
    for path in paths + sorted(glob.glob("crates/*/src/**/*.rt", recursive=True)) + sorted(glob.glob("crates/*/must-fail/*.edit")) + sorted(glob.glob("docs/*.md")) + ["README.md"]:
        text = text_of(path)
        taken = outside(path, text) & set(table)
        if taken:
            print(f"outside: {path}: {sorted(taken)}")
        here = {n: to for n, to in table.items() if n not in taken and (is_odd(n) or path.endswith(".antt"))}
        if path.endswith(".antt"):
            code = set(re.findall(WORD, "\n".join(l.split("-- ")[0] for l in text.split("\n"))))
            for n in sorted(code & set(here)):
                if here[n] in code:
                    print(f"stands already: {path}: {n} -> {here[n]}")
            new = by_comments(text, "--", here, turned_code)
        elif path.endswith(".rt"):
            new = by_comments(text, "//", here, turned_rust)
        elif path.endswith(".edit"):
            new = "\n".join(turned_words(l, here) if l.startswith("#") else turned_code(l, here) for l in text.split("\n"))
        else:
            new = turned_words(text, here)
        if new != text:
            changed += 1
            if "--check" not in words:
                with open(path, "w", encoding="utf-8") as f:
                    f.write(new)
    print(f"{len(table)} names, {changed} files")
    return 0


if __name__ == "__main__":
    raise SystemExit(main(sys.argv[1:]))
