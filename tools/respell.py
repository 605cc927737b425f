#!/usr/bin/env python3
"""Turns the repository's own names to today's spelling, once, after the kit's port.py: `python3 tools/respell.py` at the top.

A definition, a record's field or a lemma in camel case (`realOf`) gets snake case (`real_of`). A lemma whose words are joined by dashes gets
underscores (`round-trip` becomes `round_trip`); a dash stays only between the names of two definitions (`trim-append`). Types, modules and
functions of src/ keep their names, and so do names that Rattle makes of the code (answers of a Proof.antt, paths into its steps). Where a new
name is already another thing's in one of the files concerned, it gets `_lem`. What was turned goes to standard output."""

import collections
import glob
import re
import sys

NAME = r"[^\s(){}.;,«»λ\[\]]+"
DEFINED = re.compile(r"^(\s*)((?:(?:abbrev|unfoldable|pub)\s+)*)(?:(record|data)\s+)?(" + NAME + r")((?:\s+[({].*)?)\s+:(?:\s|$)")
STD = {"append", "length", "take", "drop", "map", "filter", "reverse", "set", "sum", "cons", "reverse", "replicate", "pow", "mul", "add", "sub"}


def read(path):
    with open(path, encoding="utf-8") as f:
        return f.read()


def snake(name):
    return re.sub(r"(?<=[a-z0-9])([A-Z]+)", lambda m: "_" + m[1].lower(), name)


def code_and_comment(line, mark):
    """The line before its comment, and the comment."""
    if line.lstrip().startswith(mark):
        return "", line
    at = line.find(" " + mark)
    return (line, "") if at < 0 else (line[:at], line[at:])


antt = sorted(glob.glob("crates/*/specs/**/*.antt", recursive=True) + glob.glob("crates/*/proofs/**/*.antt", recursive=True))
sources = sorted(glob.glob("crates/*/src/**/*.rt", recursive=True))
edits = sorted(glob.glob("crates/*/must-fail/*.edit"))
papers = sorted(glob.glob("docs/**/*.md", recursive=True) + ["README.md", "differential/README.md"] + glob.glob("tests/*.sh") + glob.glob("tests/*.awk"))

made = collections.defaultdict(set)  # names that are answers of a proof by hand, by file
defined = collections.defaultdict(set)  # names, and the files that define them
for path in antt:
    for line in read(path).split("\n"):
        m = DEFINED.match(line)
        if not m or line.lstrip().startswith("--"):
            continue
        if path.endswith("/Proof.antt") and (re.search(r":\s+tie\.", line) or m[4].endswith("-spec")):
            made[path].add(m[4])
        else:
            defined[m[4]].add(path)

tokens = {}
for path in antt + sources:
    text = "\n".join(code_and_comment(line, "--" if path.endswith(".antt") else "//")[0] for line in read(path).split("\n"))
    tokens[path] = set(re.findall(r"(?<!\.)" + NAME, text))  # what follows a dot is a part of what stands before it

camel = {n: snake(n) for n in defined if re.match(r"^[a-z].*[A-Z]", n) and "-" not in n}
plain = {camel.get(n, n) for n in defined if "-" not in n} | STD


def dashed(name):
    parts = [camel.get(p, snake(p)) for p in name.split("-")]
    for i in range(1, len(parts)):
        left, right = "_".join(parts[:i]), "_".join(parts[i:])
        if left in plain and right in plain:
            return left + "-" + right
    return "_".join(parts)


kebab = {n: dashed(n) for n in defined if "-" in n.strip("-") and re.match(r"^[A-Za-z]", n) and re.fullmatch(r"[A-Za-z0-9_'\-]+", n)}
turned = {**camel, **kebab}
turned = {a: b for a, b in turned.items() if a != b}

# A new name that some file knows as another thing gets `_lem`; names that fall together do too.
uses = collections.defaultdict(set)
for path, words in tokens.items():
    for w in words:
        if w in turned:
            uses[w].add(path)
taken = collections.defaultdict(set)
for old in sorted(turned, key=lambda n: (n in kebab, n)):
    new = turned[old]
    while new in defined or taken[new] or any(new in tokens[p] for p in uses[old] if p.endswith(".antt") or re.search(r"\b" + new + r"\s*:", read(p)) or ("let " + new) in read(p) or ("let mut " + new) in read(p)):
        if new.endswith("_lem_lem"):
            sys.exit(f"{old}: no name")
        new += "_lem" if old in kebab else "_of"
    turned[old] = new
    taken[new].add(old)

TOKEN = re.compile(NAME)
CRATES = set(re.findall(r"^(\w+)[: ]", read("crates.txt"), re.M))


def foreign(text):
    """Names that a file takes from elsewhere than this repository."""
    out = set()
    for path, names in re.findall(r"^(?:pub )?use ([^\s{]+)\.\{([^}]*)\}", text, re.M):
        parts = path.split(".")
        if not (parts[0] == "Rattle" and parts[1] in CRATES):
            out |= set(re.findall(NAME, names))
    return out


def by_code(text, skip, path_names):
    """Names as tokens. A kebab name below a value (`c.some-step`) is Rattle's own."""
    out, last = [], 0
    for m in TOKEN.finditer(text):
        word = m[0]
        quoted = word.strip("'`\"")
        if word in turned and word not in skip:
            before = text[max(0, m.start() - 200) : m.start()]
            if word in kebab and before.endswith("."):
                root = re.search(r"([^\s(){};,]+)\.$", before)
                if root and not root[1].startswith("Rattle") and root[1].split(".")[0] not in path_names:
                    continue
            out.append(text[last : m.start()] + turned[word])
            last = m.end()
    return "".join(out) + text[last:]


def by_prose(text, kebabs=False):
    """Camel-case names anywhere, kebab names in backticks."""
    text = re.sub(r"(?<![A-Za-z0-9_'-])[a-z][A-Za-z0-9']*[A-Z][A-Za-z0-9']*(?![A-Za-z0-9_'-])", lambda m: camel_of(m[0]), text)
    return re.sub(r"`[^`\n]+`", lambda m: re.sub(r"[A-Za-z0-9_'\-]+", lambda w: turned.get(w[0], w[0]) if w[0] in kebab else w[0], m[0]), text)


def camel_of(word):
    return turned.get(word, word) if word in camel else word


changed = 0
for path in antt + sources + edits + papers:
    text = read(path)
    if path.endswith(".antt"):
        skip = made[path] | foreign(text)
        aliases = set(re.findall(r"\bas\s+([A-Za-z_]\w*)", text)) - {"tie"}
        lines = []
        for line in text.split("\n"):
            code, comment = code_and_comment(line, "--")
            lines.append(by_code(code, skip, aliases) + by_prose(comment))
        new = "\n".join(lines)
    elif path.endswith(".rt") or path.endswith(".edit"):
        new = by_prose(text)
    else:
        new = by_prose(text)
    if new != text:
        changed += 1
        with open(path, "w", encoding="utf-8") as f:
            f.write(new)

for old in sorted(turned):
    print(f"{old} {turned[old]}")
print(f"{len(turned)} names in {changed} files", file=sys.stderr)
