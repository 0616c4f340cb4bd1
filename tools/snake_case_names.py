#!/usr/bin/env python3
"""Brings the repository's own antt names to the language's spelling: words in snake case, types in camel case.

usage: python3 tools/snake_case_names.py [--list]     at the top of the repository

It was run once, after the kit's port.py. A name with a dash that this repository declares gets underscores (left-of, left_of), and where it
names a type it is joined in camel case (There-is, ThereIs). Names of the library, and names that the checker makes (goals and the steps of a proof),
keep their dashes. Contracts in src/ and the must-fail edits follow.
"""
import collections
import os
import re
import sys

# Lower-case words for facts, which are types.
TYPES = {"plain": "Plain", "other-table": "OtherTable"}
# Laws of two operators, which a dash joins.
OTHERWISE = {"*ℤ-+ℤ": "*ℤ-+ℤ", "+ℤ-*ℤ": "+ℤ-*ℤ", "negℤ-*ℤ": "neg_ℤ-*ℤ"}

MADE = ("Answers.antt", "Invariants.antt", "Proof.antt", "Choices.antt")
TOKEN = re.compile(r"[^\s(){}\[\];,.:@\"`«»|]+")
LIBRARY = re.compile(r"use (?:Rattle\.std|lib|mathlib|native|Prim)(?:\.[\w·]+)*\.\{([^}]*)\}", re.S)
OWN_USE = re.compile(r"use Rattle\.(?!std\b)([\w.+]+?)\.\{([^}]*)\}", re.S)


def files(root, *endings):
    for folder, dirs, names in os.walk(os.path.join(root, "crates")):
        dirs[:] = sorted(d for d in dirs if d not in ("out", "data"))
        for n in sorted(names):
            if n.endswith(endings):
                yield os.path.join(folder, n)


def read(path):
    with open(path, encoding="utf-8") as f:
        return f.read()


def is_made(path):
    return os.path.basename(path) in MADE and "/proofs/" in path


def library_names(texts):
    found = set()
    for t in texts.values():
        for m in LIBRARY.finditer(t):
            found |= {w.split(" as ")[0].strip() for w in m.group(1).split(",")}
    return found


def types(texts):
    """The names with a dash that are declared as types."""
    found = set()
    declared = re.compile(r"(?m)^\s*(?:pub |abbrev |unfoldable |data |record )*([^\s(){}:]+)((?:\s*\([^)]*\)|\s*\{[^}]*\})*)\s*:\s*([^\n]*)")
    for t in texts.values():
        for m in declared.finditer(t):
            ends = re.sub(r"\s+where$", "", m.group(3).strip())
            if re.search(r"(^|→ )Type [01]$", ends) and m.group(1)[0].isupper():
                found.add(m.group(1))
    return found


def snake(name):
    return re.sub(r"(?<=[^-])-(?=[^-])", "_", name)


def camel(name):
    return "".join(p[:1].upper() + p[1:] for p in name.split("-"))


def has_dash(token):
    return re.search(r"[^-◌]-[^-◌>]", token) is not None and "◌" not in token


def without_comment(line):
    m = re.search(r"(^|\s)--(\s|$)", line)
    return (line[: m.start()], line[m.start() :]) if m else (line, "")


def own_map(texts):
    library = library_names(texts)
    as_types = types(texts)
    names = set()
    for path, t in texts.items():
        if is_made(path):
            continue
        for line in t.splitlines():
            if re.match(r"\s*(pub )?use (Rattle\.std|lib|mathlib|native|Prim)", line):
                continue
            code = without_comment(line)[0]
            names |= {w for w in TOKEN.findall(code) if has_dash(w)}
    turned = {}
    for n in sorted(names - library):
        turned[n] = OTHERWISE.get(n) or (camel(n) if n in as_types else snake(n))
    turned.update(TYPES)
    return turned, library


def replace(text, turned):
    return TOKEN.sub(lambda m: turned.get(m.group(0), m.group(0)), text)


def turn_antt(text, turned):
    out = []
    for line in text.split("\n"):
        if re.match(r"\s*(pub )?use (Rattle\.std|lib|mathlib|native|Prim)\b", line):
            out.append(line)
            continue
        code, comment = without_comment(line)
        out.append(replace(code, turned) + replace(comment, {k: v for k, v in turned.items() if k not in TYPES}))
    return "\n".join(out)


def turn_made(text, turned):
    """A file of answers: only what it imports from this repository's own modules, in imports of these and outside of goals."""
    own = {}
    for m in OWN_USE.finditer(text):
        if re.search(r"\.(Goals|Given|Lts)\b|\.declared\b", m.group(1)):
            continue
        for w in m.group(2).split(","):
            for part in w.split(" as "):
                if part.strip() in turned:
                    own[part.strip()] = turned[part.strip()]
    out = []
    for line in text.split("\n"):
        if re.match(r"use .*\.(Goals|Given|Lts)\b|use Rattle\.std", line):
            out.append(line)
            continue
        out.append(re.sub(r"(?<![.\w-])" + TOKEN.pattern, lambda m: own.get(m.group(0), m.group(0)), line))
    return "\n".join(out)


def turn_source(text, turned):
    """Contracts alone: ghost imports and clauses."""
    out, inside = [], False
    for line in text.split("\n"):
        starts = re.match(r"\s*(ghost use|requires|ensures|ghost)\b", line)
        if starts or inside:
            out.append(replace(line, turned))
            depth = line.count("{") - line.count("}")
            inside = (depth > 0) if starts else inside and depth >= 0
        else:
            out.append(line)
    return "\n".join(out)


def main(argv):
    root = "."
    texts = {p: read(p) for p in files(root, ".antt")}
    turned, library = own_map(texts)
    seen = collections.defaultdict(set)
    tokens = set()
    for t in texts.values():
        tokens |= set(TOKEN.findall(t))
    for old, new in turned.items():
        if new in tokens:
            print(f"falls together: {old} and {new}")
        seen[new].add(old)
    for new, olds in seen.items():
        if len(olds) > 1:
            print(f"falls together: {sorted(olds)} as {new}")
    if argv[1:] == ["--list"]:
        for old, new in sorted(turned.items()):
            print(old, new)
        return 0
    for path, t in texts.items():
        new = turn_made(t, turned) if is_made(path) else turn_antt(t, turned)
        if new != t:
            with open(path, "w", encoding="utf-8") as f:
                f.write(new)
    for path in files(root, ".rt"):
        t = read(path)
        new = turn_source(t, turned)
        if new != t:
            with open(path, "w", encoding="utf-8") as f:
                f.write(new)
    for path in files(root, ".edit"):
        t = read(path)
        where, out = "", []
        for line in t.split("\n"):
            where = line[6:] if line.startswith("file: ") else where
            out.append(replace(line, turned) if where.endswith(".antt") and not line.startswith("file: ") else line)
        new = "\n".join(out)
        if new != t:
            with open(path, "w", encoding="utf-8") as f:
                f.write(new)
    return 0


if __name__ == "__main__":
    sys.exit(main(sys.argv))
