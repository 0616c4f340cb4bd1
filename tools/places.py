#!/usr/bin/env python3
"""Counts the places that the design pass is about (docs/DESIGN-PASS.md), in the sources of all crates.

usage: tools/places.py [-l] [FOLDER]     FOLDER holds crates/; -l prints the places themselves
"""
import glob
import os
import re
import sys

# For each point: what is looked for, and the pattern, line by line.
PATTERNS = [
    ("1 variants that say nothing, no or refused", r"^    (Nothing|Not[A-Z]\w*|No|Refused|Done|NoEdge)\b(\(|,)"),
    ("1 numbers for refusals", r"\b(No|Refused)\([0-9a-z]+\)|Result<\w+, u64>"),
    ("1 numbers for kinds", r"^\s+[0-9] => |=> \([0-9], |^const (INSERT|ALL_FACES|CLEAR)\b"),
    ("1 a text or None for what is wrong", r"Option<&'static str>"),
    ("1 flags beside a value", r"^\s+(pub )?\w+: bool,"),
    ("1 a number as the answer of a theorem", r"\(\) -> u8$"),
    ("3 loops that count by hand", r"while left > 0|left -= 1"),
    ("3 loops over indices", r"for [ij] in 0\.\.(n \{|i \{|\w+\.len\(\))"),
    ("3 searches and tests by hand", r"^\s{8,}return (true|false|i|Ok\(i as u64\));$"),
    ("4 numbers of ids compared", r"\.0 (==|!=) (0|\w+\(|[a-z.]+\.0)"),
    ("4 equality, verdicts and conversions by hand", r"p\.x == q\.x|=> (true|false),$|fn (cmp|same|at_most|side_by|circle_by|of|negated|add|sub|mul)\("),
    ("4 the smaller by hand", r"if (a|n) < (b|limit) \{ (a|n) \}"),
    ("5 that memory is as long as it is", r"length memory\.(now|old|new)"),
    ("5 x, y and data as parameters", r"x: u64, y: u64, data: u64"),
    ("5 a position and its data as parameters", r"p: Position, data: u64"),
    ("5 a place that is looked for beside the memory", r"memory: &(mut )?(Memory|\[u64\]), goal: Position"),
    ("5 a kind and three numbers as parameters", r"kind: u64, a: u64, b: u64, c: u64|kind: u64,$"),
    ("5 where a table begins and how many rows it has, as parameters", r"from: u64, number: u64"),
    ("5 a runtime or a heap beside the memory", r"(rt: &HostRuntime, memory|memory: &mut \[u64\],? *heap|memory, heap|rt, memory)"),
    ("6 a row with its length beside", r"\(out, count\)|&out, count|out: &\[u64; 4\], count|0u64; 4\]"),
    ("7 a match on a text or a number of what to run", r"match (kind|what|test\.as_str\(\)) \{"),
]


def sources(folder):
    return sorted(glob.glob(os.path.join(folder, "crates", "*", "src", "**", "*.rt"), recursive=True))


def code(path):
    """The lines of a file that are no remark."""
    with open(path) as file:
        return [(n, line.rstrip("\n")) for n, line in enumerate(file, 1) if not line.lstrip().startswith("//")]


def functions(path):
    """Each function of a file: its name, where it begins, and its text without names, numbers and clauses."""
    name, start, text, depth = None, 0, [], 0
    for n, line in code(path):
        begun = re.match(r"\s*(pub(\(crate\))? )?(final )?fn (\w+)", line)
        if begun and name is None:
            name, start, text, depth = begun.group(4), n, [], 0
        if name is None or re.match(r"\s*(requires|ensures|#\[)", line):
            continue
        text.append(line)
        depth += line.count("{") - line.count("}")
        if depth == 0 and "}" in line:
            shape = re.sub(r"\b\w+\b", lambda w: w.group() if w.group() in KEPT else "_", " ".join(text))
            yield name, start, re.sub(r"\s+", " ", shape), len(text)
            name = None


KEPT = {"fn", "let", "if", "else", "for", "in", "while", "match", "return", "break", "mut", "u64", "bool", "true", "false"}


def twins(folder):
    """Functions of the same shape, of four lines or more: they differ in names and numbers alone."""
    groups = {}
    for path in sources(folder):
        for name, start, shape, lines in functions(path):
            if lines >= 4:
                groups.setdefault(shape, []).append((path, start, name))
    return [group for group in groups.values() if len(group) > 1]


def main():
    words = sys.argv[1:]
    shown = "-l" in words
    words = [w for w in words if w != "-l"]
    folder = words[0] if words else "."
    for what, pattern in PATTERNS:
        found = [(p, n, l) for p in sources(folder) for n, l in code(p) if re.search(pattern, l)]
        print(f"{what}: {len(found)}")
        for path, n, line in found if shown else []:
            print(f"    {os.path.relpath(path, folder)}:{n}: {line.strip()}")
    groups = twins(folder)
    print(f"2 functions of one shape: {sum(map(len, groups))} in {len(groups)} groups")
    for group in groups if shown else []:
        print("    " + ", ".join(f"{os.path.relpath(p, folder)}:{n} {name}" for p, n, name in group))
    answers = glob.glob(os.path.join(folder, "crates", "*", "proofs", "**", "Answers.antt"), recursive=True)
    print(f"8 files of answers: {len([a for a in answers if '/out/incremental' not in a])}")


main()
