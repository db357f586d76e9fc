#!/usr/bin/env python3
"""Candidates for today's forms in src/, point by point, in a commit or (with none) in the working tree:

    python3 tools/count.py [COMMIT] [POINT]

It goes by text: each line it prints is a place to look at, not a verdict. docs/DESIGN-PASS.md says which of them were places."""
import collections
import itertools
import re
import subprocess
import sys

ARGS = sys.argv[1:]
POINT = ARGS.pop() if ARGS and re.fullmatch(r"[1-8]", ARGS[-1]) else None
COMMIT = ARGS[0] if ARGS else None


def git(*words):
    return subprocess.check_output(["git", *words], text=True, encoding="utf-8")


def tracked():
    return (git("ls-tree", "-r", "--name-only", COMMIT) if COMMIT else git("ls-files")).split("\n")


def text(path):
    return git("show", f"{COMMIT}:{path}") if COMMIT else open(path, encoding="utf-8").read()


def stripped(source):
    return re.sub(r"//[^\n]*", "", source)


def closing(source, start):
    """The place after the bracket that closes the one at `start`."""
    opens, closes = "([{<", ")]}>"
    depth = 0
    for i in range(start, len(source)):
        if source[i] in opens:
            depth += 1
        elif source[i] in closes and source[i - 1] not in "-=":
            depth -= 1
            if depth == 0:
                return i + 1
    return len(source)


class Function:
    """A function of src/: its name, the names of its parameters, and its text without clauses."""

    def __init__(self, path, source, found):
        self.path, self.name = path, found.group(1)
        self.line = source.count("\n", 0, found.start()) + 1
        at = found.end()
        if source[at] == "<":
            at = closing(source, at)
        end = closing(source, at)
        parts = re.split(r",(?![^<(\[]*[>)\]])", source[at + 1 : end - 1])
        self.parameters = [p.split(":")[0].replace("mut ", "").strip() for p in parts if ":" in p]
        lines = source[end:].split("\n")
        kept = [lines[0]]
        for line in lines[1:]:
            if re.match(r"\s*(requires|ensures)\b", line):
                continue
            kept.append(line)
            if line.startswith("    }") or line.startswith("}") or kept[0].rstrip().endswith(";"):
                break
        self.body = source[at:end] + "\n".join(kept)

    def shape(self):
        """The text with every name and number replaced by one sign."""
        tokens = re.findall(r"[A-Za-z_]\w*|\d[\w.]*|\"[^\"]*\"|\S", self.body)
        keywords = "fn let mut if else match for while in return self Self Some None Ok Err true false ref as".split()
        return " ".join(t if t in keywords or not re.match(r"[\w\"]", t) else "x" for t in tokens)

    def __str__(self):
        return f"{self.path}:{self.line}: {self.name}"


SOURCES = {p: stripped(text(p)) for p in tracked() if re.fullmatch(r"crates/[^/]+/src/.*\.rt", p)}
FUNCTIONS = [
    Function(p, s, m) for p, s in SOURCES.items() for m in re.finditer(r"\bfn ([a-z_0-9]+)(?=[<(])", s)
]


def lines_like(pattern):
    for path, source in SOURCES.items():
        for number, line in enumerate(source.split("\n"), 1):
            if re.search(pattern, line):
                yield f"{path}:{number}: {line.strip()[:110]}"


def show(point, title, rows):
    if POINT in (None, point):
        rows = list(rows)
        print(f"{point}  {title}: {len(rows)}")
        for row in rows:
            print(f"     {row}")


show("1", "enums of our own", lines_like(r"^\s*(pub(\(crate\))? )?enum "))
show("1", "functions that answer a flag or a bare number", lines_like(r"-> (bool|u8|u16|u32|\(u32, bool\)|Option<u32>)( \{|$|;)"))
show("1", "flags: a field, or a variable that a loop clears", lines_like(r"^\s+(pub )?[a-z_]+: bool,|let mut [a-z_]+ = (true|false)"))

by_shape = collections.defaultdict(list)
for f in FUNCTIONS:
    if len(f.shape().split()) >= 14 and "{" in f.body:
        by_shape[f.shape()].append(f)
show("2", "groups of functions of one shape", (" | ".join(map(str, g)) for g in by_shape.values() if len(g) > 1))

show("3", "loops over a range, and while loops", lines_like(r"^\s*(for \w+ in .*\.\.|while )"))
show("3", "counters kept by hand", lines_like(r"(\w+) (\+= 1|= \1\.saturating_add\(1\));"))

show("4", "impls of std's traits", lines_like(r"^impl.* (PartialEq|Eq|Ord|PartialOrd|Clone|Copy|Default|Display|fmt::Display|Debug|From<.*>|TryFrom<.*>|FromStr|Error) for "))
show("4", "conversions, comparisons and names by hand", lines_like(r"matches!|fn (same|number|name|low_half|float_bits|bits_float|same_bytes|same_key|within|set_to|\w+_set_to)\b|\(\w+ % \w+\) as|Mark::\w+ => (true|false)|fn is_handed_out"))

show("5", "functions of six or more parameters", (f"{f} ({len(f.parameters)}): {' '.join(f.parameters)}" for f in FUNCTIONS if len(f.parameters) >= 6))
uses = collections.defaultdict(set)
for f in FUNCTIONS:
    for name in f.parameters:
        uses[name].add(str(f))
names = sorted(n for n in uses if len(uses[n]) >= 3)
together = [n for n in names]
for a, b in itertools.combinations(names, 2):
    if len(uses[a] & uses[b]) * 2 >= len(uses[a] | uses[b]):
        low, high = sorted((together[names.index(a)], together[names.index(b)]))
        together = [low if g == high else g for g in together]
groups = ([n for n, g in zip(names, together) if g == first] for first in sorted(set(together)))
show("5", "parameters of which each stands with another in half of their functions", (f"{' '.join(g)}: {len(set.union(*(uses[n] for n in g)))} functions" for g in groups if len(g) > 1))
clauses = collections.Counter((p.split("/")[1], m) for p, s in SOURCES.items() for m in re.findall(r"^\s*(?:requires|ensures)[^{]*\{ (.*) \}$", s, re.M))
show("5", "clauses that stand in three or more contracts of a crate", (f"{c}: {crate}: {clause[:90]}" for (crate, clause), c in clauses.most_common() if c >= 3))
show("5", "clauses of over 160 signs", (f"{crate}: {len(clause)}: {clause[:60]}" for (crate, clause), c in clauses.items() if len(clause) > 160))

show("6", "arrays and lent slices in a struct, and counts beside them", lines_like(r"^    (pub )?\w+: (\[.*; \d+\]|&'\w+ (mut )?\[.*\]|Vec<.*>),|^    (pub )?(len|count|taken|defaults): usize,"))
show("7", "enums that name a step, and what picks one", lines_like(r"enum (Step|Operation|OnSpan|OnSegment|Mode|Call|Change|Question)\b|fn (operation_of|perform|parse|step)\b"))

if POINT in (None, "8"):
    proofs = collections.Counter()
    for p in tracked():
        m = re.fullmatch(r"crates/([^/]+)/proofs/.*\.antt", p)
        if m:
            proofs[m.group(1)] += text(p).count("\n")
    print("8  lines of proofs:", sum(proofs.values()))
    for crate, n in sorted(proofs.items()):
        print(f"     {crate}: {n}")
