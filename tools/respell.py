#!/usr/bin/env python3
"""Brings the names of this repository's own definitions and lemmas to today's spelling.

usage: python3 tools/respell.py [--list]     at the top of the repository, once, after the toolchain's own script

Types and facts are in camel case (`Live-record` becomes `LiveRecord`), functions, fields and constructors in snake case
(`live-number` becomes `live_number`). In a lemma's name a dash stays between two names (`tally-more` becomes `tally_more`,
`length-entries` stays). Only names that the files of specs/ and proofs/ declare are changed: in those files, and in the clauses of src/.
Names of src/, strings and comments of src/ stay as they are. With --list it writes nothing and prints old and new names.
"""

import glob
import re
import sys

NAME = r"[^\s(){}\[\],;:.λ→×⌜⌝∗]+"
DECLARED = re.compile(rf"^(\s*)((?:(?:abbrev|unfoldable|axiom|pub|data|record)\s+)*)({NAME}(?: {NAME})*)((?: [({{].*?)?) :(?: (.*))?$")
TOKEN = re.compile(r"(?<![^\s(){}\[\],;:.λ→×⌜⌝∗«»·])" + NAME + r"(?![^\s(){}\[\],;:.λ→×⌜⌝∗«»·])")
# Where the rule would keep a dash between words that are no names there.
PLAIN = set("chunk-hands-out create-no-segment same-bytes-fair too-many-defaults row-write-all take-set-in".split())
# Where the rule would give a name that a type or variant of src/ has.
OTHER = {"Handed-out": "IsHandedOut", "No-record": "NoRecordFor", "On-span": "OnSpanHeld", "On-segment": "OnSegmentIfStanding"}
STD = set("""length take drop map append set get_or slice_get sum reverse filter zip is_some is_none bytes_eq cond
replicate list_any list_all find position""".split())


def antt_files():
    return sorted(glob.glob("crates/*/specs/**/*.antt", recursive=True) + glob.glob("crates/*/proofs/**/*.antt", recursive=True))


def declarations():
    """Each declared name with the words before it and its whole type."""
    for path in antt_files():
        lines = open(path, encoding="utf-8").read().split("\n")
        block = None
        for i, line in enumerate(lines):
            at = len(line) - len(line.lstrip())
            if line.strip() and block is not None and at <= block:
                block = None
            m = DECLARED.match(line)
            member = ["member"] if block is not None else []
            if re.match(r"\s*(pub |abbrev |unfoldable )*(data|record) ", line) and "{" not in line.split(" : ")[0].split("record", 1)[-1][:2]:
                block = at
            if not m or line.lstrip().startswith(("use ", "--", "let ", "module ")):
                continue
            typ = m.group(5) or ""
            if re.match(r"(goal|given)\.", typ):
                continue
            if "=" in line[: line.index(" :")].split() or "=" in m.group(3):
                continue
            indent = len(m.group(1))
            j = i + 1
            while j < len(lines) and lines[j].strip() and len(lines[j]) - len(lines[j].lstrip()) > indent and not DECLARED.match(lines[j]):
                typ += " " + lines[j].strip()
                j += 1
            for name in m.group(3).split(" "):
                yield name, m.group(2).split() + member, typ.replace(" where", ""), path


def camel(name):
    return "".join(part[:1].upper() + part[1:] for part in name.split("-"))


def main():
    found = {}
    for name, words, typ, path in declarations():
        found.setdefault(name, []).append((words, typ, path))
    known = set(found) | STD
    new = {}
    for name, places in found.items():
        if "-" not in name or not re.match(r"^[\w'₀-₉-]+$", name):
            continue
        is_type = any(re.search(r"Type \d+$", typ.strip()) for _, typ, _ in places)
        if name[0].isupper() and is_type:
            new[name] = camel(name)
        elif is_type or any(w in words for words, _, _ in places for w in ("abbrev", "unfoldable", "data", "record", "member")):
            new[name] = name.replace("-", "_")
    for name, places in found.items():
        if "-" not in name or name in new or not re.match(r"^[\w'₀-₉-]+$", name):
            continue
        parts, pieces = name.split("-"), []
        i = 0
        while i < len(parts):
            j = len(parts) - (i == 0)
            while j > i and "-".join(parts[i:j]) not in known:
                j -= 1
            if j == i:
                pieces.append((parts[i], False))
                i += 1
            else:
                whole = "-".join(parts[i:j])
                pieces.append((new.get(whole, whole.replace("-", "_")), True))
                i = j
        text = pieces[0][0]
        for (_, left), (piece, right) in zip(pieces, pieces[1:]):
            text += ("-" if left and right else "_") + piece
        new[name] = text
    new.update({name: name.replace("-", "_") for name in PLAIN & set(found)})
    new.update({name: other for name, other in OTHER.items() if name in found})
    new = {k: v for k, v in new.items() if k != v}
    if "--list" in sys.argv:
        for k in sorted(new):
            print(k, new[k])
        return
    change = lambda text: TOKEN.sub(lambda m: new.get(m.group(0), m.group(0)), text)
    for path in antt_files():
        text = open(path, encoding="utf-8").read()
        changed = change(text)
        if changed != text:
            open(path, "w", encoding="utf-8").write(changed)
    # In answers, a name of src/ keeps its underscores inside a generated name.
    for path in antt_files():
        if not re.search(r"/(Answers|Invariants)\.antt$", path):
            continue
        text = open(path, encoding="utf-8").read()
        sources = "".join(open(f, encoding="utf-8").read() for f in glob.glob(path.split("/proofs/")[0] + "/src/**/*.rt", recursive=True))
        idents = sorted(set(re.findall(r"\b[A-Za-z]\w*_\w*[A-Za-z0-9]\b", sources)), key=len, reverse=True)
        own = set(found) | set(new.values())

        def keep(m):
            token = m.group(0)
            if "-" not in token or token in own:
                return token
            for ident in idents:
                token = re.sub(r"(?<![\w-])" + re.escape(ident.replace("_", "-")) + r"(?![\w])|(?<=-)" + re.escape(ident.replace("_", "-")) + r"(?![\w])", ident, token)
            return token

        changed = TOKEN.sub(keep, text)
        if changed != text:
            open(path, "w", encoding="utf-8").write(changed)
    ghost = re.compile(r"^\s*(ghost|requires|ensures)\b.*")
    for path in sorted(glob.glob("crates/*/src/**/*.rt", recursive=True)):
        lines, inside, out = open(path, encoding="utf-8").read().split("\n"), False, []
        depth = 0
        for line in lines:
            if inside or ghost.match(line):
                out.append(change(line))
                depth += line.count("{") - line.count("}")
                inside = depth > 0
                if depth <= 0:
                    depth = 0
            else:
                out.append(line)
        text = "\n".join(out)
        if text != "\n".join(lines):
            open(path, "w", encoding="utf-8").write(text)


main()
