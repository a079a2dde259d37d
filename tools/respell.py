#!/usr/bin/env python3
"""Brings the repository's own definitions and lemmas to snake case, after port.py has run: words in snake case, types and modules in camel case, a prime as an apostrophe.

usage: python3 tools/respell.py [--show]     at the top of the repository, once; it lays the files out by `rt fmt`

A name is the repository's own where a file of specs/ or proofs/ declares it. A dash stays in a lemma's name where it joins two names; between plain words it is an underscore,
and always in a definition, a field or a constructor. Comments and documents turn inside code spans alone, edits in their 'old:' and 'new:' lines.
--show prints the table and what falls together, and writes nothing.
"""

import collections
import glob
import os
import re
import subprocess
import sys

WORD = r"[^\s(){}.;,@\"«»]+"
DECLARED = re.compile(
    r"^(?P<indent>\s*)(?P<marks>(?:(?:pub|abbrev|unfoldable)\s+)*)(?P<name>" + WORD + r")(?:\s+\{[^}]*\}|\s+\([^)]*\))*\s*:\s"
)
SHARED = {"length", "take", "drop", "get_or", "append", "replicate", "map", "set", "sum", "written", "suc", "zero", "cond", "not"}
# a parameter of the code has the name that the rules would give
OTHER = {"p-channel": "channel_p", "n-channel": "channel_n"}


def snake(part):
    if part[:1].isupper():
        return part
    return re.sub(r"([a-z0-9⁺])([A-Z])", lambda m: m[1] + "_" + m[2].lower(), part)


def sources(kinds):
    for kind in kinds:
        yield from sorted(f for f in glob.glob(f"crates/*/{kind}/**/*.antt", recursive=True) if "/out/" not in f)


def declared():
    """Each own name, with whether it is a lemma's at the outermost level of a file of proofs/."""
    found = {}
    for path in sources(["specs", "proofs"]):
        lemma_file = "/proofs/" in path
        for line in open(path, encoding="utf-8"):
            if line.lstrip().startswith("--"):
                continue
            m = DECLARED.match(line)
            if m:
                rest = line[m.end():]
                if re.match(r"tie\.", rest) or "statement M" in rest:
                    continue
                name = m["name"]
                is_lemma = lemma_file and "abbrev" not in m["marks"] and "unfoldable" not in m["marks"]
                found[name] = found.get(name, True) and is_lemma and (not m["indent"] or "module _" in line)
            m = re.match(r"use \S+ as (" + WORD + r")\s*$", line)
            if m:
                found.setdefault(m[1], False)
    return found


def table():
    own = declared()
    definitions = {snake(n) for n, is_lemma in own.items() if not is_lemma} | SHARED
    rows = {}
    for name, is_lemma in own.items():
        if not re.search(r"[A-Za-z]", name) or name.startswith("◌"):
            continue
        bare = name.replace("′", "'")
        parts = [snake(p) for p in bare.split("-")]
        joined = is_lemma and len(parts) > 1 and all(p in definitions or p[:1].isupper() for p in parts)
        new = OTHER.get(name, ("-" if joined else "_").join(parts))
        if new != name:
            rows[name] = new
    return apart(rows, own), own


def imported():
    """What the files bring in from std, the logic and mathlib."""
    found = set()
    for path in sources(["specs", "proofs"]):
        for items in re.findall(r"(?m)^(?:pub )?use (?!Rattle\.(?!std))\S+\{([^}]*)\}", open(path, encoding="utf-8").read()):
            found |= {it.split(" as ")[-1].strip() for it in items.split(",")}
    return found


def apart(rows, own):
    """Of names that would fall together a definition has the plain one, and a lemma, a field or an alias is told apart by `_lem`."""
    taken = imported()
    by_new = collections.defaultdict(set)
    for old, new in rows.items():
        by_new[new].add(old)
        if new in own and new not in rows:
            by_new[new].add(new)
    for new, olds in by_new.items():
        first = sorted(olds, key=lambda n: ("-" in n, n == new, n))
        for n in first[0 if new in taken else 1:]:
            rows[n] = new + "_lem"
    return rows


def together(rows, own):
    """What the table would bring together."""
    by_new = collections.defaultdict(set)
    for old, new in rows.items():
        by_new[new].add(old)
    for new, olds in sorted(by_new.items()):
        if len(olds) > 1:
            print("two names:", new, sorted(olds))
    for path in list(sources(["specs", "proofs"])) + sorted(glob.glob("crates/*/src/**/*.rt", recursive=True)):
        text = re.sub(r"(?m)(^|\s)(--|//).*$", "", open(path, encoding="utf-8").read())
        words = set(re.findall(WORD, text))
        for old in words & set(rows):
            if rows[old] in words:
                print("beside:", path, old, rows[old])


def turn_code(text, rows):
    return re.sub(WORD, lambda m: rows.get(m[0], m[0]), text)


def turn_spans(text, rows):
    return re.sub(r"`[^`\n]+`", lambda m: turn_code(m[0][:1], rows) + turn_code(m[0][1:-1], rows) + "`", text)


def turn_file(path, text, rows):
    if path.endswith(".md"):
        return turn_spans(text, rows)
    lines = []
    for line in text.split("\n"):
        if path.endswith(".edit"):
            lines.append(turn_code(line, rows) if re.match(r"(old|new):", line) else turn_spans(line, rows))
            continue
        mark = "//" if path.endswith(".rt") else "--"
        m = re.match(r"(|.*?\s)" + mark + r"(?=\s|$)", line)
        code, comment = (line[: m.end(1)], line[m.end(1):]) if m else (line, "")
        lines.append(turn_code(code, rows) + turn_spans(comment, rows))
    return "\n".join(lines)


def main(argv):
    if argv not in ([], ["--show"]):
        print(__doc__)
        return 2
    rows, own = table()
    if "--show" in argv:
        for old, new in sorted(rows.items()):
            print(old, new, sep="\t")
        together(rows, own)
        return 0
    paths = [f for k in ("antt", "rt", "edit") for f in glob.glob(f"crates/**/*.{k}", recursive=True) if "/out/" not in f]
    paths += [f for f in glob.glob("**/*.md", recursive=True) if not f.startswith("crates/")]
    turned = 0
    for path in sorted(paths):
        with open(path, encoding="utf-8") as f:
            text = f.read()
        new = turn_file(path, text, rows)
        if new != text:
            with open(path, "w", encoding="utf-8") as f:
                f.write(new)
            turned += 1
    for crate in sorted(glob.glob("crates/*/src")):
        subprocess.run(["rt", "fmt"], cwd=os.path.dirname(crate), stdout=subprocess.DEVNULL, stderr=subprocess.DEVNULL, check=False)
    print(f"respell: {len(rows)} names in {turned} files")
    return 0


if __name__ == "__main__":
    raise SystemExit(main(sys.argv[1:]))
