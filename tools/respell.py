#!/usr/bin/env python3
"""Brings the definitions and lemmas of specs/ and proofs/ to today's spelling, after the kit's port.py:
facts, types and modules in camel case, all else in snake case. Names of src/ stay.

usage: tools/respell.py [--list]      at the top; --list prints the old and new names and changes nothing
"""
import os
import re
import sys

# a branch's facts are named by Rattle, after the code
TOKEN = re.compile(r"(?<!\bw\.)[A-Za-z0-9_'\-\u2080-\u2089\u0370-\u03ff]+")
USE = re.compile(r"^\s*(?:ghost )?use\s+([^{\s;]+)(?:\.\{([^}]*)\})?")
HEAD = re.compile(r"^((?:(?:abbrev|unfoldable|pub)\s+)*)((?:data|record|ruleset)\s+)?(?:pub\s+)?([^\s(){}:;,=]+)(.*)$")
# where the plain spelling is taken in the same file
APART = {"at-most": "length_at_most", "count-of": "length_count_of", "kind-of": "kind_as", "through-exits": "through_exits_lem"}
MEMBER = re.compile(r"^\s+(?:pub\s+)?([^\s(){}:;,=]+)\s*:")
# in a module without a name, and in what a lemma keeps to itself
NESTED = re.compile(r"^\s+(?:abbrev |unfoldable )?(?:pub )?(?:data |record )?([^\s(){}:;,=.]+)\s*:(?=\s|$)")


def texts(ends):
    for folder, dirs, files in os.walk("crates"):
        dirs[:] = sorted(d for d in dirs if d != "out")
        for name in sorted(files):
            if name.endswith(ends):
                yield os.path.join(folder, name)


def read(path):
    with open(path, encoding="utf-8") as f:
        return f.read()


def defined():
    """The names that files of specs/ and lemma files of proofs/ define. What a function's Proof.antt defines are goals, named by Rattle."""
    names = set()
    for path in texts(".antt"):
        if os.path.basename(path) in ("Proof.antt", "Answers.antt", "Invariants.antt"):
            continue
        inside = False
        for line in read(path).splitlines():
            if re.match(r"(use|pub mod|mod|--|unfolding)\b|--", line) or not line.strip():
                continue
            if not line[0].isspace():
                m = HEAD.match(line)
                if m and (m.group(2) or re.match(r"\s*:", m.group(4))):
                    names.add(m.group(3))
                inside = bool(m and m.group(2))
            else:
                m = (MEMBER if inside else NESTED).match(line)
                if m:
                    names.add(m.group(1))
    return names


def imported():
    """The names that are imported from elsewhere than this repository's specs/ and proofs/."""
    own = {c for c in os.listdir("crates")}
    names = set()
    for path in texts((".antt", ".rt")):
        for line in read(path).splitlines():
            m = USE.match(line)
            if not m or not m.group(2):
                continue
            parts = m.group(1).split(".")
            if parts[0] == "Rattle" and parts[1] in own and not {"declared", "Statement", "Goals", "Tie"} & set(parts):
                continue
            for item in m.group(2).split(","):
                names.update(w for w in re.split(r"\s+as\s+", item.strip()))
    return names


def spelled(name):
    if name in APART:
        return APART[name]
    parts = name.split("-")
    if name[0].isupper():
        return parts[0] + "".join(p[:1].upper() + p[1:] for p in parts[1:])
    return re.sub(r"(?<=[a-z0-9])([A-Z])", r"_\1", "_".join(parts)).lower()


def main(argv):
    names = defined()
    others = imported()
    new = {n: spelled(n) for n in names if spelled(n) != n}
    for n in sorted(set(new) & others):
        print(f"left: {n} is also a name from elsewhere")
        del new[n]
    back = {}
    for n, to in sorted(new.items()):
        if to in back or to in names or to in others:
            print(f"look: {n} becomes {to}, which is there already")
        back[to] = n
    if "--list" in argv:
        for n, to in sorted(new.items()):
            print(n, to)
    for path in list(texts((".antt", ".rt", ".edit"))) + ["README.md"] + [os.path.join("docs", d) for d in sorted(os.listdir("docs")) if d.endswith(".md") and d != "PORT.md"]:
        text = read(path)
        found = set(TOKEN.findall(text))
        for n in sorted(found & set(new)):
            if new[n] in found:
                print(f"look: {path}: {n} becomes {new[n]}, which the file has already")
        if path.endswith(".md"):
            turned = re.sub(r"`[^`\n]+`", lambda m: TOKEN.sub(lambda t: new.get(t.group(), t.group()), m.group()), text)
        else:
            turned = TOKEN.sub(lambda t: new.get(t.group(), t.group()), text)
        if turned != text and "--list" not in argv:
            with open(path, "w", encoding="utf-8") as f:
                f.write(turned)
    return 0


if __name__ == "__main__":
    raise SystemExit(main(sys.argv[1:]))
