#!/usr/bin/env python3
"""Says what a lent slice holds in the language's own words: in a clause `before x` is `x.now` of a `&` and `x.old` of a `&mut`,
and `after x` is `x.new`. A definition that gathered slices at a moment takes what they hold; where another took just that already,
it stands in the place of the gathering one.

usage: tools/moments.py      at the top, after tools/respell.py
"""
import glob
import re

GATHER = r"areas|areas_at|hand_areas|pair_areas|road_at|map_at"
PLAIN = {"areas_at": "areas", "road_at": "road", "map_at": "map_of"}


def clause(line, kinds):
    def word(moment, name):
        if kinds.get(name) == "&mut":
            return name + (".old" if moment == "before" else ".new")
        if kinds.get(name) == "&" and moment == "before":
            return name + ".now"
        raise SystemExit(f"{moment} {name}: {kinds} in {line}")

    def gathered(m):
        moment = "after" if m.group(2) == "after" else "before"
        return " ".join([PLAIN.get(m.group(1), m.group(1))] + [word(moment, n) if n in kinds else n for n in m.group(3).split()])

    line = re.sub(rf"\b({GATHER}) (before|after|\(λ x\. x\.now\))((?: [a-z_.0-9]+)+)", gathered, line)
    line = re.sub(r"\((before|after) ([a-z_]+)\)", lambda m: word(m.group(1), m.group(2)), line)
    return re.sub(r"\b(before|after) ([a-z_]+)\b", lambda m: word(m.group(1), m.group(2)), line)


def code(text):
    out, kinds, head = [], {}, None
    for line in text.split("\n"):
        if re.match(r"\s*(pub )?(unsafe )?(extern \"C\" )?fn ", line):
            head = ""
        if head is not None:
            head += line + "\n"
            if head.count("(") == head.count(")"):
                kinds = {n: ("&mut" if t.startswith("&mut") or re.match(r"&'\w+ mut", t) else "&") for n, t in re.findall(r"(\w+): (&[^,)]*)", head)}
                head = None
        elif re.match(r"\s*(requires|ensures)\b", line):
            line = clause(line, kinds)
        m = re.match(r"ghost use Rattle\.lent\.specs\.Slices\.", line)
        if m:
            continue
        m = re.match(r"(ghost use \S+\.\{)([^}]*)(\};)$", line)
        if m:
            names = []
            for n in m.group(2).split(", "):
                n = PLAIN.get(n, n)
                if n not in names:
                    names.append(n)
            line = m.group(1) + ", ".join(names) + m.group(3)
        out.append(line)
    return "\n".join(out)


def definitions(text):
    text = re.sub(rf"(?:^--[^\n]*\n)*^abbrev pub ({'|'.join(PLAIN)}) : [^\n]*\n(?:[^\n]+\n)*\n?", "", text, flags=re.M)
    lines = text.split("\n")
    for i, line in enumerate(lines):
        m = re.match(rf"abbrev pub ({GATHER}) : \{{A : Type 0\}} → \(A → List ℕ\) → (.*)$", line)
        if not m:
            continue
        lines[i] = f"abbrev pub {m.group(1)} : " + re.sub(r"\bA →", "List ℕ →", m.group(2))
        j = i + 1
        while j < len(lines) and lines[j].strip():
            lines[j] = re.sub(rf"^({GATHER}) at ", r"\1 ", lines[j])
            lines[j] = re.sub(r"\(at ([^()\s]+)\)", r"\1", lines[j])
            lines[j] = re.sub(r"\bat ([a-z_]+)", r"\1", lines[j])
            j += 1
    return "\n".join(lines)


def main():
    for path in sorted(glob.glob("crates/*/src/*.rt")) + sorted(glob.glob("crates/*/specs/*.antt")):
        with open(path, encoding="utf-8") as f:
            text = f.read()
        turned = code(text) if path.endswith(".rt") else definitions(text)
        if turned != text:
            with open(path, "w", encoding="utf-8") as f:
                f.write(turned)


if __name__ == "__main__":
    main()
