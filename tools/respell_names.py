#!/usr/bin/env python3
"""Brings the repository's own definitions and lemmas to the kit's spelling; run once, at the top, after the kit's port.py.

Functions, lemmas, fields and constructors of specs/ and proofs/ go to snake case, facts and types to upper camel case; a
lemma's name keeps a dash where it joins the names of two functions. Names that come from Rust (src/) and names that Rattle
makes (goals, loops, steps) stay. Names that would fall together are listed, and get `_lem` where one of them is a lemma.
"""
import glob
import re
import sys

WORDS = set("length take drop append set map replicate reverse sum filter paste nth insert remove".split())
PART = r"A-Za-z0-9_'◌·\-₀-₉≤≡<+*∷"
HEAD = re.compile(r"^(?P<mods>(?:(?:abbrev|unfoldable|pub|package|open)\s+)*)(?P<kind>record\s+|data\s+)?(?P<name>[A-Za-z][\w'\-]*)(?P<args>\s[^:=\n]*?)?\s*:\s*(?P<type>.*(?:\n[ \t]+.*)*)", re.M)
FIELD = re.compile(r"^\s+(?:pub\s+)?(?P<name>[A-Za-z][\w'\-]*)\s*:\s", re.M)


def snake(name):
    return re.sub(r"(?<=[a-z0-9])([A-Z])", lambda m: "_" + m[1].lower(), name).replace("-", "_")


def camel(name):
    return "".join(p[:1].upper() + p[1:] for p in re.split(r"[-_]", name))


def gather():
    """Every declared name: where, and whether it is a fact, a lemma or another function."""
    found = {}
    for path in sorted(glob.glob("crates/*/specs/**/*.antt", recursive=True) + glob.glob("crates/*/proofs/**/*.antt", recursive=True)):
        text = re.sub(r"--.*", "", open(path).read())
        for m in HEAD.finditer(text):
            if m["name"] in ("use", "pub", "mod") or re.match(r"(goal|given|need|rules)\.", m["type"]):
                continue
            first = m["type"].split("\n\n")[0]
            first = re.split(r"\n(?=\S)", first)[0].strip()
            fact = bool(m["kind"]) or first.endswith("Type 0")
            word = re.search(r"abbrev|unfoldable", m["mods"] or "")
            found.setdefault(m["name"], []).append((path, "fact" if fact else "word" if word else "lemma"))
        for record in re.finditer(r"^(?:pub\s+)?(?:record|data)\b.*\n((?:[ \t]+.*\n?)+)", text, re.M):
            for m in FIELD.finditer(record[1]):
                found.setdefault(m["name"], []).append((path, "field"))
    return found


def renamed(found):
    known = WORDS | {n for n, uses in found.items() if any(k == "word" for _, k in uses)}
    new = {}
    for name, uses in found.items():
        kinds = {k for _, k in uses}
        if "fact" in kinds or name[0].isupper():
            to = camel(name)
        elif kinds == {"lemma"} and "-" in name:
            parts = name.split("-")
            to = snake(parts[0])
            for before, part in zip(parts, parts[1:]):
                to += ("-" if before in known and part in known else "_") + snake(part)
        else:
            to = snake(name)
        new[name] = to
    taken = {}
    for name, to in new.items():
        taken.setdefault(to, []).append(name)
    for to, names in taken.items():
        if len(names) > 1:
            crates = {n: {p.split("/")[1] for p, _ in found[n]} for n in names}
            for name in names:
                others = set().union(*(crates[n] for n in names if n != name))
                if {k for _, k in found[name]} == {"lemma"} and crates[name] & others:
                    new[name] = to + "_lem"
            print("fall together:", to, [(n, new[n], sorted({p.split("/")[1] for p, _ in found[n]})) for n in names])
    return {n: t for n, t in new.items() if n != t}


def replace(text, new, fields, aliases):
    token = re.compile(r"(?P<before>[A-Za-z_][\w'\-]*\.)?(?<![%s])(?P<name>[A-Za-z][\w'\-]*)(?![%s])" % (PART, PART))

    def one(m):
        name, before = m["name"], m["before"] or ""
        if name not in new:
            return m[0]
        if before and name not in fields and not before[0].isupper() and before[:-1] not in aliases:
            return m[0]
        return before + new[name]

    return token.sub(one, text)


def outside_strings(text, change):
    parts = re.split(r'(b?"(?:\\.|[^"\\\n])*")', text)
    return "".join(p if i % 2 else change(p) for i, p in enumerate(parts))


def main():
    found = gather()
    new = renamed(found)
    fields = {n for n, uses in found.items() if any(k == "field" for _, k in uses)}
    for path in sorted(glob.glob("crates/**/*.antt", recursive=True) + glob.glob("crates/**/*.rt", recursive=True) + glob.glob("docs/*.md") + ["README.md"]):
        text = open(path).read()
        aliases = set(re.findall(r"\bas ([a-z][\w\-]*)", text))
        if path.endswith(".md"):
            out = re.sub(r"`[^`\n]+`", lambda m: replace(m[0], new, fields, aliases), text)
        elif path.endswith(".rt"):
            out = outside_strings(text, lambda t: replace(t, new, fields, aliases))
        else:
            before = set(re.findall(r"[A-Za-z][\w'\-]*", text))
            clash = {t for n, t in new.items() if n in before and t in before}
            if clash:
                print("look:", path, sorted(clash))
            out = replace(text, new, fields, aliases)
        if out != text:
            open(path, "w").write(out)
    if "--list" in sys.argv:
        for n in sorted(new):
            print(n, "->", new[n])
    print(len(new), "names respelled")


if __name__ == "__main__":
    main()
