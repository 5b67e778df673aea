#!/usr/bin/env python3
"""Spells the repository's own definitions and lemmas in snake case.

usage: respell.py [--check] [TREE]

TREE is the repository's top (default: the folder above tools/). Turned are names that files of specs/ and proofs/ declare, but for
types and facts, which begin with a capital: camelCase and dashes become underscores. A name turns in the file that declares it, in
files that import it from there, behind a dot where it is a record's field, in clauses of src/ that import it, and in the must-fail
edits of those files. Names of src/, labels of goals and names of the kit's library stay. --check writes nothing. It stops where two
names would fall together.
"""
import collections
import os
import re
import sys

TOKEN = re.compile(r"[^\s(){}.;,@\"«»]+")
DECL = re.compile(r"^( *)((?:(?:pub|abbrev|opaque|unfoldable|record|data|private)\s+)*)([^\s(){}.;,@\"«»:=|λ→]+)((?: [({][^{}()\n]*[)}])*) :(?: |$)")
HEAD = re.compile(r"^( *)((?:(?:pub|abbrev|opaque|unfoldable|private)\s+)*)(record|data)\s+([^\s(){}.;,@\"«»:]+)")
CASE = re.compile(r"^( +)\|? ?([a-z][^\s(){}.;,@\"«»:]*)((?: \([^()\n]*\))*) :(?: |$)")
USE = re.compile(r"(?m)^( *)(?:ghost |pub )*use ([^\s;{]+?)\.?(\{[^{}]*\})?(?: as ([^\s;]+))?;?[ ]*$")
COMMENT = re.compile(r"(?m)(?:^|(?<=[\s(){};,]))(?:--|//).*$")
# Fields of VRML97's nodes, which comments speak of.
NODES = {"xDimension", "zDimension", "xSpacing", "zSpacing", "creaseAngle", "crossSection", "coordIndex", "beginCap", "endCap", "bottomRadius"}
QUOTED = re.compile(r'"(?:[^"\\\n]|\\.)*"')


def snake(name):
    parts = []
    for part in name.split("-"):
        if part[:1].isupper() or not re.search(r"[a-z0-9][A-Z]", part):
            parts.append("get_or" if part == "getD" else part)
        else:
            parts.append(re.sub(r"(?<=[a-z0-9])([A-Z])", lambda m: "_" + m[1].lower(), "get_or" + part[4:] if part.startswith("getD") else part))
    return "_".join(parts)


# Lemmas that the kit's script spelled as the definition that they speak of will be.
LEMMAS = {"Rattle.math.proofs.Pattern": {"units_of"}, "Rattle.vertices.proofs.Keys": {"same_key"}}
# Lemmas that would have their definition's name get `_lem`, as the kit's guidelines say.
SPOKEN = set()


def turns(name, lemma=False):
    if lemma:
        return name + "_lem"
    new = turned(name)
    return new + "_lem" if new and "-" in name and new in SPOKEN else new


def turned(name):
    if name[:1].isupper() and "-" not in name:
        return None
    if not re.search(r"\w", name) or name.startswith("-") or name.endswith("-") or re.search(r"[◌≡≤<+*∷]", name):
        return None
    new = snake(name)
    return new if new != name else None


def files(top):
    for crate in sorted(os.listdir(os.path.join(top, "crates"))):
        base = os.path.join(top, "crates", crate)
        for folder, dirs, names in os.walk(base):
            dirs[:] = sorted(d for d in dirs if d != "out")
            for f in sorted(names):
                if f.endswith((".antt", ".rt", ".edit")):
                    yield crate, os.path.join(folder, f)


def module(top, path):
    """The path by which a file of specs/ or proofs/ is imported, or None for a function's own files."""
    parts = os.path.relpath(path, os.path.join(top, "crates")).split(os.sep)
    if len(parts) == 3 and parts[1] in ("specs", "proofs") and path.endswith(".antt"):
        return f"Rattle.{parts[0]}.{parts[1]}.{parts[2][:-5]}"
    return None


def main():
    args = [a for a in sys.argv[1:] if a != "--check"]
    check = "--check" in sys.argv[1:]
    top = os.path.abspath(args[0] if args else os.path.join(os.path.dirname(os.path.abspath(__file__)), ".."))
    text = {p: open(p, encoding="utf-8").read() for _, p in files(top)}
    declared, locals_, fields = {}, collections.defaultdict(set), set()
    for p, t in text.items():
        if not p.endswith(".antt"):
            continue
        mod = module(top, p)
        names, inside = set(), None
        for line in t.split("\n"):
            h = HEAD.match(line)
            if h:
                inside = len(h[1])
                names.add(h[4])
                continue
            m = DECL.match(line)
            indent = len(line) - len(line.lstrip(" "))
            if line.strip() and inside is not None and indent <= inside:
                inside = None
            if m:
                names.add(m[3])
                if inside is not None and mod:
                    fields.add(m[3])
        if mod:
            declared[mod] = names
        else:
            locals_[p] = names
    owns = lambda path: path.startswith("Rattle.") and any(path == m or path.startswith(m + ".") or m.startswith(path + ".") for m in declared)
    camels = {n for names in declared.values() for n in names if re.match(r"[a-z]", n) and re.search(r"[a-z0-9][A-Z]", n) and "-" not in n}
    for mod, names in declared.items():
        SPOKEN.update(turned(n) or n for n in names if ".specs." in mod or n in camels)
    SPOKEN.update(n for n in set().union(*declared.values()) if "-" not in n)
    faults, total, out = [], collections.Counter(), {}

    def scope(p, t):
        """Names that turn in this text, and heads behind which every own name turns."""
        mine = set(declared.get(module(top, p), ())) if p.endswith(".antt") else set()
        heads = {}
        for m in USE.finditer(t):
            path, items, alias = m[2], m[3], m[4]
            full = path
            if not full.startswith("Rattle."):
                continue
            found = [mod for mod in declared if full == mod or full.startswith(mod + ".")]
            if not found:
                continue
            names = declared[found[0]]
            if items:
                for item in items.strip("{}").split(","):
                    word = item.strip().split(" as ")[0].strip()
                    word = word.split(".")[0].split("{")[0].strip()
                    if word in names:
                        mine.add(word)
            if alias:
                heads[alias] = names
            elif not items:
                heads[full.split(".")[-1]] = names
        return mine, heads

    def lemmas_of(p, t):
        found = set(LEMMAS.get(module(top, p), ())) if p.endswith(".antt") else set()
        for m in USE.finditer(t):
            if m[2] in LEMMAS and m[3]:
                found |= LEMMAS[m[2]] & {i.strip() for i in m[3].strip("{}").split(",")}
        return found

    def turn(p, t, mine, heads, is_rt):
        lemmas = lemmas_of(p, t)
        local = locals_.get(p, set())
        pieces, last = [], 0
        spans = [(m.start(), m.end()) for m in QUOTED.finditer(t)] if not is_rt else []
        said = [(m.start(), m.end()) for m in COMMENT.finditer(t)]
        def within(i, spans):
            return any(a <= i < b for a, b in spans)
        for m in TOKEN.finditer(t):
            w = m[0]
            lemma = w in lemmas
            new = turns(w, lemma)
            if new is None or within(m.start(), spans) or w in NODES and within(m.start(), said):
                continue
            behind = m.start() and t[m.start() - 1] == "."
            before = t[: m.start() - 1] if behind else ""
            if behind:
                head = re.search(r"([^\s(){}.;,@\"«»]*)$", t[max(0, m.start() - 120) : m.start() - 1])[1]
                ok = w in fields or w in camels or (head in heads and w in heads[head]) or re.search(r"use [^\s;{]*$", t[max(0, m.start() - 200) : m.start()])and w in mine
            else:
                ok = (w in mine and w not in local) or w in camels
            if not ok:
                continue
            pieces.append(t[last : m.start()])
            pieces.append(new)
            last = m.end()
            total[w] += 1
        pieces.append(t[last:])
        return "".join(pieces)

    scopes = {}
    for p, t in text.items():
        if p.endswith(".antt") or p.endswith(".rt"):
            scopes[p] = scope(p, t)
    for p, t in text.items():
        if p.endswith(".edit"):
            where = re.search(r"(?m)^file: (\S+)", t)
            target = os.path.join(os.path.dirname(os.path.dirname(p)), where[1]) if where else None
            mine, heads = scopes.get(target, (set(), {}))
        else:
            mine, heads = scopes[p]
        new = turn(p, t, mine, heads, p.endswith(".rt"))
        if p.endswith(".antt"):
            bare = re.sub(r"(?m)--.*$", "", t)
            bare = USE.sub(lambda m: m[3] or "", bare)
            if p in locals_:
                bare = re.sub(r"\.[^\s(){}.;,@\"«»]+", "", bare)
            lemmas = lemmas_of(p, t)
            tokens = set(TOKEN.findall(bare)) - lemmas
            used = {w for w in tokens if (w in mine or w in fields or w in camels) and turns(w) and w not in locals_.get(p, set())}
            back = collections.defaultdict(set)
            for w in used:
                back[turns(w)].add(w)
            for n, olds in back.items():
                if len(olds) > 1 or n in tokens:
                    faults.append(f"{os.path.relpath(p, top)}: {', '.join(sorted(olds))} would meet {n}")
        if new != t:
            out[p] = new
    for mod, names in declared.items():
        back = collections.defaultdict(set)
        for n in names:
            back[turns(n, n in LEMMAS.get(mod, ())) or n].add(n)
        faults += [f"{mod}: {', '.join(sorted(o))} fall together" for o in back.values() if len(o) > 1]
    for f in faults:
        print(f)
    print(f"{len(out)} files, {len(total)} names, {sum(total.values())} places, {len(faults)} faults")
    if faults and not check:
        return 1
    if not check:
        for p, t in out.items():
            open(p, "w", encoding="utf-8").write(t)
    return 0


if __name__ == "__main__":
    sys.exit(main())
