#!/usr/bin/env python3
"""Brings this repository's own names in specs/ and proofs/ to today's spelling, once, after the toolchain's own script.

usage: python3 tools/respell.py        at the top of the repository

A definition, a lemma, a field or a constructor of antt is in snake case. A dash stays where it joins two names of definitions,
as in length-text; a plain word is added with an underscore. Types, modules and names of src/ keep their spelling. Where two
names would fall together the lemma gets _lem. What was renamed is printed.
"""
import os
import re
import glob

DECL = re.compile(r"^(\s*)((?:(?:abbrev|unfoldable|pub|data|record)\s+)*)([^\s:()\[\]{}=,.;λ→@]+(?:\s+[^\s:()\[\]{}=,.;λ→@]+)*)\s+:(?!\S)")
TOKEN = re.compile(r"[^\s(){}\[\],;.:=λ|«»`\"]+")
LIBRARY = set("""length append map take drop set replicate add mul sub neg div mod le lt eq leb ltb eqb cond get_or reverse
to_z of_z le_z lt_z non_neg nat_abs pos mag subst""".split())
KEEP = {"A-to-K": "a_to_k", "are-bytes": "are_bytes_lem"}


def own_files():
    for p in sorted(glob.glob("crates/*/specs/*.antt") + glob.glob("crates/*/proofs/*.antt")):
        if not p.endswith("/Lib.antt"):
            yield p


def function_files():
    for d, ds, fs in os.walk("crates"):
        ds[:] = sorted(x for x in ds if x != "out")
        for f in sorted(fs):
            p = os.path.join(d, f)
            if f.endswith(".antt") and p.split("/")[2] == "proofs" and len(p.split("/")) > 4:
                yield p


def snake(name):
    s = re.sub(r"(?<=[a-z0-9])([A-Z])", lambda m: "_" + m.group(1).lower(), name)
    return s


def declared(path):
    """The names that a file declares: (name, a definition, a field)."""
    inside = None
    for line in open(path, encoding="utf-8"):
        line = line.split(" -- ")[0]
        if re.match(r"^\s*(pub\s+)?record\b", line) and " where" in line:
            inside = len(line) - len(line.lstrip())
        elif line.strip() and inside is not None and len(line) - len(line.lstrip()) <= inside:
            inside = None
        m = DECL.match(line)
        if not m or re.match(r"\s*(use|module|let|in|elim|λ|--)\b", line):
            continue
        words = [w for w in m.group(3).split() if w not in ("pub", "abbrev", "unfoldable", "data", "record")]
        marks = m.group(2).split() + m.group(3).split()
        for w in words:
            yield w, ("abbrev" in marks or "unfoldable" in marks or "data" in marks or "record" in marks), inside is not None and m.group(1) != ""


def tables():
    names, defs, fields = set(), set(), set()
    for p in own_files():
        for n, d, f in declared(p):
            names.add(n)
            if d:
                defs.add(n)
            if f:
                fields.add(n)
    return names, defs, fields


def joined(name, known):
    """A dash stays between two names of definitions."""
    parts = name.split("-")
    groups, i = [], 0
    while i < len(parts):
        for j in range(len(parts), i, -1):
            word = "_".join(parts[i:j])
            if word in known or j == i + 1:
                groups.append((word, word in known))
                i = j
                break
    out = groups[0][0]
    for (a, ka), (b, kb) in zip(groups, groups[1:]):
        out += ("-" if ka and kb else "_") + b
    return out


def renaming(names, defs):
    known = {snake(n) for n in defs if "-" not in n and n[0].islower()} | LIBRARY
    new = {}
    for n in sorted(names):
        if n in KEEP:
            new[n] = KEEP[n]
            continue
        if n[0].isupper() and "-" not in n:
            continue
        s = n
        if "-" in n:
            s = joined(snake(n), known)
        elif not n[0].isupper():
            s = snake(n)
        if s != n:
            new[n] = s
    first = {new[n] for n in new if n in defs}
    for n in sorted(names - defs):
        if n not in new and n in first:
            new[n] = n + "_lem"
            print("falls together:", n, "->", new[n])
    taken = {n for n in names if n not in new}
    for n in sorted(new, key=lambda x: (x not in defs, "-" in x, x)):
        s = new[n]
        if s in taken:
            s = s + "_lem"
            print("falls together:", n, "->", s)
        assert s not in taken, (n, s)
        taken.add(s)
        new[n] = s
    return new


def of_the_library():
    """The names that some file takes from the toolchain's library: these stay."""
    crates = {p.split("/")[1] for p in glob.glob("crates/*/src")}
    out = set()
    for p in list(own_files()) + list(function_files()) + glob.glob("crates/*/src/**/*.rt", recursive=True):
        for m in re.finditer(r"^(?:ghost )?use ([^\s{;]+?)\.\{([^}]*)\}", open(p, encoding="utf-8").read(), re.M):
            path = m.group(1).split(".")
            if path[0] == "Rattle" and len(path) > 1 and path[1] in crates:
                continue
            out |= {w.strip().split(" as ")[0] for w in m.group(2).split(",")}
    return out


def respell(text, new, skip, fields_only=None):
    def code(part):
        def at(m):
            t = m.group(0)
            if t in skip or t not in new:
                return t
            before = part[m.start() - 1] if m.start() else ""
            if before == "." and fields_only is not None and t not in fields_only:
                return t
            return new[t]
        return TOKEN.sub(at, part)

    def comment(part):
        part = re.sub(r"`[^`]*`", lambda m: code(m.group(0)), part)
        return TOKEN.sub(lambda m: new[m.group(0)] if re.search("[a-z][A-Z]", m.group(0)) and m.group(0) in new else m.group(0), part)

    lines = []
    for line in text.split("\n"):
        m = re.match(r"^(.*?)((?:^|\s)(?:--|//)\s.*)$", line)
        if m:
            lines.append(code(m.group(1)) + comment(m.group(2)))
        else:
            lines.append(code(line))
    return "\n".join(lines)


def clauses(text, new):
    """Of a source only its clauses and imports: names of src/ have no dash, and begin small only where they have no hump."""
    return respell(text, {k: v for k, v in new.items()}, set())


def page(text, new):
    return re.sub(r"`[^`\n]*`", lambda m: TOKEN.sub(lambda t: new.get(t.group(0), t.group(0)), m.group(0)), text)


def main():
    names, defs, fields = tables()
    stay = of_the_library()
    print("stay, as the library's:", sorted(names & stay))
    new = renaming(names - stay, defs)
    for p in list(own_files()):
        t = open(p, encoding="utf-8").read()
        open(p, "w", encoding="utf-8").write(respell(t, new, set()))
    for p in list(function_files()):
        t = open(p, encoding="utf-8").read()
        goals = set(re.findall(r"^(?:abbrev )?(?:pub )?(\S+) : (?:tie|goal)\.", t, re.M))
        local = {n for n, d, f in declared(p)} - goals
        more = dict(new)
        for n in local:
            if n not in more and not n[0].isupper() and re.search("-|[a-z][A-Z]", n) and not n.endswith(("-spec", "_spec")):
                s = snake(n).replace("-", "_")
                if s not in local and s not in more.values():
                    more[n] = s
        open(p, "w", encoding="utf-8").write(respell(t, more, goals, fields))
    for p in glob.glob("crates/*/src/**/*.rt", recursive=True):
        t = open(p, encoding="utf-8").read()
        open(p, "w", encoding="utf-8").write(clauses(t, new))
    for p in glob.glob("crates/*/must-fail/*.edit"):
        t = open(p, encoding="utf-8").read()
        t = "\n".join(clauses(l, new) if l.startswith(("old:", "new:")) else l for l in t.split("\n"))
        open(p, "w", encoding="utf-8").write(t)
    for p in ["README.md", "docs/ARCHITECTURE.md", "docs/DECISIONS.md", "docs/LANDINGS.md"]:
        t = open(p, encoding="utf-8").read()
        open(p, "w", encoding="utf-8").write(page(t, new))
    for n in sorted(new):
        print(n, new[n])


main()
