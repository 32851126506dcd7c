#!/usr/bin/env python3
"""Brings the repository's own definitions and lemmas to today's spelling: words in snake case, a dash between two names only.

usage: python3 tools/respell.py [--say FILE]     at the top, once, after port.py; FILE gets a line 'old new' for each name

A name is a top-level definition or lemma, a field, a constructor or a local helper of a .antt file of this repository. Types and modules (a capital first), names
of source functions and names that a file imports from a library stay. A dash stays beside an operator or a type's name, and where it joins two names of definitions.
"""
import os
import re
import sys

TOKEN = re.compile(r"[^\s(){}\[\],;.:⌜⌝\"`]+")
WORDS = {"length", "take", "drop", "map", "sum", "get_or", "set", "reverse", "filter", "true", "false", "zero", "suc", "none", "some", "nil", "cons"}
WORD = re.compile(r"^[A-Za-z0-9'₀-₉ℕℤ_]+$")


def files(ends):
    for top in ("crates",):
        for folder, dirs, names in os.walk(top):
            dirs[:] = sorted(d for d in dirs if d not in ("out", "target"))
            for n in sorted(names):
                if n.endswith(ends):
                    yield os.path.join(folder, n)


def snake(word):
    word = re.sub(r"([a-z0-9₀-₉ℕℤ'])([A-Z])", r"\1_\2", word)
    word = re.sub(r"([A-Z])([A-Z][a-z])", r"\1_\2", word)
    return word.lower() if not word[:1].isupper() else word


def spell(name, known):
    """The name in today's spelling."""
    parts = name.split("-")
    if any(p == "" for p in parts):
        # an operator that is a dash: keep the dashes, spell the words
        return "-".join(snake(p) if p and not p[:1].isupper() else p for p in parts)
    out, seen = None, None
    for p in parts:
        word = bool(WORD.match(p))
        new = snake(p) if word and not p[:1].isupper() else p
        if out is None:
            out, before, last = new, p, p
            continue
        plain = word and not p[:1].isupper() and bool(WORD.match(last)) and not last[:1].isupper()
        join = "-" if not plain or (before in known and p in known) else "_"
        out += join + new
        before, last = before + "-" + p, p
    return out


HEAD = re.compile(r"^(?:(?:pub|abbrev|unfoldable) )*([^\s:(){}\[\],;.\"]+)((?: \{[^}]*\})*) : ")
INNER = re.compile(r"^\s+(?:(?:pub|abbrev|unfoldable) )*([^\s:(){}\[\],;.\"=]+) : ")


def tell(text, put, marked):
    """put over the tokens of a text; of a comment or a page only over camel case and, between backquotes, over all."""
    if not marked:
        return TOKEN.sub(put, text)
    parts = text.split("`")
    for k, part in enumerate(parts):
        parts[k] = TOKEN.sub((lambda m: put(m) if k % 2 or re.search(r"[a-z][A-Z]", m.group(0)) else m.group(0)), part)
    return "`".join(parts)


def main():
    say = sys.argv[sys.argv.index("--say") + 1] if "--say" in sys.argv else None
    texts = {p: open(p, encoding="utf-8").read() for p in files((".antt", ".rt", ".edit"))}
    own, defs, inner, used = set(), set(), set(), set()
    for p, t in texts.items():
        if not p.endswith(".antt") or p.endswith("/Proof.antt"):
            continue
        for line in t.split("\n"):
            m = HEAD.match(line)
            if m and not line.startswith(("use ", "--", "module", "mod ")):
                own.add(m.group(1))
                if "/specs/" in p:
                    defs.add(m.group(1))
                continue
            m = INNER.match(line)
            if m:
                inner.add(m.group(1))
    known = defs | WORDS
    names = {}
    for n in sorted(own | inner):
        if n[:1].isupper() or n[:1] in "◌_" or not re.search(r"[A-Z-]", n):
            continue
        new = spell(n, known)
        if new != n:
            names[n] = new
    # names that would fall together: the one in camel case has the plain name, a lemma beside it gets `_lem`
    taken = {}
    for n in sorted(own | inner):
        taken.setdefault(names.get(n, n), []).append(n)
    for new, olds in sorted(taken.items()):
        if len(olds) > 1:
            first = next((n for n in olds if re.search(r"[a-z][A-Z]", n)), None) or next((n for n in olds if n in defs), None) or next(n for n in olds if "-" not in n)
            for n in olds:
                if n != first:
                    names[n] = new + "_lem"
            print("together:", new, "is", first, "and", [n for n in olds if n != first], "get _lem")
    count = 0
    pages = ["README.md"] + [os.path.join("docs", n) for n in ("PROOFS.md", "DECISIONS.md", "CRATES.md", "FROM_I_OVERLAY.md")]
    for p in pages:
        if os.path.isfile(p):
            texts[p] = open(p, encoding="utf-8").read()
    for p, t in texts.items():
        lib = set()
        for m in re.finditer(r"^(?:ghost )?(?:pub )?use ([A-Za-z][^\s{]*)\.\{([^}]*)\}", t, re.M):
            if not (m.group(1).startswith("Rattle.") and os.path.isdir(os.path.join("crates", m.group(1).split(".")[1]))):
                lib |= {w.strip().split(" ")[0] for w in m.group(2).split(",")}

        def put(m):
            w, s = m.group(0), m.string
            if w not in names or w in lib:
                return w
            if not p.endswith(".antt") and not re.search(r"[A-Z-]", w):
                return w
            at = m.start()
            if at and s[at - 1] == "." and w not in inner and w not in own:
                return w
            return names[w]

        if p.endswith(".md"):
            new = tell(t, put, True)
        else:
            mark = "--" if p.endswith(".antt") else "//" if p.endswith(".rt") else "#"
            new = "\n".join(tell(line, put, line.lstrip().startswith(mark)) for line in t.split("\n"))
        if new != t:
            with open(p, "w", encoding="utf-8") as f:
                f.write(new)
            count += 1
    if say:
        with open(say, "w") as f:
            for n in sorted(names):
                f.write(f"{n} {names[n]}\n")
    print(f"respell: {len(names)} names, {count} files")


main()
