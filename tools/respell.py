#!/usr/bin/env python3
"""Spells the repository's own definitions and lemmas as the library spells its own: words in snake case, and no dash in a lemma's name.

usage: tools/respell.py [--check]      at the top of the repository, once, after the kit's port.py; --check writes nothing

A definition, field or constructor such as `labelByte` becomes `label_byte` wherever the word stands in crates/, docs/ and README.md.
A lemma such as `all-few`, declared in a file of specs/ or right in proofs/, becomes `all_few` in that file and where it is imported from it;
what Rattle makes (a goal's name, a step's, a function's `-spec`) keeps its dashes. A name that a file imports from the library stays there.
A lemma whose new spelling is a definition's gets `_law` behind it; a definition whose new spelling is a field's stands in the table CLASHES below.
A line that begins 'clash:' names a new spelling that a file has already: a function of the code, whose name no clause can mean, or something to look at.
"""
import os
import re
import sys

# Names whose plain spelling is taken: by a field of a struct of the code, by a function's parameter, or by a definition that a lemma is about.
CLASHES = {
    "issuerAt": "issuer_read_at",
    "assertionAt": "assertion_read_at",
    "constantAt": "constant_read_at",
}
# Lemmas that would have, or have since port.py, the name of a definition: each gets `_law` behind it. main() fills it.
LAWS = set()

WORD = re.compile(r'[^\s(){}.;,@"«»\[\]`]+')
DECLARED = re.compile(r"^ *(?:(?:abbrev|unfoldable|pub|rec|opaque|where|let) +)*([^\s:(){}=.;,@\"]+(?: [^\s:(){}=.;,@\"]+)*)(?: \{[^{}\n]*\})* +: ", re.M)
USE = re.compile(r"\buse ([^\s;{]+?)(?:\.(\{[^}]*\}))?(?: as ([^\s;]+))?;?$", re.M)
CAMEL = re.compile(r"^[a-z][a-z0-9']*(?:-[a-z0-9']+)*[A-Z]|^[a-z].*[a-z0-9][A-Z]")


def read(path):
    with open(path, encoding="utf-8") as f:
        return f.read()


def snake(name):
    if name in CLASHES:
        return CLASHES[name]
    if name in LAWS:
        return name.replace("-", "_") + "_law"
    name = re.sub(r"(?<=[a-z0-9'])([A-Z])(?=[a-z0-9])", lambda m: "_" + m[1].lower(), name)
    name = re.sub(r"(?<=[a-z0-9'])([A-Z])", lambda m: "_" + m[1].lower(), name)
    return name.replace("-", "_")


def bare(text):
    """The text without comments and quoted text, of the same length."""
    return re.sub(r'(?<![^\s(){}.;,])--[^\n]*|"(?:[^"\\\n]|\\.)*"', lambda m: " " * len(m[0]), text)


def files(*endings):
    for top in ("crates",):
        for folder, dirs, names in os.walk(top):
            dirs[:] = sorted(d for d in dirs if d not in ("out", "must-fail"))
            for name in sorted(names):
                if name.endswith(endings):
                    yield os.path.join(folder, name)


def module(path):
    parts = path[:-5].split(os.sep)
    return ".".join(["Rattle"] + parts[1:])


def is_shared(path):
    """A file of definitions or lemmas, and not one that belongs to one function."""
    parts = path.split(os.sep)
    return path.endswith(".antt") and (parts[2] == "specs" or parts[2] == "proofs" and len(parts) == 4)


def main():
    check = "--check" in sys.argv[1:]
    texts = {p: read(p) for p in files(".antt", ".rt")}
    declared = {}
    for p, t in texts.items():
        if is_shared(p):
            declared[module(p)] = {n for names in DECLARED.findall(bare(t)) for n in names.split()}
    camel = {}
    for names in declared.values():
        for n in names:
            if CAMEL.match(n) and not n[0].isupper():
                camel[n] = snake(n)
    defined = set(camel.values())
    defined.update(snake(n) for m, names in declared.items() if ".specs." in m for n in names)
    for m, names in declared.items():
        if ".proofs." in m:
            LAWS.update(n for n in names if n not in camel and ("-" in n and n.replace("-", "_") in defined or n in camel.values()))
    lemmas = {m: {n for n in names if "-" in n or n in LAWS and ".proofs." in m} for m, names in declared.items()}
    changed = 0
    for p, t in texts.items():
        b = bare(t)
        table = {}
        behind = {}
        library = set()
        here = declared.get(module(p), set()) if p.endswith(".antt") else set()
        for n in here & lemmas.get(module(p), set()):
            if n not in camel:
                table[n] = snake(n)
        for path, group, alias in USE.findall(b):
            own = path in declared
            for item in re.split(r"[,\s]+", (group or "").strip("{}")):
                if not item:
                    continue
                if own:
                    if item in lemmas[path] and item not in camel:
                        table[item] = snake(item)
                elif not path.startswith("Rattle.") or path.split(".")[1] == "std":
                    library.add(item)
            if own:
                behind[alias or path.split(".")[-1]] = lemmas[path]
        for n in library:
            if table.pop(n, None):
                print(f"library: {p}: {n} stays")
        words = set(w for w in WORD.findall(b))
        for n, new in sorted({**table, **{k: v for k, v in camel.items() if k in words}}.items()):
            if n in words and new in words:
                print(f"clash: {p}: {n} and {new}")
        out = []
        last = 0
        # comments: camel case words everywhere, dashed ones in code spans
        spans = [(m.start(), m.end()) for m in re.finditer(r"(?<![^\s(){}.;,])(?:--|//)[^\n]*", t)]
        quoted = [(m.start(), m.end()) for m in re.finditer(r'"(?:[^"\\\n]|\\.)*"', t)]
        qi = 0
        ticks = set()
        for s, e in spans:
            for m in re.finditer(r"`[^`\n]*`", t[s:e]):
                ticks.update(range(s + m.start(), s + m.end()))
        comment = set()
        for s, e in spans:
            comment.update(range(s, e))
        for m in WORD.finditer(t):
            w = m[0]
            new = camel.get(w)
            if new is None and ("-" in w or w in LAWS):
                s = m.start()
                dotted = s > 0 and t[s - 1] == "."
                if s in comment and s not in ticks:
                    continue
                if dotted:
                    head = re.search(r"([^\s(){}.;,@\"«»\[\]`]+)\.$", t[:s][-80:])
                    if head and head[1] in behind and w in behind[head[1]]:
                        new = snake(w)
                else:
                    new = table.get(w)
            if new is not None and new != w:
                out.append(t[last:m.start()])
                out.append(new)
                last = m.end()
        out.append(t[last:])
        new_text = "".join(out)
        if new_text != t:
            changed += 1
            if not check:
                with open(p, "w", encoding="utf-8") as f:
                    f.write(new_text)
    for top in ("docs", "README.md"):
        paths = [top] if top.endswith(".md") else [os.path.join(d, n) for d, _, ns in os.walk(top) for n in ns if n.endswith(".md") or n == "believed"]
        for p in paths:
            t = read(p)
            new_text = WORD.sub(lambda m: camel.get(m[0], m[0]), t)
            if new_text != t:
                changed += 1
                if not check:
                    with open(p, "w", encoding="utf-8") as f:
                        f.write(new_text)
    news = {}
    for old, new in camel.items():
        news.setdefault(new, set()).add(old)
    for new, olds in news.items():
        if len(olds) > 1:
            print(f"clash: {sorted(olds)} would all be {new}")
    print(f"{changed} files changed; {len(camel)} names in camel case")


main()
