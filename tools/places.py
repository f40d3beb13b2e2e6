#!/usr/bin/env python3
"""Counts the places of docs/DESIGN-PASS.md in crates/*/src, point by point.

usage: tools/places.py [-l] [CRATE..]     -l lists each place, with its file and line
"""
import collections
import pathlib
import re
import sys

FLAGS = r"ok|safe|full|found|failed"
NUMBERS = r"refusal|no|side|sort"
KINDS = r"PRINCIPAL|THING|DAY|QUANTITY|ANY_PRINCIPAL|ANY_THING|ANY_DAY|ANY_QUANTITY"


class Function:
    def __init__(self, crate, path, line, text):
        self.crate, self.path, self.line, self.text = crate, path, line, text
        self.name = re.search(r"fn (\w+)", text).group(1)
        head, _, body = text.partition("\n{\n")
        if not body:
            head, _, body = text.partition(" {\n")
        self.head, self.body = head, body
        inside = re.search(r"\((.*?)\)\s*(->|\n\s*(requires|ensures)|$)", head.replace("\n", " "), re.S)
        names = inside.group(1) if inside else ""
        self.parameters = tuple(p.strip() for p in re.split(r",(?![^\[(<]*[\])>])", names) if ":" in p)


def functions(crate, path):
    lines = path.read_text().split("\n")
    at = 0
    while at < len(lines):
        if re.match(r"\s*(pub(\(\w+\))? )?(const )?(unsafe )?(extern \"C\" )?fn \w+", lines[at]):
            indent = re.match(r"\s*", lines[at]).group(0)
            end = at
            while end < len(lines) and lines[end] != indent + "}" and not (end == at and lines[at].rstrip().endswith(("}", ";"))):
                end += 1
            yield Function(crate, path, at + 1, "\n".join(lines[at:end + 1]))
            at = end
        at += 1


def shape(function):
    """The body with names and numbers left out: functions of one shape do the same to other things."""
    body = re.sub(r"//.*", "", function.body)
    words = re.findall(r"\w+|[^\w\s]", body)
    keep = {"if", "while", "for", "match", "return", "let", "mut", "else", "true", "false", "continue", "as", "in"}
    return " ".join(w if w in keep or not re.match(r"\w", w) else "x" for w in words)


def main():
    wanted = [a for a in sys.argv[1:] if a != "-l"]
    listing = "-l" in sys.argv[1:]
    found = collections.OrderedDict((n, []) for n in (
        "1a", "1b", "1c", "1d", "2", "3a", "3b", "4a", "4b", "5a", "5b", "6a", "6b", "7"))
    shapes, facts, groups = (collections.defaultdict(list) for _ in range(3))
    crates = sorted(p for p in pathlib.Path("crates").iterdir() if (p / "src").is_dir() and (not wanted or p.name in wanted))
    for folder in crates:
        crate = folder.name
        for path in sorted((folder / "src").rglob("*.rt")):
            text = path.read_text()
            def put(kind, at, what):
                found[kind].append(f"{path}:{at}: {what.strip()[:110]}")
            for m in re.finditer(r"^\s*(pub )?(struct|enum) (\w+) \{\n(.*?)^\s*\}", text, re.M | re.S):
                at, body = text.count("\n", 0, m.start()) + 1, m.group(4)
                if m.group(2) == "struct" and re.search(rf"\b({FLAGS}): bool|\b({NUMBERS}): u", body):
                    put("1a", at, f"struct {m.group(3)}")
                if m.group(2) == "enum" and re.search(r"Refused\(|Ends\(|Next\(|Accepted", body):
                    put("1a", at, f"enum {m.group(3)}")
            for at, line in enumerate(text.split("\n"), 1):
                code = line.split("//")[0]
                if re.search(r"//.*\b(0|4|255|none|0xFFFFFFFF|`NO_NUMBER`) where (there|it|not|no|a|one)\b", line):
                    put("1b", at, line)
                if re.search(r"[Rr]efused\([0-9]|\bno: [0-9]|\bno == |refusal: [0-9]|\.refusal (==|!=) |side: u8|side == [0-9]|sort: [0-9]", code):
                    put("1c", at, line)
                if re.search(rf"\b(const )?({KINDS})\b", code) and "use " not in code:
                    put("1d", at, line)
                if re.search(r"\b(op|mode|kind|sort) (==|!=|<) [0-9]", code):
                    put("1d", at, line)
                if re.match(r"\s*while ", line):
                    put("3a", at, line)
                if re.search(r"\b(lo|hi)\b.*=", code):
                    put("6b", at, line)
                if re.search(r"chains::(head|older)", code):
                    put("6b", at, line)
            for m in re.finditer(r"((^\s+(\w+): (\w+)\.\3,\n){3,})", text, re.M):
                put("4b", text.count("\n", 0, m.start()) + 1, "fields copied one by one")
            for f in functions(crate, path):
                if re.search(rf"\b{f.name}\([^;]*\b(n|left|more|k|i|d) - 1\b", f.body) or re.search(rf"\b{f.name}\([^;]*\bi \+ 1\b", f.body):
                    put("3b", f.line, f"fn {f.name}")
                if re.match(r"(same|below|alike|in_numbers|digit|digits|line|word|labelled|side_word|refused_on)$", f.name):
                    put("4a", f.line, f"fn {f.name}")
                if f.body.count("\n") >= 4:
                    shapes[shape(f)].append(f)
                need = re.search(r"requires \{ (.*?) \}\n", f.head + "\n", re.S)
                if need:
                    for fact in re.split(r" × ", re.sub(r"\s+", " ", need.group(1))):
                        facts[crate, fact.strip("() ")].append(f)
                for i in range(len(f.parameters) - 2):
                    groups[crate, f.parameters[i:i + 3]].append(f)
                for a, b in zip(f.parameters, f.parameters[1:]):
                    if re.match(r"\w+: &(mut )?\[", a) and re.match(r"(count|n|m|named|more): usize", b):
                        put("6a", f.line, f"fn {f.name}: {a}, {b}")
                if re.search(r"if .*\b(mode|sort|cell / 16 % 4)\b", f.body) or f.body.count(" == Shape::") > 1:
                    put("7", f.line, f"fn {f.name}")
    for same in shapes.values():
        if len(same) > 1:
            for f in same:
                found["2"].append(f"{f.path}:{f.line}: fn {f.name}, one of {len(same)}")
    for (crate, fact), where in facts.items():
        if len({(f.path, f.line) for f in where}) >= 3:
            found["5a"].append(f"crates/{crate}: {fact[:90]}, in {len(where)} functions")
    seen = set()
    for (crate, group), where in groups.items():
        if len(where) >= 3:
            for f in where:
                if (f.path, f.line) not in seen:
                    seen.add((f.path, f.line))
                    found["5b"].append(f"{f.path}:{f.line}: fn {f.name}: {', '.join(p.split(':')[0] for p in group)}")
    titles = {
        "1a": "types with a flag or a number for Option or Result", "1b": "functions with a number that says none",
        "1c": "lines with numbers for refusals, sides and sorts", "1d": "lines with numbers for kinds, operators and modes",
        "2": "functions of the shape of another", "3a": "while loops", "3b": "functions that count down or up by calling themselves",
        "4a": "equality, order, conversion or printing by hand", "4b": "structs copied field by field",
        "5a": "facts in three contracts or more of a crate", "5b": "functions with three parameters that travel together",
        "6a": "slices with a length beside", "6b": "lines of searches by hand, and of chains of indices", "7": "functions that switch on a step's number",
    }
    for kind, places in found.items():
        print(f"{kind:3} {len(places):4}  {titles[kind]}")
        if listing:
            for place in places:
                print("        " + place)


main()
