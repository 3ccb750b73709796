#!/usr/bin/env python3
"""Writes the repository's own definitions and lemmas in the spelling of today's Rattle: words in snake case.

usage: tools/respell.py [--map]      at the top, once, right after the toolchain's port.py

parityOf becomes parity_of, free-bits free_bits; a dash stays where it joins two names, as in length-tab. A lemma that would have the
name of its definition, or of one of the library, gets _lem. Functions of src/, strings, inputs and outputs are not
touched. --map prints the names, old and new, and writes nothing.
"""

import collections
import glob
import re
import sys

W = r"[^\s(){}.;,@\"«»\[\]\\]+"
TOKEN = re.compile(r"\"(?:[^\"\\]|\\.)*\"|«[^»]*»|" + W)
DECLARED = re.compile(r"(\s*)((?:abbrev|unfoldable|pub|instance)\s+)*([^\s(){}:.,;◌]+) :\s(.*)")
PARTS = {"getD": "get_or", "get_d": "get_or", "length′": "length'"}
OWN_USE = re.compile(r"Rattle\.(?!(?:std|check|bytes|io|core|libc|os)\b)")


def read(path):
    with open(path, encoding="utf-8") as f:
        return f.read()


def snake(word):
    """uAt, sumOf, toBits: u_at, sum_of, to_bits. A capital that stands alone at the end is a name, as in vB."""
    if word in PARTS:
        return PARTS[word]
    if not re.match(r"[a-z]", word) or not re.search(r"[a-z0-9][A-Z]", word):
        return word
    return re.sub(r"(?<=[a-z0-9])([A-Z])", lambda m: "_" + m[1].lower(), word)


def main():
    files = sorted(glob.glob("crates/*/specs/**/*.antt", recursive=True) + glob.glob("crates/*/proofs/**/*.antt", recursive=True))
    of_function = lambda f: re.search(r"/proofs/.+/(Proof|Answers|Invariants)\.antt$", f)
    own, definitions, fields, library, local = collections.Counter(), set(), set(), set(), {}
    for f in files:
        text = read(f)
        for m in re.finditer(r"^\s*(?:pub |ghost |unfoldable )*use ([^\s{]+)\.\{([^}]*)\}", text, re.M):
            if not OWN_USE.match(m[1]):
                library |= {x.strip().split(" as ")[0] for x in m[2].split(",")}
        within = False
        for line in text.splitlines():
            if re.match(r"\s*(pub )?(record|data|class) ", line):
                within = True
                m = re.match(r"\s*(?:pub )?(?:record|data|class) (\S+)", line)
                definitions.add(m[1])
            elif line and not line.startswith(" "):
                within = False
            m = DECLARED.match(line)
            if not m:
                continue
            name = m[3]
            if of_function(f):
                if not m[4].startswith("tie.") and not name.endswith("spec") and not m[1]:
                    local.setdefault(f, set()).add(name)
                continue
            own[name] += 1
            if within and m[1]:
                fields.add(name)
            if "/specs/" in f:
                definitions.add(name)
    src = " ".join(read(f) for f in glob.glob("crates/*/src/**/*.rt", recursive=True))
    functions = set(re.findall(r"\bfn (\w+)", src))
    known = {snake(d) for d in definitions | library} | definitions | library

    def is_name(part):
        return part in known or not re.search(r"[a-z0-9]", part)

    def spelled(name):
        if not re.match(r"[a-z]", name) or not re.search(r"-|[a-z0-9][A-Z]|get_d|getD", name):
            return name
        parts = [snake(p) for p in name.split("-")]
        for i, p in enumerate(parts):
            parts[i] = re.sub(r"^get_d(?=_|$)", "get_or", p)
        out = parts[0]
        for a, b in zip(parts, parts[1:]):
            out += ("-" if is_name(a) and is_name(b) else "_") + b
        return out

    # A lemma that would have its definition's name gets _lem, as in the library.
    alike = collections.defaultdict(list)
    for n in sorted(own):
        alike[spelled(n)].append(n)
    table = {}
    for s, names in alike.items():
        first = next((n for n in names if n in definitions or re.match(r"[a-z0-9]+[A-Z]", n)), None)
        for n in names:
            to = s if n == first or (len(names) == 1 and s not in library) or (n == s and first is None and s not in library) else s + "_lem"
            if to != n and n not in library:
                table[n] = to
    taken = set(table.values())
    if "--map" in sys.argv:
        for n, s in sorted(table.items()):
            print(f"{n}\t{s}")
        return
    dashed = {f.replace("_", "-") for f in functions}

    def turned(text, names, in_function=False):
        def one(m):
            t = m[0]
            if t not in names:
                return t
            if m.start() and text[m.start() - 1] == ".":
                if t not in fields or (in_function and t in dashed):
                    return t
            return names[t]
        return TOKEN.sub(one, text)

    def write(path, old, new):
        if new != old:
            with open(path, "w", encoding="utf-8") as f:
                f.write(new)

    for f in files:
        names = dict(table)
        for n in local.get(f, ()):
            s = spelled(n)
            if s != n and s not in local[f] and s not in library and s not in own and s not in taken:
                names[n] = s
        text = read(f)
        write(f, text, turned(text, names, of_function(f)))
    camel = {n: s for n, s in table.items() if "-" not in n and re.search(r"[A-Z]", n)}
    for f in glob.glob("crates/*/src/**/*.rt", recursive=True):
        text = read(f)
        write(f, text, turned(text, camel))
    for f in glob.glob("crates/*/must-fail/*.edit"):
        text = read(f)
        write(f, text, turned(text, table if re.search(r"^file: (specs|proofs)/", text, re.M) else camel))
    for f in ["README.md"] + glob.glob("docs/*.md"):
        text = read(f)
        write(f, text, re.sub(r"`[^`\n]+`", lambda m: "`" + turned(m[0][1:-1], table) + "`", text))


main()
