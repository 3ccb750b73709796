#!/usr/bin/env python3
"""tools/count.py [FOLDER]: counts the places of docs/DESIGN-PASS.md in the sources of a checkout, this one unless said."""
import collections
import re
import sys
from pathlib import Path

root = Path(sys.argv[1] if len(sys.argv) > 1 else Path(__file__).resolve().parent.parent)
sources = {path: path.read_text() for path in sorted(root.glob("crates/*/src/*.rt"))}
lines = [line for text in sources.values() for line in text.split("\n")]


def count(pattern):
    return sum(bool(re.search(pattern, line)) for line in lines)


def antt(part):
    return [path for path in root.glob(f"crates/*/{part}/**/*.antt") if "out" not in path.parts]


def functions():
    head = re.compile(r"^ *(?:pub )?(?:const )?fn (\w+)(?:<[^(]*>)?\(([^{]*?)\)\s*(?:->[^{;]*?)?(?=\n\s*(?:requires|ensures|where)|\s*\{|\s*;)", re.M)
    for text in sources.values():
        for name, parameters in head.findall(text):
            yield name, len([p for p in re.split(r",(?![^<(]*[>)])", parameters) if p.strip()])


facts = collections.Counter()
for line in lines:
    clause = re.match(r"\s*requires (?:\w+ )?\{(.*)\}\s*$", line)
    if clause:
        facts.update(part.strip().strip("()") for part in clause[1].split(" × "))
often = [n for n in facts.values() if n > 2]
all_functions = list(functions())
names = collections.Counter(name for name, _ in all_functions)
none = r"^\s*// .*(or the length where there is none|or their number where none does|512 where there is none|(8|10) where no n up to|-1 where it failed|; 0 where there is none)"
enums = [m[1] for line in lines if (m := re.match(r"\s*(?:pub )?enum (\w+)", line))]
for what, n in [
    ("1 enums", f"{len(enums)}: {' '.join(enums)}"),
    ("1 answers asked for their kind by hand", count(r"answers::is_done\(|\bv\[0\] == ")),
    ("1 numbers that stand for none, by their comments", count(none)),
    ("1 functions that answer a Result or an Option", count(r"-> (io::)?(Result|Option)<")),
    ("2 functions of one name in several places", sum(n for n in names.values() if n > 1)),
    ("2, 7 const parameters and closures taken", count(r"<const |impl Fn|F: FnMut")),
    ("3 while", count(r"^\s*('\w+: )?while ")),
    ("3 for", count(r"^\s*('\w+: )?for ")),
    ("3 chains (any, all, position, rposition, fold)", count(r"\.(any|all|position|rposition|fold)\(")),
    ("4 comparing, converting and joining by hand", count(r"fn (same|number|tell|rank|wide|two|four|joined|low|high|least|copy_fitting)\((?!rt)")),
    ("4 impls of From and Display", count(r"^impl.* (From<|fmt::Display)")),
    ("5 functions", len(all_functions)),
    ("5 functions of seven parameters and more", sum(n > 6 for _, n in all_functions)),
    ("5 facts that three requires or more ask for", f"{len(often)}, in {sum(often)} places"),
    ("5 structs, ghost fields", f"{count(r'^ *(pub )?struct ')}, {count(r'^    ghost [a-z]+: ')}"),
    ("6 parts cut by places", count(r"\.\.[a-z]+ \+ [a-zA-Z0-9:_]+\]|\[[a-z]+ \* w")),
    ("8 answers in proofs", sum(len(re.findall(r"^pub ", path.read_text(), re.M)) for path in antt("proofs") if path.name == "Answers.antt")),
    ("lines of src, specs, proofs", f"{len(lines) - len(sources)}, {sum(p.read_text().count(chr(10)) for p in antt('specs'))}, {sum(p.read_text().count(chr(10)) for p in antt('proofs'))}"),
]:
    print(f"{what}: {n}")
