#!/usr/bin/env python3
"""Counts the places in crates/*/src that docs/DESIGN-PASS.md speaks of, by its eight points.

    python3 tools/places.py [COMMIT]

reads the files of a commit, or those that lie here, and prints each place as FILE:LINE with what stands there. It goes by
text: it finds candidates, and the page says which of them are places. Point 8 is about proofs, and prints lines and answers.
"""
import re
import subprocess
import sys
from collections import defaultdict
from pathlib import Path

COMMIT = sys.argv[1] if len(sys.argv) > 1 else None


def git(*args):
    return subprocess.run(["git", *args], capture_output=True, text=True, check=True).stdout


def files(ending):
    if COMMIT:
        names = git("ls-tree", "-r", "--name-only", COMMIT, "crates").split()
        return {n: git("show", f"{COMMIT}:{n}") for n in names if n.endswith(ending)}
    return {str(p): p.read_text() for p in Path("crates").rglob("*" + ending) if "/out/" not in str(p)}


SOURCES = {n: t for n, t in sorted(files(".rt").items()) if "/src/" in n}


def show(title, found):
    print(f"\n{title}: {len(found)}")
    for line in found:
        print("    " + line)


def lines_with(pattern, without=None):
    found = []
    for name, text in SOURCES.items():
        for i, line in enumerate(text.splitlines(), 1):
            code = line.split("//")[0]
            if "ghost use" in code or not re.search(pattern, code):
                continue
            if without and re.search(without, code):
                continue
            found.append(f"{name}:{i}: {code.strip()}")
    return found


def functions():
    """Each function: where it stands, its parameters, its clauses and its body."""
    for name, text in SOURCES.items():
        for m in re.finditer(r"^( *)(?:pub(?:\(crate\))? )?(?:final )?fn (\w+)", text, re.M):
            end = re.compile(rf"^{m[1]}(?:\}}$|\S.*;$)|^ *ensures.*;$", re.M).search(text, m.end())
            whole = text[m.start() : end.end() if end else len(text)]
            at = f"{name}:{text.count(chr(10), 0, m.start()) + 1}"
            head = re.split(r"^ *(?:requires|ensures|\{)", whole, maxsplit=1, flags=re.M)[0]
            clauses = re.findall(r"^ *(?:requires|ensures)\*?(?: \w+)? \{ (.*) \};?$", whole, re.M)
            body = re.split(r"\{$", whole, maxsplit=1, flags=re.M)[-1] if re.search(r"\{$", whole, re.M) else ""
            yield at, m[2], head, clauses, body


def shape(body):
    """A body with its names and numbers taken out, so that bodies that differ only in these are equal."""
    body = re.sub(r"//.*", "", body)
    words = re.findall(r"[A-Za-z_]\w*|\d[\w_]*|\S", body)
    keep = {"for", "in", "if", "else", "match", "let", "mut", "return", "self", "Some", "None", "Ok", "Err", "as"}
    return " ".join(w if w in keep or not re.match(r"\w", w) else ("N" if w[0].isdigit() else "I") for w in words)


FUNCTIONS = list(functions())

print("1. Enums like Option or Result, flags beside values, numbers for kinds")
show("enums", lines_with(r"^\s*(pub )?enum "))
show("flags in types", lines_with(r"^\s*(pub )?\w+: bool,"))
show("numbers that may name a kind", lines_with(r"\b(opcode|layer|kind|code|reason)\w*: (u8|u32|usize)|^\s*number: u8|match (opcode|number|kind)"))
show("bytes that begin with a literal number", lines_with(r"&\[\d+[,\]]"))

print("\n2. Twins: functions whose bodies differ only in names and numbers (6 words at least)")
groups = defaultdict(list)
for at, name, head, clauses, body in FUNCTIONS:
    if len(shape(body).split()) > 8:
        groups[shape(body)].append(f"{at} {name}")
show("groups", [", ".join(g) for g in groups.values() if len(g) > 1])

print("\n3. Loops that go by an index")
show("ranges and enumerations that index", lines_with(r"for \w+ in .*\.\.|for \(\w+, \w+\) in .*enumerate|\bwhile |\bloop \{"))

print("\n4. Equality, conversion and printing by hand")
show("impls", lines_with(r"impl.* (From|TryFrom|Into|Display|Debug|PartialEq|Eq|Ord|PartialOrd|Clone|Copy)(<.*>)? for"))
show("fields compared", lines_with(r"\.\w+ (==|!=) \w+.*(&&|\|\|)|\.\w+\.\w+ (==|!=)"))
show("methods that convert", lines_with(r"fn (number|to_\w+|\w*byte\w*|\w+_text|show\w*|tell\w*)\("))

print("\n5. Facts in three contracts or more, parameters that travel together")
facts = defaultdict(set)
for at, name, head, clauses, body in FUNCTIONS:
    for c in clauses:
        facts[re.sub(r"\b\d+\b", "N", re.sub(r"\(.*?\)", "(..)", c))].add(f"{at} {name}")
show("facts", [f"{c}  <- {', '.join(sorted(w))}" for c, w in sorted(facts.items()) if len(w) > 2])
pairs = defaultdict(list)
for at, name, head, clauses, body in FUNCTIONS:
    inside = re.search(r"\((.*)\)", head, re.S)
    names = re.findall(r"(\w+): ", inside[1]) if inside else []
    for i, a in enumerate(names):
        for b in names[i + 1 :]:
            pairs[(a, b)].append(f"{at} {name}")
show("pairs of parameters", [f"{a}, {b}  <- {', '.join(w)}" for (a, b), w in sorted(pairs.items()) if len(w) > 2])

print("\n6. Buffers with a length, parallel arrays, sets and maps by hand")
show("slices and arrays in types", lines_with(r"^\s*(pub )?\w+: (&'\w+ )?(mut )?\[", r"fn "))
show("counts beside them", lines_with(r"^\s*(pub )?(used|len|count|length|size): usize,"))
show("tables", lines_with(r"^\s*(pub )?const \w+: \["))

print("\n7. Steps and calls chosen by hand")
show("traits", lines_with(r"^\s*(pub )?trait "))
show("pointers, dyn, closures taken", lines_with(r"\bfn\(|\bdyn |: (impl )?Fn(Mut|Once)?\b"))

print("\n8. Proofs")
PROOFS = {n: t for n, t in files(".antt").items() if "/proofs/" in n}
for crate in sorted({n.split("/")[1] for n in PROOFS}):
    mine = {n: t for n, t in PROOFS.items() if n.split("/")[1] == crate}
    answers = sum(len(re.findall(r"^pub [\w+-]+ : goal\.", t, re.M)) for t in mine.values())
    print(f"    {crate}: {sum(t.count(chr(10)) for t in mine.values())} lines, {answers} answers")
words = " ".join(list(SOURCES.values()) + list(files(".antt").values()))
idle = []
for name, text in sorted(PROOFS.items()):
    for m in re.finditer(r"^ *(?:abbrev )?(?:pub )?([a-z][\w'+-]*) : (?!goal\.)", text, re.M):
        if len(re.findall(rf"(?<![\w'+-]){re.escape(m[1])}(?![\w'+-])", words)) <= len(re.findall(rf"^ *(?:(?:abbrev|pub) )*{re.escape(m[1])}(?![\w'+-])", text, re.M)):
            idle.append(f"{name}: {m[1]}")
show("lemmas that nothing cites", idle)
