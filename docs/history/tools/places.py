#!/usr/bin/env python3
"""Prints the places where the design pass looks: tools/places.py [POINT..], at the top of a checkout.

What it prints are candidates, by form alone; docs/DESIGN-PASS.md says which of them are places.
"""
import pathlib
import re
import sys
from collections import defaultdict

SOURCES = sorted(pathlib.Path("crates").glob("*/src/*.rt"))

# Lines of code that show the form, by point.
LINES = {
    1: r"^\s*(pub(\(crate\))? )?enum |^\s*(pub(\(crate\))? )?\w+: bool,|\bconst NO_|-> u8$",
    3: r"^\s*(while|loop)\b|\bfor \w+ in .*\.\.|[+-]= 1;",
    4: r"=> (true|false),|Err\(\w*\) =>|None =>|^impl(<.*>)? (\w+::)?(From|TryFrom|Display|PartialEq|Eq|Ord|Clone|Copy)\b"
       r"|fn (number|shown|letter|standing|entry_of|told_\w+|taken|becomes|answers|held)\b",
    6: r"^\s*(pub(\(crate\))? )?\w+: (&'\w+ )?(mut )?(Vec<|\[|&'\w+ (mut )?\[)|\[[^\]]*; [A-Z0-9_a-z]+\];|fn find\b",
    7: r"^\s*(pub(\(crate\))? )?trait ",
}


def lines(point):
    form = re.compile(LINES[point])
    for path in SOURCES:
        for number, line in enumerate(path.read_text().splitlines(), 1):
            if form.search(line) and not line.lstrip().startswith("//"):
                yield f"{path}:{number}: {line.strip()}"


def functions(path):
    """Name, line and body of each function, without its clauses."""
    text = path.read_text()
    for match in re.finditer(r"^\s*(?:pub(?:\(crate\))? )?(?:extern \"C\" )?fn (\w+)", text, re.M):
        body = re.compile(r"^\s*\{(\}|$)|\{$", re.M).search(text, match.end())
        semicolon = re.compile(r";$", re.M).search(text, match.end())
        if not body or (semicolon and semicolon.start() < body.start()):
            continue
        start = text.index("{", body.start())
        depth, at = 0, start
        while True:
            depth += {"{": 1, "}": -1}.get(text[at], 0)
            if depth == 0:
                break
            at += 1
        yield match.group(1), text.count("\n", 0, match.start(1)) + 1, text[start:at + 1]


def twins():
    """Functions whose bodies are the same once names and numbers are blanked; and types likewise."""
    seen = defaultdict(list)
    for path in SOURCES:
        for name, number, body in functions(path):
            body = re.sub(r"//.*", "", body)
            words = re.findall(r"\w+|[^\s\w]", body)
            shape = " ".join("_" if re.match(r"\w", w) and w not in ("if", "else", "match", "for", "return") else w for w in words)
            if len(words) >= 12:
                seen[shape].append(f"{path}:{number} {name}")
        for match in re.finditer(r"pub struct (\w+)[^{;]*\{([^}]*)\}", path.read_text()):
            fields = re.sub(r"\s+", " ", match.group(2)).strip()
            seen["struct " + fields].append(f"{path} struct {match.group(1)}")
    for group in seen.values():
        if len(group) > 1:
            yield " = ".join(group)


def facts():
    """Facts in `requires` of three or more functions, and parameters that three or more have together."""
    required, together = defaultdict(list), defaultdict(list)
    for path in SOURCES:
        text = path.read_text()
        for match in re.finditer(r"requires(?: \w+)? \{ (.*) \}", text):
            fact = re.sub(r"\b(contract|row|places|self|at|member|failing|injured|amount)\b(\.(now|old|entry))?", "_", match.group(1))
            required[fact].append(f"{path}:{text.count(chr(10), 0, match.start()) + 1}")
        for match in re.finditer(r"fn \w+(?:<[^(]*>)?\(([^)]*)\)", text):
            names = re.findall(r"(\w+): ", match.group(1))
            for i, first in enumerate(names):
                for second in names[i + 1:]:
                    together[first, second].append(f"{path}:{text.count(chr(10), 0, match.start()) + 1}")
    for fact, places in sorted(required.items()):
        if len(places) > 2:
            yield f"{fact} ({len(places)}): {', '.join(places)}"
    for pair, places in sorted(together.items()):
        if len(places) > 2:
            yield f"{pair[0]}, {pair[1]} ({len(places)}): {', '.join(places)}"


def proofs():
    for crate in sorted(pathlib.Path("crates").iterdir()):
        files = [p for p in crate.glob("proofs/**/*.antt")]
        text = "".join(p.read_text() for p in files)
        if files:
            answers = len(re.findall(r"^(?:abbrev )?pub [\w+-]+ : goal\.", text, re.M))
            yield f"{crate.name}: {len(files)} files, {text.count(chr(10))} lines, {answers} answers and invariants"


FINDERS = {2: twins, 5: facts, 8: proofs}

for point in [int(p) for p in sys.argv[1:]] or range(1, 9):
    found = list(FINDERS[point]() if point in FINDERS else lines(point))
    print(f"{point}. {len(found)}")
    for line in found:
        print("  ", line)
