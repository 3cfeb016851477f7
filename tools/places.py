#!/usr/bin/env python3
"""Counts in src/ the places that older forms leave behind.

    python3 tools/places.py [--list] [FOLDER]

Reads crates/*/src/*.rt below FOLDER (default: here) and prints a line for each kind of place, with how many there are;
with --list each place too. What only a reader can see (twins, a switch between steps) is not counted here but for what
a pattern can show. docs/DESIGN-PASS.md has the counts and what became of each place.
"""
import re
import sys
from collections import defaultdict
from pathlib import Path

args = [a for a in sys.argv[1:] if a != "--list"]
listing = "--list" in sys.argv[1:]
root = Path(args[0]) if args else Path(".")
files = sorted(root.glob("crates/*/src/*.rt"))

# name, pattern (over the whole file, so that it may span lines)
PATTERNS = [
    ("1 a `let .. else` that answers None", r"else \{\s*return None;\s*\}"),
    ("1 b `let .. else` that answers an Err", r"else \{\s*return Err\([^;]*;\s*\}"),
    ("1 c an arm that hands an error on by hand", r"\bErr\((?:error|e|_)\) =>"),
    ("1 d a function that answers a number with no meaning", r"pub fn \w+\(\) -> u8"),
    ("1 e a number for a kind, or a flag as a parameter", r"\bkind: u8|fn kind\(|\w+: bool\b|\bconst TWICE\b|return i \+ 1;"),
    ("1 f an enum of two cases, one of them with nothing in it",
     r"enum \w+(?:<[^>]*>)? \{(?:\s*//[^\n]*\n)*\s*\w+,?\s*(?:(?:\s*//[^\n]*\n)*\s*\w+(?:\([^)]*\)| \{[^}]*\}),?\s*)\}"
     r"|enum \w+(?:<[^>]*>)? \{(?:\s*//[^\n]*\n)*\s*\w+(?:\([^)]*\)| \{[^}]*\}),?\s*(?:(?:\s*//[^\n]*\n)*\s*\w+,?\s*)\}"),
    ("3 a a `for` over a range", r"\bfor \w+ in [^{\n]*\.\.[^{\n]*\{"),
    ("3 b a `while`", r"^\s*while "),
    ("3 c an `enumerate`", r"\.enumerate\(\)"),
    ("4 a a comparison of what is inside a newtype", r"\.0 (?:==|!=|<|>|<=|>=) "),
    ("4 b a function that copies, converts or prints by hand",
     r"fn (?:push_copy|copy_nodes|number|kind|way_word|hex_digit|write_hex_byte|write_hex|write_long|last_digit|with_digit|change_of|asked|commit_of)\b"),
    ("6 a a length, size or height beside a slice", r"nodes: &mut \[Node\],\s*height: usize|bytes: &\[u8\], size: usize|height: usize, nodes: usize, index: usize|height: usize, nodes: usize, position: usize|let mut digits = \[0; MAX_DIGITS\]"),
    ("6 b a table indexed by hand", r"seats: &(?:mut )?\[(?:u16|Seat|Entry)\]"),
    ("6 c text as bytes that the code itself writes", r"&'static \[u8\]"),
]


def show(name, found):
    print(f"{len(found):4}  {name}")
    if listing:
        for place in found:
            print(f"          {place}")


for name, pattern in PATTERNS:
    found = []
    for path in files:
        text = path.read_text()
        for match in re.finditer(pattern, text, re.M):
            line = text.count("\n", 0, match.start() + len(match.group(0)) - len(match.group(0).lstrip())) + 1
            found.append(f"{path.relative_to(root)}:{line}")
    show(name, found)

# a condition that stands in the contracts of three or more functions
conditions = defaultdict(list)
groups = defaultdict(list)
for path in files:
    text = path.read_text()
    for match in re.finditer(r"^\s*requires(?: \w+)? \{ (.*) \}$", text, re.M):
        line = text.count("\n", 0, match.start(1)) + 1
        conditions[match.group(1)].append(f"{path.relative_to(root)}:{line}")
    for match in re.finditer(r"\bfn \w+(?:<[^(]*>)?\(([^)]*)\)", text):
        line = text.count("\n", 0, match.start()) + 1
        params = frozenset(
            p.strip() for p in match.group(1).split(",")
            if ":" in p and not re.match(r"\s*(?:out|heap|alloc)\b", p))
        if len(params) >= 3:
            groups[params].append(f"{path.relative_to(root)}:{line}")
show("5 a a condition that three or more functions ask",
     [f"{place}  {text}" for text, places in sorted(conditions.items()) if len(places) >= 3 for place in places])

# three or more parameters that travel together through three or more functions
travels = {}
for params in list(groups):
    for other in list(groups):
        shared = params & other
        if len(shared) >= 3:
            travels[shared] = [p for g, ps in groups.items() if shared <= g for p in ps]
largest = {s: ps for s, ps in travels.items()
           if len(set(ps)) >= 3 and not any(s < t and set(travels[t]) == set(ps) for t in travels)}
show("5 b three or more parameters that travel together through three or more functions",
     [f"{place}  ({', '.join(sorted(s))})" for s, ps in sorted(largest.items(), key=str) for place in sorted(set(ps))])

proofs = sorted(root.glob("crates/*/proofs/**/*.antt"))
answers = [p for p in proofs if p.name == "Answers.antt"]
total = sum(len(p.read_text().splitlines()) for p in proofs)
print(f"{len(answers):4}  8 a files of answers")
print(f"{total:4}  8 b lines of proofs")
