#!/usr/bin/env python3
"""Counts the places of the design pass in the sources of the crates: `python3 tools/places.py [-v] [FOLDER]`.

FOLDER is a checkout, this one if none is named. With -v each place is shown. What a pattern finds is
a place to look at; docs/DESIGN-PASS.md has the points, by these titles, and says of each what became of it.
"""
import collections
import glob
import os
import re
import sys

# The crates that stood when the pass began; those that came since were written in the present forms.
CRATES = """
    candidates console crash filesystem history image image_tests journalled judging law loading mark meaning
    patch plain points points_tests progress recording recording_tests recover recover_cases recovery replay
    standing states taking trace tree tree_mark_tests words
""".split()

KINDS = [
    ("Option and Result: an error or a none matched only to be handed on", r"Err\((\w+)\) => (?:return )?Err\((?:[\w:]+\()?\1\)|None => (?:return )?None|Err\(_\) => (?:return )?(?:Err\(|None)"),
    ("Option and Result: `else` that only answers none", r"else \{\s*return None;\s*\};"),
    ("Option and Result: a match with an arm that cannot be", r"=> unreachable\(\)"),
    ("Option and Result: a number answered by a function that only names theorems", r"\) -> u8\s+ensures[^\n]*(?:\n\s+ensures[^\n]*)*\n\{\n    0\n\}"),
    ("Option and Result: a number for a kind", r"match (?:\w+|\*?\w+\.\w+) >> 30|fn kind_of|is_word\([^;{]*?, \d, "),
    ("Option and Result: an answer of yes or no about a step, with the value beside it", r"-> Result<bool, |first_point: usize|fn \w+(?:<[^>]*>)?\((?:&mut self|[^)]*: &mut )[^)]*\) -> bool"),
    ("Loops: a loop whose index is counted by hand", r"\n *while [^\n]*(?:<|>) "),
    ("Loops: a loop over numbers", r"\n *for \w+ in [^\n]*\.\.[^\n]*\{"),
    ("Loops: a loop over a slice's items", r"\n *for &?\w+ in (?!.*\.\.)[^\n]*\{"),
    ("Loops: a loop until something ends", r"\n *(?:loop \{|while let )"),
    ("By hand: a cast by `as`", r" as (?:u8|u16|u32|u64|u128|usize)\b"),
    ("By hand: a field named only to be passed over", r"\n\s*\w+: _,|, \w+: _|\{ \w+: _"),
    ("By hand: Display by hand", r"impl fmt::Display for \w+"),
    ("By hand: a test of two values with a name of its own", r"fn same_\w+|fn is_directory"),
    ("Buffers: an array with a count or a second array beside it", r"\n    (?:pub(?:\(crate\))? )?(?:used|laid|counts|places|written): "),
    ("Buffers: a number into another list", r"Data \{ from: u32 \}|\.sectors\.len\(\)|data_sector\("),
    ("Steps picked: a step picked by a word or a number", r"match name \{|words\[0\]\.as_str\(\) == "),
]


def sources(root):
    """The sources of these crates."""
    return sorted(p for c in CRATES for p in glob.glob(os.path.join(root, "crates", c, "src/**/*.rt"), recursive=True))


def clauses(root):
    """Clauses that stand in three functions or more, names of the main parameter left aside."""
    found = collections.defaultdict(list)
    for path in sources(root):
        name = None
        for line in open(path):
            m = re.search(r"\bfn (\w+)", line)
            name = m.group(1) if m else name
            m = re.match(r"\s*(requires|ensures)\s*(\w+)?\s*\{(.*)\}\s*;?$", line)
            if m:
                text = re.sub(r"\b(history|image|store|builder|state|scratch|over|self)\b", "it", m.group(3).strip())
                found[text].append((path, name))
    return {t: w for t, w in found.items() if len(w) >= 3}


def twins(root):
    """Functions, methods and tests too, of one name and one body, and of two names where the bodies are longer than 40
    letters and differ in numbers only."""
    found = collections.defaultdict(list)
    for path in sources(root):
        text = open(path).read()
        for m in re.finditer(r"\n( *)(?:pub(?:\(crate\))? )?fn (\w+)([^\n]*(?:\n\1[ )][^\n]*)*?(?:\{|\n\1\{))\n(.*?)\n\1\}", text, re.S):
            body = re.sub(r"\d+", "0", re.sub(r"\s+", " ", m.group(4))).strip()
            if len(body) > 4:
                found[body].append((path, m.group(2)))
    return {b: w for b, w in found.items() if len(w) >= 2 and (len(b) > 40 or len({n for _, n in w}) < len(w))}


def main():
    words = [w for w in sys.argv[1:] if w != "-v"]
    shown = "-v" in sys.argv
    root = words[0] if words else os.path.join(os.path.dirname(os.path.abspath(__file__)), "..")
    for kind, pattern in KINDS:
        hits = []
        for path in sources(root):
            text = open(path).read()
            for m in re.finditer(pattern, text):
                start = m.start() + len(m.group(0)) - len(m.group(0).lstrip())
                hits.append((os.path.relpath(path, root), text.count("\n", 0, start) + 1, m.group(0).strip().split("\n")[0][:90]))
        print(f"{len(hits):4} {kind}")
        for path, line, text in hits if shown else []:
            print(f"       {path}:{line}: {text}")
    for title, found in (("Twins: a function written twice", twins(root)), ("Facts and parameters: a clause that stands in three functions or more", clauses(root))):
        print(f"{len(found):4} {title}")
        for text, where in sorted(found.items()) if shown else []:
            print(f"       {text[:100]}")
            for path, name in where:
                print(f"           {os.path.relpath(path, root)}: {name}")
    files = [p for c in CRATES for p in glob.glob(os.path.join(root, "crates", c, "proofs/**/Answers.antt"), recursive=True)]
    lines = sum(len(open(f).readlines()) for f in files)
    print(f"{len(files):4} Proofs: files of answers, with {lines} lines")


main()
