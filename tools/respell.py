#!/usr/bin/env python3
"""Respells the repository's own definitions and lemmas: words in snake case, types in camel case.

Run once at the top, after the kit's port.py. What is renamed are the names that specs/ and the lemma files of
proofs/ declare; functions of src/, goals that the checker names, strings and data keep their spelling.
With --list it prints the table of names and writes nothing; a name that would fall together with another in a
file is printed and the run ends.
"""
import collections
import os
import re
import sys

# Names that a plain respelling would bring together with another name, or that say a type.
BY_HAND = {
    "ofMemory": "IsOfMemory",
    "waitingIn": "WaitingIn",
    "first-failing": "first_failing_lem",
    "node-values": "node_values_lem",
    "reader-fault": "reader_fault_lem",
    "by-head": "by_head_lem",
    "by-points": "by_points_lem",
    "up-to": "up_to_lem",
}

# Types whose name in small letters is a function's of src/ too.
TYPES = {"header_at": "HeaderAt"}

WORD = r"[^\s(){}\[\],;:.«»⌜⌝\"λ→]+"
DECLARED = re.compile(r"\s*(?:(?:abbrev|unfoldable|pub|private)\s+)*([^\s(){}:,;\[\]|]+)\s+:\s")
KIND = re.compile(r"\s*(?:(?:abbrev|unfoldable|pub|private)\s+)*(?:data|record)\s+([^\s(){}:,;]+)")


def files():
    for folder, below, names in os.walk("crates"):
        below[:] = sorted(n for n in below if n not in ("out", "data"))
        for name in sorted(names):
            if name.endswith((".antt", ".rt", ".edit")):
                yield os.path.join(folder, name)


def respelled(name):
    if name in BY_HAND:
        return BY_HAND[name]
    if re.match(r"[a-z]", name):
        name = re.sub(r"([a-z0-9])([A-Z])", lambda m: m.group(1) + "_" + m.group(2).lower(), name)
    return name.replace("-", "_")


def table(texts):
    goals, own = set(), set()
    for path, text in texts.items():
        if not path.endswith(".antt"):
            continue
        answers = os.path.basename(path) in ("Answers.antt", "Invariants.antt", "Proof.antt")
        for line in text.split("\n"):
            if answers:
                goals.update(re.findall(r"\bgoal\.([^\s(){};,]+)", line))
            m = DECLARED.match(line) or KIND.match(line)
            if m and not re.search(r":\s*(?:goal|need)\.", line):
                own.add(m.group(1))
    taken = {}
    for name in sorted(own - goals):
        if re.match(r"[A-Za-z]", name) and respelled(name) != name:
            taken[name] = respelled(name)
    return taken


def main():
    texts = {path: open(path, encoding="utf-8").read() for path in files()}
    names = table(texts)
    if "--list" in sys.argv:
        for old, new in names.items():
            print(old, new)
    clash = 0
    for path, text in texts.items():
        words = set(re.findall(WORD, text))
        came = collections.defaultdict(set)
        for old in words & set(names):
            came[names[old]].add(old)
        for new, olds in sorted(came.items()):
            if new in words or len(olds) > 1:
                clash += 1
                print(f"falls together: {path}: {sorted(olds)} and {new}")
    if clash and "--force" not in sys.argv or "--list" in sys.argv:
        return 1
    turn = re.compile("(?<![^\\s(){}\\[\\],;:.«»⌜⌝\"λ→])(" + "|".join(re.escape(n) for n in sorted(names, key=len, reverse=True)) + ")(?![^\\s(){}\\[\\],;:.«»⌜⌝\"λ→])")
    for path, text in texts.items():
        # Paths of a function's own goals keep the checker's names.
        turned = turn.sub(lambda m: names[m.group(1)], text)
        for old, new in TYPES.items():
            spelled = re.compile(rf"(?<![\w.]){old}(?![\w<(])")
            turned = "\n".join(
                spelled.sub(new, line) if path.endswith(".antt") or "ghost use" in line or "{ " in line else line
                for line in turned.split("\n")
            )
        if turned != text:
            with open(path, "w", encoding="utf-8") as out:
                out.write(turned)
    print(f"{len(names)} names respelled")
    return 0


sys.exit(main())
