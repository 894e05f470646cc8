#!/usr/bin/env python3
"""Respells the repository's own names as today's Rattle spells them, once, after the kit's port.py.

A definition, a lemma, a field or a constructor is in snake case, and a type in upper camel case; what Rattle generates keeps its dashes.
It stops where two names would fall together.
usage: python3 tools/respell.py            at the top: rewrites the files below crates/
       python3 tools/respell.py --list     prints what it would rename
"""
import os
import re
import sys

# Names that a definition may share: a function or a variable of src/, which no clause takes for the definition.
SHARED = set("""
    capacity_of combs_left deep_combs fourth_rows in_half join_refusal joint_name joint_nodes joint_row let_row most_names
    most_waiting passify_single passive_terms same_form shape_name single_row smaller_combs term_room term_row tree_left
    tree_rows worked_out
""".split())

# A signature: `name name : type`, or `record name (parameters) : type`.
SIGNATURE = re.compile(
    r"^\s*(?:abbrev |unfoldable |pub |record |data |mutual )*"
    r"([^\s(){}:;,.=λ→]+(?:\s+[^\s(){}:;,.=λ→]+)*)(?:\s+[({].*?[)}])*\s+:(?:\s|$)"
)
NOT_A_SIGNATURE = re.compile(r"^\s*(let|in|elim)\s")
GENERATED = re.compile(r"^\s*(abbrev )?(pub )?\S+ : goal\.")
# port.py writes a type of two words with a `_` where the library has such a word.
OLD_NAME = re.compile(r"^[A-Za-z].*-|^[A-Z].*_")
LETTERS = r"[\w'\-·≢≡]"


def files(top):
    for folder, inner, names in os.walk(top):
        inner[:] = sorted(d for d in inner if d not in ("out", "target"))
        for name in sorted(names):
            if name.endswith((".antt", ".rt", ".edit")):
                yield os.path.join(folder, name)


def lines(path):
    with open(path, encoding="utf-8") as f:
        return f.read().split("\n")


def code(line):
    """The line without its comment: two dashes behind a space, or at its start."""
    m = re.search(r"(?:^|(?<=[ \t]))--", line)
    return line[: m.start()] if m else line


def defined(paths):
    names = set()
    for path in paths:
        for line in lines(path) if path.endswith(".antt") else []:
            m = SIGNATURE.match(code(line))
            if m and not NOT_A_SIGNATURE.match(line) and not GENERATED.match(line):
                names |= {name for name in m[1].split() if OLD_NAME.match(name)}
    return names


def respelled(name):
    if name[0].isupper():
        first, *others = re.split("[-_]", name)
        return first + "".join(word[:1].upper() + word[1:] for word in others)
    return name.replace("-", "_")


def words(paths):
    for path in paths:
        for line in lines(path) if not path.endswith(".edit") else []:
            yield from re.findall(r"[A-Za-z_][\w'\-]*", code(line))


def turned(path, line, turn):
    """The line with its names respelled: all of an .antt file but comments; of other files what speaks of definitions."""
    if path.endswith(".antt"):
        kept = code(line)
        return turn(kept) + line[len(kept) :]
    if "ghost " in line or re.match(r"^\s*(requires|ensures|old: |new: )", line):
        return turn(line)
    return line


def main():
    paths = list(files("crates"))
    names = {name: respelled(name) for name in defined(paths)}
    if "--list" in sys.argv:
        for name in sorted(names):
            print(name, "->", names[name])
        return
    if not names:
        return
    new = list(names.values())
    taken = set(words(paths)) - SHARED
    together = sorted(n for n in set(new) if n in taken or new.count(n) > 1)
    if together:
        raise SystemExit("these would fall together with others: " + ", ".join(together))
    longest_first = sorted(map(re.escape, names), key=len, reverse=True)
    pattern = re.compile(f"(?<!{LETTERS})({'|'.join(longest_first)})(?!{LETTERS})")
    for path in paths:
        old = lines(path)
        text = [turned(path, line, lambda part: pattern.sub(lambda m: names[m[1]], part)) for line in old]
        if text != old:
            with open(path, "w", encoding="utf-8") as f:
                f.write("\n".join(text))


main()
