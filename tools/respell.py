#!/usr/bin/env python3
"""Spells the definitions and lemmas of this repository as today's Rattle spells them.

Words that were written in camel case become snake case, and so do the fields and definitions of specs/ that were joined by dashes. A dash in a
lemma's name, which joins two names there, stays, and so do the names that come from src/. Run once, at the top, after port.py:

    python3 tools/respell.py [--dry]
"""
import collections
import glob
import os
import re
import sys

DECLARED = re.compile(r"^\s*(?:(?:unfoldable|abbrev|pub)\s+)*([^\s:{}();.,λ]+)(?:\s+\{[^}]*\})*((?:\s+[({][^)}]*[)}])*)\s+:\s")
TOKEN = re.compile(r"[^\s(){}\[\];.,|`«»\"]+")
CAMEL = re.compile(r"(?<=[a-z0-9])(?=[A-Z])")
# names whose spelling would fall together with another one's
BESIDE = {
    # a field beside a definition
    "all-idle": "idle_all",
    "even-refused": "even_is_refused",
    "find-turns": "find_turns_alike",
    "handed-back": "hands_back",
    "in-sequence": "in_sequence_says",
    "insert-turns": "insert_turns_alike",
    "not-numbers": "no_numbers",
    "not-records": "no_records",
    "two-lines": "two_printed",
    # a definition beside a field, a lemma or a parameter of src/
    "atRest": "is_at_rest",
    "goesOn": "carries_on",
    "notGreater": "none_greater",
    "oneTable": "one_cells",
    "orderKeys": "ordered_keys",
    "takeOut": "take_one_out",
}
# lemmas that port.py gave the names of definitions
LEMMAS = {
    name: name + "_lem"
    for name in ("all_in", "cells_at", "first_field", "handed_out", "one_line", "opens_by", "place_after", "same_bit", "stops_at")
}


def snake(word):
    return CAMEL.sub("_", word).lower() if word[:1].islower() else word


def antt_files():
    for place in ("specs", "proofs"):
        yield from sorted(glob.glob(f"crates/*/{place}/**/*.antt", recursive=True))


def declared():
    names = collections.defaultdict(set)
    for path in antt_files():
        for line in open(path, encoding="utf8"):
            m = DECLARED.match(line)
            if m:
                names[m.group(1)].add(path)
    return names


def table():
    names = declared()
    new = {}
    for name, paths in names.items():
        if not name[0].islower():
            continue
        parts = [snake(p) for p in name.split("-")]
        joined = "-".join(parts)
        if any("/specs/" in p for p in paths):
            joined = "_".join(parts)
        if joined != name:
            new[name] = BESIDE.get(name, joined)
    return names, new


def respelled(text, new):
    return TOKEN.sub(lambda m: new.get(m.group(0), m.group(0)), text)


def main():
    dry = "--dry" in sys.argv
    names, new = table()
    tokens = collections.defaultdict(set)
    paths = list(antt_files()) + sorted(glob.glob("crates/*/src/**/*.rt", recursive=True))
    for path in paths:
        for t in TOKEN.findall(open(path, encoding="utf8").read()):
            tokens[t].add(path)
    back = collections.defaultdict(list)
    for old, spelled in new.items():
        back[spelled].append(old)
    for spelled, olds in sorted(back.items()):
        if spelled in LEMMAS:
            continue
        if len(olds) > 1 or spelled in tokens:
            print("falls together:", spelled, "<-", olds, sorted(tokens.get(spelled, []))[:6], len(tokens.get(spelled, [])))
    left = sorted(t for t in tokens if re.search("[a-z0-9][A-Z]", t) and t[0].islower() and t not in new)
    print("left:", " ".join(left))
    if dry:
        return
    for path in paths:
        text = open(path, encoding="utf8").read()
        if path.endswith(".antt"):
            text_ = respelled(text, LEMMAS)
        else:
            text_ = text
        after = respelled(text_, new)
        if after != text:
            open(path, "w", encoding="utf8").write(after)
    for path in sorted(glob.glob("crates/*/must-fail/*.edit")):
        lines = open(path, encoding="utf8").read().split("\n")
        antt = any(re.match("file: .*[.]antt", l) for l in lines)
        after = [respelled(respelled(l, LEMMAS) if antt else l, new) if re.match("(old|new):", l) else l for l in lines]
        if after != lines:
            open(path, "w", encoding="utf8").write("\n".join(after))


if __name__ == "__main__":
    main()
