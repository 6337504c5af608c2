#!/usr/bin/env python3
"""Respells the repository's own words of specs/ and proofs/ in snake case: definitions, lemmas, fields and constructors.

    tools/spell_names.py           rewrites crates/*/specs, crates/*/proofs and the clauses of crates/*/src
    tools/spell_names.py --list    prints each word and its new spelling, and where two words would fall together

A dash becomes an underscore, and a capital within a word an underscore and a small letter; a word that begins with a
capital keeps its capitals and loses its dashes. Names that the check makes (goals, steps and their fields), names of
Rattle's library, functions of src/, strings and comments of src/ keep their spelling.
"""
import collections
import os
import re
import sys

ROOT = os.path.dirname(os.path.dirname(os.path.abspath(__file__)))
CRATES = os.path.join(ROOT, "crates")
# A word of antt: letters, digits, underscores, dashes, apostrophes; not part of an operator's name.
WORD = re.compile(r"(?<![\w'◌·-])[A-Za-z][\w'-]*")
SIGNED = re.compile(r"^(?P<indent> *)(?P<marks>(?:(?:abbrev|unfoldable|pub|record|data) )*)(?P<name>[A-Za-z][\w'-]*)(?: [^:\n=]*)? : (?P<type>.*)$", re.M)

# Words that would fall together with another: their spelling is chosen.
CHOSEN = {"bit-and": "bit_of_and", "bit-or": "bit_of_or", "bit-xor": "bit_of_xor", "gate-of": "gate_statement", "getD-low": "get_or_low", "same-sort": "sort_same"}


def files(*ends):
    for folder, dirs, names in os.walk(CRATES):
        dirs[:] = sorted(d for d in dirs if d != "out")
        for name in sorted(names):
            if name.endswith(ends):
                yield os.path.join(folder, name)


def spelled(word):
    if word in CHOSEN:
        return CHOSEN[word]
    if word[0].isupper():
        return "".join(part[:1].upper() + part[1:] for part in word.split("-"))
    word = word.replace("-", "_")
    return re.sub(r"(?<=[a-z0-9])([A-Z])", lambda m: "_" + m.group(1).lower(), word)


def own_words():
    """Each word that a signature of specs/ or proofs/ declares and that is not yet in snake case."""
    found = collections.defaultdict(set)
    for path in files(".antt"):
        with open(path, encoding="utf-8") as file:
            text = file.read()
        for sign in SIGNED.finditer(text):
            word = sign.group("name")
            if re.match(r"(need|given|goal)\.", sign.group("type")):
                continue
            if spelled(word) != word:
                found[word].add(os.path.relpath(path, CRATES))
    return found


def fields(words):
    """Those of the words that are fields of a record: they may stand behind a dot."""
    found = set()
    for path in files(".antt"):
        with open(path, encoding="utf-8") as file:
            text = file.read()
        for record in re.finditer(r"^ *(?:pub )?record .* where\n((?:(?: +.*)?\n)*)", text, re.M):
            found |= {m.group(1) for m in re.finditer(r"^ +(?:pub )?([A-Za-z][\w'-]*) : ", record.group(1), re.M)}
    return found & set(words)


def turn(text, words, members, path):
    """The text with the words respelled."""
    def respell(piece):
        def one(match):
            word = match.group(0)
            behind_dot = piece[max(match.start() - 1, 0):match.start()] == "."
            return spelled(word) if word in words and (not behind_dot or word in members) else word

        return WORD.sub(one, piece)

    # strings and comments stay, in specs/ and proofs/ strings alone
    kept = r'("(?:\\.|[^"\\])*"|//[^\n]*)' if path.endswith(".rt") else r'("(?:\\.|[^"\\])*")'
    pieces = re.split(kept, text)
    pieces[::2] = [respell(piece) for piece in pieces[::2]]
    return "".join(pieces)


def clashes(words):
    """Where two words fall together, or a new spelling stands in a file already."""
    said = []
    by_new = collections.defaultdict(set)
    for word in words:
        by_new[spelled(word)].add(word)
    for new, olds in sorted(by_new.items()):
        if len(olds) > 1:
            said.append("%s: %s" % (new, ", ".join(sorted(olds))))
    for path in files(".antt", ".rt"):
        with open(path, encoding="utf-8") as file:
            present = {m.group(0) for m in WORD.finditer(file.read())}
        for new, olds in sorted(by_new.items()):
            if new in present and olds & present:
                said.append("%s: %s and %s" % (os.path.relpath(path, CRATES), new, ", ".join(sorted(olds & present))))
    return said


def main():
    words = own_words()
    members = fields(words)
    if "--list" in sys.argv[1:]:
        for word in sorted(words):
            print(word, spelled(word), "(field)" if word in members else "", *sorted(words[word])[:3])
        print("\n".join("falls together: " + line for line in clashes(words)))
        return
    changed = 0
    for path in files(".antt", ".rt"):
        with open(path, encoding="utf-8") as file:
            text = file.read()
        new = turn(text, words, members, path)
        if new != text:
            with open(path, "w", encoding="utf-8") as file:
                file.write(new)
            changed += 1
    print("%d words, %d files respelled" % (len(words), changed))


main()
