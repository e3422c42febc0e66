#!/usr/bin/env python3
"""Spells this repository's own words of specs/ and proofs/ in snake case: 'askLayout' and 'by-layout' become 'ask_layout' and 'by_layout'.

usage: python3 tools/snake_case.py        at the top of the repository, once; a second run changes nothing

Types and modules keep their camel case, and so does every name that comes from a library. Functions of src/, labels of a function's
goals, strings, inputs and outputs keep their names. Where a definition and a lemma would fall together, the definition has the
plain name and the lemma ends in '_law'.
"""

import collections
import os
import re

WORD = r"[A-Za-z0-9_'\u2032-]+"
FREE = r"[^\s(){}.;,@\"«»:]"
DECLARED = re.compile(r"^ *(?:(?:pub|abbrev|unfoldable|mutual|ruleset) +)*(" + WORD + r")(?: \{[^{}\n]*\})* :(?= )", re.M)
BOUND = re.compile(r"[({]([^(){}:]+) :")
LET = re.compile(r"\blet (" + WORD + r")")
LAMBDA = re.compile(r"λ ([^.]*?)\.")
IMPORT = re.compile(r"use ([^\s{;]+?)\.\{([^}]*)\}")
COMMENT = re.compile(r"--[^\n]*")
# Lemmas that were in snake case already, and that a definition would meet now.
MET = {"ending_of", "is_digit", "no_room", "past_end"}


def camel(name):
    return name[0].islower() and not name.startswith("b'") and re.search(r"[a-z0-9'][A-Z]", name)


def dashed(name):
    return re.search(r"[A-Za-z0-9'_]-[A-Za-z0-9']", name)


def snake(name):
    head = name if name[0].isupper() else re.sub(r"(?<=[a-z0-9'])([A-Z])", lambda m: "_" + m[1].lower(), name)
    return head.replace("-", "_")


def texts(ending):
    for folder, dirs, files in os.walk("crates"):
        dirs[:] = sorted(d for d in dirs if d != "out")
        for f in sorted(files):
            if f.endswith(ending):
                with open(os.path.join(folder, f), encoding="utf-8") as file:
                    yield os.path.join(folder, f), file.read()


def is_walk(path):
    return path.endswith("/Proof.antt")


def names():
    crates = set(os.listdir("crates"))
    own, lent, seen = set(), set(), collections.defaultdict(set)
    for path, text in texts((".antt", ".rt")):
        for module, items in IMPORT.findall(text):
            steps = module.split(".")
            is_own = steps[0] == "Rattle" and len(steps) > 1 and steps[1] in crates
            for item in items.split(","):
                (own if is_own else lent).add(item.strip().split(" as ")[0])
    for path, text in texts(".antt"):
        text = COMMENT.sub("", text)
        for word in re.findall(WORD, text):
            seen[word].add(path)
        if is_walk(path):
            continue
        own.update(DECLARED.findall(text))
        for group in BOUND.findall(text) + LAMBDA.findall(text):
            own.update(re.findall(WORD, group))
        own.update(LET.findall(text))
    for path, text in texts(".rt"):
        for word in re.findall(WORD, text):
            if camel(word):
                seen[word].add(path)
    chosen = {}
    for word in sorted(seen):
        if word in lent:
            continue
        if camel(word) or dashed(word) and (word in own or not all(is_walk(p) for p in seen[word])):
            if not dashed(word) or "getD" not in word:
                chosen[word] = snake(word)
    taken = collections.defaultdict(set)
    for word, new in chosen.items():
        taken[new].add(word)
    for new, words in taken.items():
        for word in words:
            meets = len(words) > 1 or new in lent or new in own and new not in MET
            if dashed(word) and meets:
                chosen[word] = new + "_law"
    for word in MET:
        if any(new == word for new in chosen.values()):
            chosen[word] = word + "_law"
    return chosen, own, lent


def turn(text, chosen, only=None, dots=True):
    def one(m):
        word = m[0]
        new = chosen.get(word)
        if new is None or only is not None and not only(word):
            return word
        before = text[m.start() - 1 : m.start()]
        after = text[m.end() : m.end() + 1]
        if word in MET and (before == "." or after == "." and text[m.end() + 1 : m.end() + 2].isalpha()):
            return word
        if before == "." and not dots and dashed(word):
            return word
        if before == "." and new.endswith("_law") and word not in MET:
            return snake(word)
        return new

    return re.sub(WORD, one, text)


def strings_apart(text, change):
    parts = re.split(r'("(?:\\.|[^"\\\n])*")', text)
    return "".join(p if i % 2 else change(p) for i, p in enumerate(parts))


def main():
    chosen, own, lent = names()
    fields = set()
    for path, text in texts(".antt"):
        fields.update(re.findall(r"^  +pub (" + WORD + r") :", text, re.M))
    crates = set(os.listdir("crates"))
    for path, text in list(texts(".antt")):
        if is_walk(path):
            # A proof that walks the code names goals by labels: only what the file imports from a crate's own words turns.
            taken = set()
            for module, items in IMPORT.findall(text):
                steps = module.split(".")
                if steps[0] == "Rattle" and len(steps) > 1 and steps[1] in crates:
                    taken.update(i.strip().split(" as ")[-1] for i in items.split(","))
                    taken.update(i.strip().split(" as ")[0] for i in items.split(","))
            declared = set(DECLARED.findall(text))
            new = turn(text, chosen, lambda w: camel(w) or w in taken and w not in declared or w in fields, dots=False)
            new = re.sub(r"\.(" + WORD + r")", lambda m: "." + (chosen.get(m[1], m[1]) if m[1] in fields and dashed(m[1]) else m[1]), new)
        else:
            new = turn(text, chosen)
        if new != text:
            with open(path, "w", encoding="utf-8") as file:
                file.write(new)
    for path, text in list(texts(".rt")):
        new = strings_apart(text, lambda t: turn(t, chosen, camel))
        new = re.sub(r"ghost use [^;]*;", lambda m: turn(m[0], chosen, lambda w: w not in MET), new)
        if new != text:
            with open(path, "w", encoding="utf-8") as file:
                file.write(new)
    for path, text in list(texts(".edit")):
        new = turn(text, chosen, camel)
        if new != text:
            with open(path, "w", encoding="utf-8") as file:
                file.write(new)
    if chosen:
        with open("docs/PORT-NAMES.tsv", "w", encoding="utf-8") as file:
            file.writelines(f"{a}\t{b}\n" for a, b in sorted(chosen.items()))


if __name__ == "__main__":
    main()
