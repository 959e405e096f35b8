#!/usr/bin/env python3
"""Brings the names that this repository's own antt files declare to snake case, after port.py: `sheetRefusal` to `sheet_refusal`, `start-refuses-1` to `start_refuses_1`.

usage: tools/respell.py     once, at the top of the repository, on files that port.py has turned

A name turns if it is of letters, digits, dashes and primes alone, if a file of specs/ or proofs/ declares it (a definition, a lemma, a field, a constructor),
and if no file takes a name of that spelling from the library. Names that answer a goal of a function keep their spelling: the toolchain made it. Turned are whole
words: in antt files, in clauses and `ghost use` items, in must-fail edits, and in the code spans of README.md and docs/ (CHANGES.md tells of the past and stays).
Where a camel-case name and one with dashes would fall together, the one with dashes, a lemma about the other, keeps its dashes. Two lemmas that port.py
brought to the spelling of a definition get theirs back.
"""
import os
import re
import sys

WORD = r"[^\s(){}.;,@\"«»`]+"
PLAIN = re.compile(r"[A-Za-z][A-Za-z0-9'-]*$")
MODIFIER = r"(?:abbrev|unfoldable|pub|data|record|ruleset)"
DECLARED = re.compile(rf"\s*(?:{MODIFIER} +)*({WORD})(?: +(?:\([^()]*\)|\{{[^{{}}]*\}}))* *: ")
HEADED = re.compile(rf"\s*(?:{MODIFIER} +)+({WORD})")
SEVERAL = re.compile(rf"\s+(?:pub +)?({WORD}(?: {WORD})+) : ")
USED = re.compile(r"use +([^;\n{]+?)\.\{([^}]*)\}")
GOAL = re.compile(r": .*\b(?:tie|goal)\.")
ALIAS = re.compile(rf"\bas ({WORD})")
# a lemma, and the definition that it is about
GIVEN_BACK = {"value_after": "value-after", "list_written": "list-written"}


def snake(name):
    if not name[0].islower():
        return name.replace("-", "_") if "-" in name and not re.search(r"[a-z][A-Z]", name) else name
    name = re.sub(r"(?<=[a-z0-9])(?=[A-Z])", "_", name)
    return name.replace("-", "_").lower()


def files(ends):
    for folder, dirs, names in os.walk("crates"):
        dirs[:] = sorted(d for d in dirs if d != "out")
        for name in sorted(names):
            if name.endswith(ends):
                yield os.path.join(folder, name)


def read(path):
    with open(path, encoding="utf-8") as f:
        return f.read()


def code_lines(text):
    return [line for line in text.split("\n") if not line.lstrip().startswith("--")]


def of_function(path):
    parts = path.split(os.sep)
    return len(parts) > 4 and parts[2] == "proofs"


def declared(path):
    for _, items in USED.findall(read(path)):
        yield from (name for name in ALIAS.findall(items) if name[0].islower())
    for line in code_lines(read(path)):
        if GOAL.search(line):
            continue
        found = DECLARED.match(line) or HEADED.match(line)
        if found:
            yield found.group(1)
        found = SEVERAL.match(line)
        if found:
            yield from found.group(1).split()


def library_names(own_crates):
    for path in files((".antt", ".rt")):
        for module, items in USED.findall(read(path)):
            parts = module.replace("ghost ", "").strip().split(".")
            if parts[0] == "Rattle" and len(parts) > 1 and parts[1] in own_crates:
                continue
            for item in items.split(","):
                yield item.strip().split(" as ")[0]


def main():
    own_crates = set(os.listdir("crates"))
    owned = {name for path in files(".antt") for name in declared(path)}
    taken = set(library_names(own_crates))
    table, fallen = dict(GIVEN_BACK), []
    for name in sorted(owned):
        new = snake(name)
        if not PLAIN.match(name) or new == name or name in taken:
            continue
        if "-" in name and (new in owned and new not in GIVEN_BACK or any(o != name and "-" not in o and snake(o) == new for o in owned)):
            fallen.append(name)
        else:
            table[name] = new
    after = {snake(name) for name in owned}

    def turn_word(match, behind_dot_stays, loose):
        word = match.group(0)
        before = match.string[max(0, match.start() - 1):match.start()]
        if behind_dot_stays and before == ".":
            return word
        if word in table:
            return table[word]
        if word in fallen:
            return word
        if loose and PLAIN.match(word) and ("-" in word or re.search(r"[a-z0-9][A-Z]", word)) and snake(word) in after and word not in taken:
            return snake(word)
        return word

    word = re.compile(WORD)
    changed = 0
    for path in files((".antt", ".rt", ".edit")):
        old = read(path)
        edit = path.endswith(".edit")
        if path.endswith(".rt"):
            strings = re.compile(r'"(?:\\.|[^"\\\n])*"')
            pieces, at = [], 0
            for s in strings.finditer(old):
                pieces += [word.sub(lambda m: turn_word(m, False, False), old[at:s.start()]), s.group(0)]
                at = s.end()
            new = "".join(pieces + [word.sub(lambda m: turn_word(m, False, False), old[at:])])
        else:
            new = word.sub(lambda m: turn_word(m, of_function(path), edit), old)
        if new != old:
            with open(path, "w", encoding="utf-8") as f:
                f.write(new)
            changed += 1
    pages = ["README.md"] + [os.path.join("docs", n) for n in sorted(os.listdir("docs")) if n.endswith(".md") and n not in ("CHANGES.md", "PORT.md")]
    for path in pages:
        old = read(path)
        new = re.sub(r"`[^`\n]+`", lambda span: word.sub(lambda m: turn_word(m, False, True), span.group(0)), old)
        if new != old:
            with open(path, "w", encoding="utf-8") as f:
                f.write(new)
            changed += 1
    print(f"look: these lemmas keep their dashes: {', '.join(fallen)}")
    print(f"respell: {len(table)} names, {changed} files")


if __name__ == "__main__":
    sys.exit(main())
