#!/usr/bin/env python3
"""Brings the repository's own definitions and lemmas to the spelling of today's Rattle.

usage: python3 tools/respell.py      at the top of the repository, once, after the port.py of the kit

A word that a file of specs/ or proofs/ declares is written in snake case, a type in camel case: `end-turn` becomes `end_turn`,
`leastOf` becomes `least_of`, `Held-turn` becomes `HeldTurn`. It is turned wherever it stands: in specs/, in proofs/, in clauses of
src/ and in the edits of must-fail/. Functions of src/, names that Rattle makes for a function's goals, strings, inputs and outputs
keep theirs. A word that was quoted in a clause only for its dash or underscore loses the quotes.
"""

import os
import re
import sys

WORD = re.compile(r"[\w'⊎◌]+(?:-[\w'⊎◌]+)*")
DECLARED = re.compile(r"\s*(?:(?:abbrev|unfoldable|pub|record|data|ruleset) )*([^\s:(){}]+)(?:\s+[({].*?[)}])*\s*:\s")
ANSWERS = ("Answers.antt", "Choices.antt", "Invariants.antt", "Proof.antt")
OTHERS = {"getD_filled": "get_or_filled", "Held-turn": "HeldTurn", "Plays-on": "PlaysOn", "Plays-all": "PlaysAll"}


def files(*endings):
    for folder, dirs, names in os.walk("crates"):
        dirs[:] = sorted(d for d in dirs if d != "out")
        for name in sorted(names):
            if name.endswith(endings):
                yield os.path.join(folder, name)


def read(path):
    with open(path, encoding="utf-8") as f:
        return f.read()


def snake(word):
    return re.sub(r"(?<=[a-z])[A-Z](?=[a-z])", lambda m: "_" + m.group(0).lower(), word.replace("-", "_"))


def declared():
    """The words with a dash or a capital inside that the repository declares, each with its new spelling."""
    words = {}
    for path in files(".antt"):
        if "/proofs/" in path and path.endswith(ANSWERS):
            continue
        for line in read(path).splitlines():
            m = DECLARED.match(line)
            if not m or not WORD.fullmatch(m.group(1)):
                continue
            new = OTHERS.get(m.group(1)) or (snake(m.group(1)) if m.group(1)[0].islower() else m.group(1))
            if new != m.group(1):
                words[m.group(1)] = new
    return words


def lines_of_code(path, text):
    """Each line as its code and what is left alone: a comment, and in src/ what follows its first string."""
    apart = re.compile(r'(?:[^"/]|/(?!/)|\'"\')*' if path.endswith(".rt") else r".*?(?=(?:(?<=\s)|^)--\s|$)")
    for line in text.split("\n"):
        code = apart.match(line).group(0) if path.endswith((".rt", ".antt")) else line
        yield code, line[len(code):]


def turned(path, text, words):
    def word(m):
        return words.get(m.group(0), m.group(0))

    out = []
    for code, rest in lines_of_code(path, text):
        new = WORD.sub(word, code)
        if path.endswith((".rt", ".edit")):
            new = re.sub(r"«(\w+)»", lambda m: m.group(1) if "_" in m.group(1) else m.group(0), new)
        out.append(new + re.sub(r"`([^`]*)`", lambda m: WORD.sub(word, m.group(0)), rest))
    return "\n".join(out)


def main():
    if not os.path.isdir("crates"):
        sys.exit("run it at the top of the repository")
    words = declared()
    taken = {w for path in files(".antt") for w in WORD.findall(read(path))}
    for old, new in sorted(words.items()):
        if new in taken:
            print(f"look: {old} becomes {new}, which a file says already")
    changed = 0
    for path in files(".antt", ".rt", ".edit"):
        text = read(path)
        new = turned(path, text, words)
        if new != text:
            changed += 1
            with open(path, "w", encoding="utf-8") as f:
                f.write(new)
    print(f"{len(words)} words, {changed} files")


main()
