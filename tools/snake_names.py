#!/usr/bin/env python3
"""Brings this repository's own definitions and lemmas to snake case: where two words of a name stood joined by a dash, `_` stands.

usage: python3 tools/snake_names.py      at the top of the repository, once, after the kit's own script

A name is the repository's own when it is used in a crate's specs/, in a lemma file of proofs/, or in a clause of src/, and no file imports it
from a library of the kit. Names that the check makes (goals and steps, in the folders of proofs/) keep their dashes, and so do comments of src/.
"""

import os
import re

TOKEN = re.compile(r"(?<![\w'◌-])[A-Za-z][\w']*(?:-[\w']+)+")
KIT = re.compile(r"use\s+((?:Rattle\.(?:std|core)|borrow|mathlib|lib|Prim|native|denote)[\w.+]*)\.\{([^}]*)\}")
COMMENT = re.compile(r"//.*")
MADE = re.compile(r"goal\.([A-Za-z][\w'+-]*)")


def files():
    for folder, dirs, names in os.walk("crates"):
        dirs[:] = sorted(d for d in dirs if d != "out")
        for name in sorted(names):
            if name.endswith((".antt", ".rt")):
                yield os.path.join(folder, name)


def of_a_function(path):
    """Whether the file answers the goals of one function."""
    return "/proofs/" in path and path.split("/proofs/")[1].count("/") > 0


def code(path, text):
    return "\n".join(COMMENT.sub("", line) for line in text.split("\n")) if path.endswith(".rt") else text


def own_names(texts):
    kit = {name.strip().split(" as ")[0].strip() for text in texts.values() for m in KIT.finditer(text) for name in m.group(2).split(",")}
    own = {m.group(0) for path, text in texts.items() if not of_a_function(path) for m in TOKEN.finditer(code(path, text))}
    return own - kit


def snake(name):
    return name.replace("-", "_")


def turn_part(text, names):
    return TOKEN.sub(lambda m: snake(m.group(0)) if m.group(0) in names else m.group(0), text)


def turn(path, text, own):
    if path.endswith(".rt"):
        out = []
        for line in text.split("\n"):
            at = line.find("//")
            at = len(line) if at < 0 else at
            out.append(turn_part(line[:at], own) + line[at:])
        return "\n".join(out)
    if of_a_function(path):
        made = set(MADE.findall(text))
        names = own - made
        return re.sub(r"(?<![\w'◌.-])[A-Za-z][\w']*(?:-[\w']+)+", lambda m: snake(m.group(0)) if m.group(0) in names else m.group(0), text)
    return "\n".join(turn_line(line, own) for line in text.split("\n"))


def turn_line(line, own):
    """A line of definitions or lemmas: in a sentence of a comment only what stands in backticks is a name."""
    if line.startswith("--") and not line.startswith("--     "):
        return re.sub(r"`[^`]*`", lambda m: turn_part(m.group(0), own), line)
    return turn_part(line, own)


def main():
    texts = {path: open(path, encoding="utf-8").read() for path in files()}
    own = own_names(texts)
    words = {w for text in texts.values() for w in re.findall(r"[A-Za-z][\w']*", text)}
    together = sorted(n for n in own if snake(n) in words)
    for path, text in texts.items():
        new = turn(path, text, own)
        if new != text:
            with open(path, "w", encoding="utf-8") as f:
                f.write(new)
    print(f"{len(own)} names; a word of the same spelling stood before: {', '.join(together)}")


if __name__ == "__main__":
    main()
