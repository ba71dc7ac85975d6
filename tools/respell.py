#!/usr/bin/env python3
"""Brings the names of definitions, lemmas and fields in specs/ and proofs/ to the spelling of today's Rattle.

Types are written in upper camel case (`Steps-up` is `StepsUp`), everything else in snake case (`net-total` is
`net_total`). Names that the toolchain makes or that its library declares stay. Run it once, at the top of the
repository, after the kit's own script; it changes specs/, proofs/, the clauses in src/, and the edits of must-fail/.
It prints each name, and the names that fall together with one that stood there.
"""
import glob
import os
import re
import sys

TOKEN = re.compile(r"(?<![\w'◌-])([A-Za-z][\w']*(?:-[\w']+)+)(?![\w'-])")
USE = re.compile(r"\s*(?:ghost )?(?:pub )?use ([\w.·]+)\.\{(.*)\}")
SIGNATURE = re.compile(r"(?:abbrev |pub |unfoldable )*([\w'-]+) :")


def code(line):
    """A line of specs/ or proofs/ without its comment."""
    return re.sub(r"(^|\s)--(\s.*|$)", "", line)


def read(path):
    with open(path, encoding="utf8") as file:
        return file.read()


def foreign_names(paths, crates):
    """Names that are imported from outside the repository's crates."""
    found = set()
    for path in paths:
        for line in read(path).split("\n"):
            use = USE.match(line)
            if use:
                parts = use.group(1).split(".")
                if not (parts[0] == "Rattle" and len(parts) > 1 and parts[1] in crates):
                    found |= {name.strip().split(" as ")[0] for name in use.group(2).split(",")}
    return found


def own_names(lemmas, answers):
    """Names with a dash that the repository's own files declare."""
    found = set()
    for path in lemmas:
        for line in read(path).split("\n"):
            if not re.match(r"\s*use ", line):
                found |= set(TOKEN.findall(code(line)))
    for path in answers:
        text = read(path)
        goals = set(re.findall(r"goal\.([\w'-]+)", text))
        for line in text.split("\n"):
            if re.match(r"\s*use ", line):
                continue
            line = code(line)
            signature = SIGNATURE.match(line)
            if signature and "-" in signature.group(1) and signature.group(1) not in goals:
                found.add(signature.group(1))
            found |= {name for name in re.findall(r"let ([\w'-]+) ?[:=]", line) if "-" in name}
    return found


def respelled(name):
    parts = name.split("-")
    if name[0].isupper():
        return "".join(part[0].upper() + part[1:] for part in parts)
    return "_".join(parts)


def respell(text, names, comment):
    """The text with each name respelled, but for what stands in a comment."""
    lines = []
    for line in text.split("\n"):
        cut = re.search(comment, line)
        head, tail = (line[: cut.start()], line[cut.start() :]) if cut else (line, "")
        lines.append(TOKEN.sub(lambda m: names.get(m.group(1), m.group(1)), head) + tail)
    return "\n".join(lines)


def main():
    crates = set(os.listdir("crates"))
    lemmas = glob.glob("crates/*/specs/*.antt") + glob.glob("crates/*/proofs/*.antt")
    answers = glob.glob("crates/*/proofs/*/**/*.antt", recursive=True)
    sources = glob.glob("crates/*/src/**/*.rt", recursive=True)
    edits = glob.glob("crates/*/must-fail/*.edit")
    names = own_names(lemmas, answers) - foreign_names(lemmas + answers + sources, crates)
    table = {name: respelled(name) for name in names}
    together = {}
    words = {path: set(re.findall(r"[\w'-]+", code(read(path)))) for path in lemmas + answers}
    for name, new in sorted(table.items()):
        print(name, "->", new)
        if list(table.values()).count(new) > 1:
            together[new] = "two names"
        for path in lemmas + answers:
            if new in words[path]:
                together.setdefault(new, path)
    for path in lemmas + answers:
        text = respell(read(path), table, r"(^|\s)--(\s|$)")
        with open(path, "w", encoding="utf8") as file:
            file.write(text)
    for path in sources:
        text = respell(read(path), table, r"//")
        with open(path, "w", encoding="utf8") as file:
            file.write(text)
    for path in edits:
        text = respell(read(path), table, r"$^")
        with open(path, "w", encoding="utf8") as file:
            file.write(text)
    for new, path in sorted(together.items()):
        print("falls together:", new, path, file=sys.stderr)


if __name__ == "__main__":
    main()
