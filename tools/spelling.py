#!/usr/bin/env python3
"""Turns the repository's own names in specs/ and proofs/ to today's spelling, once: words in snake case.

    tools/spelling.py [ROOT]

A name is the repository's own if a file of specs/ or proofs/ declares it; names of the library and names from Rust stay, and so do names that begin with a
capital (types, facts). Two names that would fall together in one file are told apart: the lemma gets `_lem`. Words turn in .antt, .rt and .edit files, in
comments (a dashed word only in a code span) and in the code spans of pages. Prints how many names turned.
"""
import os
import re
import sys

WORD = re.compile(r"[^\s(){}\[\].;,@\"«»:|`\\]+")
HEAD = re.compile(
    r"^(\s*)((?:(?:abbrev|unfoldable|opaque|pub|private|data|record)\s+)*)"
    r"([^\s(){}.;,@\"«»:=|λ]+(?:\s+[^\s(){}.;,@\"«»:=|λ]+)*)\s*(?:\(.*\)\s*|\{.*\}\s*)*:(?![=:])"
)
# Lemmas in snake case already that a definition's new name would fall together with, each with the file that declares it.
LEMMAS = {
    "all_types": "format/proofs/HoldsLaws.antt",
    "text_in": "questions/proofs/ReadLaws.antt",
    "said_in": "cells/proofs/RowLaws.antt",
    "read_back": "format/proofs/FileLaws.antt",
    "entry_read": "set_list/proofs/EntryLaws.antt",
    "set_words": "label_words/proofs/WordLaws.antt",
    "in_order": "demands/proofs/HeaderLaws.antt",
}
# Fields of records that state where something is, beside the definition of that place, and words with two capitals.
SPECIAL = {"label-place": "label_placed", "stamp-place": "stamp_placed", "strLType": "strl_type"}


def files(root, endings):
    for top, folders, names in os.walk(root):
        folders[:] = sorted(f for f in folders if f not in ("out", ".git", "target"))
        for name in sorted(names):
            if name.endswith(endings):
                yield os.path.join(top, name)


def read(path):
    with open(path, encoding="utf-8") as f:
        return f.read()


def write(path, text):
    with open(path, "w", encoding="utf-8") as f:
        f.write(text)


def uses(text):
    """Module and names of each use line."""
    for m in re.finditer(r"^\s*(?:pub )?(?:ghost )?use ([\w.'·+-]+)\.\{([^}]*)\}", text, re.M):
        yield m[1], [w.strip() for w in m[2].split(",")]


def declared(root, crates):
    """The names that the repository declares, each with its files, and those that it takes from the library."""
    own, library = {}, set()
    for path in files(os.path.join(root, "crates"), (".antt", ".rt")):
        text = read(path)
        for module, names in uses(text):
            parts = module.split(".")
            if not (parts[0] == "Rattle" and len(parts) > 1 and parts[1] in crates):
                for n in names:
                    library.update(n.split(" as "))
        if path.endswith(".rt"):
            continue
        for line in text.split("\n"):
            if line.lstrip().startswith(("--", "use ", "pub use ", "let ", "in ", "elim", "λ")):
                continue
            m = HEAD.match(line)
            for n in m[3].split() if m else ():
                if n in ("let", "in", "module", "where", "syntax"):
                    break
                own.setdefault(n, set()).add(path)
    return own, library


def snake(name):
    name = name.replace("-", "_")
    name = re.sub(r"(?<=[a-z0-9])([A-Z]+)", r"_\1", name)
    return name.lower()


def words_of(text, comment):
    return set(WORD.findall(re.sub(r"(?m)(^|\s)" + comment + r".*$", "", text)))


def table(root):
    crates = set(os.listdir(os.path.join(root, "crates")))
    own, library = declared(root, crates)
    turned = {n: SPECIAL.get(n, snake(n)) for n in own if n not in library and "◌" not in n and re.match("[a-z]", n)}
    turned = {n: new for n, new in turned.items() if new != n}
    # In each file that has a dashed name and another one of the same new spelling, the dashed one is the lemma.
    for path in files(os.path.join(root, "crates"), (".antt",)):
        found = {}
        for w in words_of(read(path), "--"):
            found.setdefault(turned.get(w, w), set()).add(w)
        for new, olds in found.items():
            if len(olds) > 1:
                for old in olds:
                    if "-" in old and old in turned and old not in SPECIAL:
                        turned[old] = snake(old) + "_lem"
    return turned


def turn_words(text, turned):
    return WORD.sub(lambda m: turned.get(m[0], m[0]), text)


def turn_comment(text, turned):
    """In a comment a dashed word turns in a code span alone."""
    camel = {n: new for n, new in turned.items() if "-" not in n}
    parts = re.split(r"(`[^`\n]*`)", text)
    return "".join(turn_words(p, turned if p.startswith("`") else camel) for p in parts)


def turn_code(text, turned, comment):
    """Code with comments and quoted text: each its own way."""
    parts = re.split(r'("(?:[^"\\\n]|\\.)*"|(?:(?<=\s)|^)' + comment + r"[^\n]*)", text, flags=re.M)
    out = []
    for p in parts:
        if p.startswith('"'):
            out.append(p)
        elif p.startswith(comment):
            out.append(turn_comment(p, turned))
        else:
            out.append(turn_words(p, turned))
    return "".join(out)


def turn_lemma(root, name, home):
    """A lemma gets `_lem` in its own file and where it is imported from there."""
    module = "Rattle." + home.split("/")[0] + ".proofs." + os.path.basename(home)[:-5]
    word = re.compile(r"(?<![.\w'-])" + name + r"(?![\w'-]|\.)")
    for path in files(os.path.join(root, "crates"), (".antt",)):
        text = read(path)
        if path.endswith(home) or any(m == module and name in names for m, names in uses(text)):
            write(path, word.sub(name + "_lem", text))


def turn_pages(root, turned):
    pages = [os.path.join(root, "README.md"), *files(os.path.join(root, "docs"), (".md",))]
    for path in pages:
        text = read(path)
        parts = re.split(r"(`[^`\n]*`)", text)
        write(path, "".join(turn_words(p, turned) if p.startswith("`") else p for p in parts))


def main(root):
    for name, home in LEMMAS.items():
        turn_lemma(root, name, home)
    turned = table(root)
    for path in files(os.path.join(root, "crates"), (".antt", ".rt", ".edit")):
        text = read(path)
        if path.endswith(".edit"):
            new = turn_words(text, turned)
        else:
            new = turn_code(text, turned, "--" if path.endswith(".antt") else "//")
        if new != text:
            write(path, new)
    turn_pages(root, turned)
    print(f"spelling: {len(turned)} names turned")


if __name__ == "__main__":
    main(sys.argv[1] if len(sys.argv) > 1 else ".")
