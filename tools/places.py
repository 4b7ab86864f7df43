#!/usr/bin/env python3
"""Counts the places in src/ that docs/DESIGN-PASS.md speaks of, by their form.

    places.py [FOLDER]     a count for each kind of place, over the crates below FOLDER (default: this repository)
    places.py --list [FOLDER]     and where each one stands

A form is only a sign: what a place is, and why it stays, is for a reader to say.
"""
import collections
import glob
import os
import re
import sys

FUNCTION = re.compile(r"^(?P<indent> *)(?:pub )?(?:extern \"C\" )?fn (?P<name>\w+)(?P<head>[^{]*?(?:(?:requires|ensures)(?: \w+)? \{.*?\}\s*)*)\{\n(?P<body>.*?)\n(?P=indent)\}$", re.M | re.S)
TOKEN = re.compile(r"b?\"[^\"]*\"|\d\w*|[A-Za-z_]\w*|\S")
WORDS = {"if", "else", "while", "for", "in", "match", "return", "let", "mut", "as", "true", "false"}


def functions(text):
    """Name, place, head and body of each function."""
    for head in re.finditer(r"^( *)(?:#\[.*\] )?(?:pub )?(?:extern \"C\" )?fn (\w+)", text, re.M):
        indent = head.group(1)
        end = text.find(f"\n{indent}}}\n", head.start())
        end = len(text) if end < 0 else end
        whole = text[head.start() : end]
        body = whole.find(f"\n{indent}{{\n")
        if body < 0:
            body = whole.find("{\n", whole.find(")"))
        yield head.group(2), text.count("\n", 0, head.start()) + 1, whole[:body], whole[body:]


def parameters(head):
    """The names of a function's parameters."""
    inner = head[head.find("(") + 1 :]
    clauses = re.split(r"\n *(?:requires|ensures)", inner)[0]
    return re.findall(r"(?:^|[(,\s])(?:mut )?(\w+): ", clauses)


def skeleton(body):
    """A body without names and literals."""
    code = re.sub(r"//.*", "", body)
    return " ".join(token if token in WORDS else "I" if re.match(r"[A-Za-z_]", token) else "N" if re.match(r"[\db\"]", token) else token for token in TOKEN.findall(code))


def places(root):
    """The places of each kind: a dictionary of lists."""
    found = collections.defaultdict(list)
    shapes, clauses, together = collections.defaultdict(list), collections.defaultdict(list), collections.defaultdict(list)
    for path in sorted(glob.glob(os.path.join(root, "crates", "*", "src", "**", "*.rt"), recursive=True)):
        text = open(path, encoding="utf-8").read()
        where = os.path.relpath(path, root)
        for block in re.finditer(r"^(?:pub )?(struct|enum) (\w+)[^{;]*\{\n(.*?)^\}", text, re.M | re.S):
            line = text.count("\n", 0, block.start()) + 1
            name, inner = block.group(2), re.sub(r"//.*", "", block.group(3))
            if block.group(1) == "struct" and re.search(r"\b(code: u8|there: bool|found: bool)", inner) and inner.count(":") > 1:
                found["1 a flag or a code beside values"].append(f"{where}:{line} {name}")
            variants = re.findall(r"^    (\w+)(\(.*\))?(?: = \d+)?,", inner, re.M)
            if block.group(1) == "enum" and len(variants) == 2 and sum(1 for _, value in variants if value) == 1:
                found["1 an enum of the shape of Option"].append(f"{where}:{line} {name}")
        for name, line, head, body in functions(text):
            at = f"{where}:{line} {name}"
            if re.search(r"-> u8\b", head) or re.search(r"\b(code|c): u8\b", head):
                found["1 a number for a refusal in a signature"].append(at)
            for loop in re.finditer(r"while ([^{]*)\{", body):
                rest = body[loop.end() :]
                names = re.findall(r"\b([a-z_]\w*)\b", loop.group(1))
                if any(re.search(rf"\n\s+{name} (\+|-)= (1|b|\w+);", rest) for name in names):
                    found["3 a while that steps an index"].append(at)
                else:
                    found["3 another while (a walk, a halving)"].append(at)
            shape = skeleton(body)
            if shape.count(" ") > 24:
                shapes[shape].append(at)
            arms = re.findall(r"=> (?:true|false|\d+|[\w:]+|\w+\(\)),", body)
            if len(arms) > 3 and len(arms) == body.count("=>"):
                found["4 a table of cases written by hand"].append(at)
            count = parameters(head)
            if len(count) > 5:
                found["5 a function of more than five parameters"].append(at)
            for clause in re.findall(r"requires (?:\w+ )?\{ (.*) \}", head):
                for part in clause.split(" × "):
                    if "length f.now" not in part and len(part) > 30:
                        clauses[part.strip("() ")].append(at)
            for a, b in zip(count, count[1:]):
                together[(a, b)].append(at)
            if re.search(r"\[0u\d+; \d+\]", body):
                found["6 a table of fixed size"].append(at)
    for group in shapes.values():
        if len(group) > 1:
            found["2 functions of one shape"].append("; ".join(group))
    for clause, group in clauses.items():
        if len(group) > 2:
            found["5 a fact in three contracts or more"].append(f"{clause}: " + ", ".join(at.split()[1] for at in group))
    for pair, group in together.items():
        if len(group) > 9 and "f" not in pair and "out" not in pair:
            found["5 two parameters beside one another in ten functions or more"].append(f"{pair[0]}, {pair[1]}: {len(group)}")
    return found


def main():
    words = [word for word in sys.argv[1:] if word != "--list"]
    root = words[0] if words else os.path.join(os.path.dirname(os.path.abspath(__file__)), "..")
    for kind, group in sorted(places(root).items()):
        print(f"{len(group):4} {kind}")
        if "--list" in sys.argv:
            for place in group:
                print(f"       {place}")


if __name__ == "__main__":
    main()
