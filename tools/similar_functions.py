#!/usr/bin/env python3
"""Pairs of functions in crates/*/src whose bodies differ in little: python3 tools/similar_functions.py [LEAST].

A body is read without comments. Each pair of functions whose bodies have at least eight words and signs is compared twice: word by word, and with every name
written alike. A pair is printed where the first likeness is at least LEAST (0.8, where 1 is the same text) or the second is 0.95 or more. The last line says how
many pairs there are."""
import difflib
import glob
import re
import sys

TOKEN = re.compile(r"[A-Za-z_]\w*|\d[\w.]*|'[^']*'|\"[^\"]*\"|[^\s\w]")
KEPT = {"let", "mut", "if", "else", "for", "in", "while", "return", "match", "fn", "as", "true", "false", "self"}


def closing(text, start):
    depth = 0
    for i in range(start, len(text)):
        if text[i] == "{":
            depth += 1
        elif text[i] == "}":
            depth -= 1
            if depth == 0:
                return i
    return len(text)


def body_start(text, at):
    """The brace that opens the body: past the parameters, the result and the clauses, whose own braces follow the word that begins them."""
    i = at
    while i < len(text):
        clause = re.compile(r"(requires|ensures|ghost)\b[\w\s]*\{").match(text, i)
        if clause:
            i = closing(text, clause.end() - 1) + 1
        elif text[i] == "{":
            return i
        elif text[i] == ";":
            return None
        else:
            i += 1
    return None


def functions(path):
    text = re.sub(r"//[^\n]*", "", open(path, encoding="utf-8").read())
    for head in re.finditer(r"\bfn (\w+)", text):
        start = body_start(text, head.end())
        if start is not None:
            words = TOKEN.findall(text[start : closing(text, start) + 1])
            yield f"{path.split('/')[1]}::{head.group(1)}", words


def named_alike(words):
    return [w if w in KEPT or not (w[0].isalpha() or w[0] == "_") else "name" for w in words]


def likeness(a, b):
    return difflib.SequenceMatcher(None, a, b, autojunk=False).ratio()


def main():
    least = float(sys.argv[1]) if len(sys.argv) > 1 else 0.8
    found = [f for path in sorted(glob.glob("crates/*/src/**/*.rt", recursive=True)) for f in functions(path) if len(f[1]) >= 8]
    pairs = 0
    for i, (name, words) in enumerate(found):
        for other, others in found[i + 1 :]:
            if not 0.6 < len(words) / len(others) < 1.7:
                continue
            literal = likeness(words, others)
            alike = likeness(named_alike(words), named_alike(others))
            if literal >= least or alike >= 0.95:
                pairs += 1
                print(f"{literal:.2f} {alike:.2f} {name} {other}")
    print(f"{pairs} pairs")


main()
