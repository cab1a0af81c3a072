#!/usr/bin/env python3
"""Brings the repository's own definitions and lemmas to snake case, after the kit's own respelling.

usage: tools/respell.py [ROOT]    rewrites crates/**/*.antt, the clauses and ghost lines of crates/**/*.rt

What is renamed: every name that a file of specs/ or proofs/ declares and that has a capital after a small letter, or a dash. A dash and a capital
both become '_'. Types, modules, generated names and names of the library stay. It says which names would fall together, and then writes nothing.
"""
import os
import re
import sys

TOKEN = re.compile(r"[^\s(){}.,;\"⌜⌝|\[\]]+")
DECLARED = re.compile(r"^\s*(?:(?:pub|abbrev|unfoldable) )*((?:[^\s:(){}.,;=λ]+ )*[^\s:(){}.,;=λ]+) :( .*|$)")
PARAMETERS = re.compile(r"^\s*(?:pub )?(?:record|data|module) ")
IMPORT = re.compile(r"^\s*(?:pub )?(?:ghost )?use ([^\s{;]+?)(?:\.\{(.*?)\})?(?: as \S+)?;?\s*$")
# Names that would fall together with a definition's, and names that cite a renamed word of the library.
SPECIAL = {
    "getD-behind": "get_or_behind",
    "◌orElse◌": "◌or_else◌",
    "adoption-number": "adoption_number_lem",
    "backward-row": "backward_row_lem",
    "backward-rows": "backward_rows_lem",
    "backward-skips": "backward_skips_lem",
    "column-dropped": "column_dropped_lem",
    "column-moved": "column_moved_rows",
    "column-replaced": "column_replaced_rows",
    "forward-acts": "forward_acts_lem",
    "forward-row": "forward_row_lem",
    "forward-rows": "forward_rows_lem",
    "is-zero": "is_zero_lem",
    "managed-epsilon": "managed_epsilon_line",
    "not-adopted": "if_not_adopted",
    "number-of": "number_of_lem",
    "row-replaced": "row_replaced_rows",
    "rows-after": "rows_after_lem",
    "zero-based-epsilon": "zero_based_epsilon_line",
}
# The same in one file.
SPECIAL_IN = {"crates/managed/proofs/WhichBuffer.antt": {"in_order": "in_order_lem"}}


def files(root, ending):
    for folder, dirs, names in os.walk(os.path.join(root, "crates")):
        dirs[:] = sorted(d for d in dirs if d != "out")
        for n in sorted(names):
            if n.endswith(ending):
                yield os.path.join(folder, n)


def snake(name):
    if name in SPECIAL:
        return SPECIAL[name]
    made = re.sub(r"(?<=[a-z0-9])([A-Z])", lambda m: "_" + m.group(1).lower(), name) if not name[0].isupper() else name
    return made.replace("-", "_")


def crates(root):
    return {d for d in os.listdir(os.path.join(root, "crates"))}


def own_path(path, own):
    parts = path.split(".")
    return len(parts) > 1 and parts[0] == "Rattle" and parts[1] in own


def declared(root):
    """The names that the repository declares and that change, with the files where they stand."""
    found, every = {}, {}
    for p in files(root, ".antt"):
        for line in open(p, encoding="utf-8"):
            if line.lstrip().startswith("--") or PARAMETERS.match(line) or re.match(r"\s*(let|use|pub use) ", line):
                continue
            m = DECLARED.match(line)
            if not m or m.group(2).strip().startswith("tie."):
                continue
            for n in m.group(1).split():
                every.setdefault(n, p)
                if n[0].isupper() and "-" not in n:
                    continue
                if n not in ("_",) and re.search(r"[A-Z-]", n) and snake(n) != n:
                    found.setdefault(n, set()).add(p)
    return found, every


def imported(text, own):
    """The names that a file takes from the library."""
    out = set()
    for line in text.split("\n"):
        m = IMPORT.match(line)
        if m and m.group(2) and not own_path(m.group(1), own):
            out |= {n.split(" as ")[0].strip() for n in m.group(2).split(",")}
    return out


def turned(text, table, left):
    return TOKEN.sub(lambda m: table[m.group(0)] if m.group(0) in table and m.group(0) not in left else m.group(0), text)


def quoted(text, table, left):
    """A comment: names between backticks only, and names that are no English."""
    text = re.sub(r"`[^`]*`", lambda m: turned(m.group(0), table, left), text)
    return TOKEN.sub(lambda m: table[m.group(0)] if m.group(0) in table and re.search(r"[a-z][A-Z]", m.group(0)) else m.group(0), text)


def antt(text, table, own):
    left = imported(text, own)
    out = []
    for line in text.split("\n"):
        m = IMPORT.match(line)
        if m and not own_path(m.group(1), own):
            out.append(line)
            continue
        i = 0 if line.lstrip().startswith("--") else (line.find(" -- ") if " -- " in line else -1)
        if i < 0:
            out.append(turned(line, table, left))
        else:
            out.append(turned(line[:i], table, left) + quoted(line[i:], table, left))
    return "\n".join(out)


CLAUSE = re.compile(r"\b(?:requires|ensures|ghost)\b[^\n{;]*\{")


def clauses(text):
    """The spans of a .rt file that are clauses or ghost items."""
    for m in CLAUSE.finditer(text):
        line = text.rfind("\n", 0, m.start()) + 1
        if "//" in text[line:m.start()] or text[line:m.start()].strip() not in ("", "pub"):
            continue
        depth, i = 1, m.end()
        while depth and i < len(text):
            depth += {"{": 1, "}": -1}.get(text[i], 0)
            i += 1
        yield m.end(), i


def rust(text, table, own):
    left = imported(text, own)
    spans = sorted(set(clauses(text)))
    out, at = [], 0
    for a, b in spans:
        if a < at:
            continue
        out += [text[at:a], turned(text[a:b], table, left)]
        at = b
    out.append(text[at:])
    lines = []
    for line in "".join(out).split("\n"):
        m = IMPORT.match(line)
        own_line = m and line.lstrip().startswith("ghost use") and own_path(m.group(1), own)
        lines.append(turned(line, table, set()) if own_line else line)
    return "\n".join(lines)


def main():
    root = sys.argv[1] if len(sys.argv) > 1 else "."
    own = crates(root)
    found, every = declared(root)
    table = {n: snake(n) for n in found}
    clash = 0
    for n, m in sorted(table.items()):
        others = [k for k, v in table.items() if v == m and k != n]
        if others or (m in every and m not in table):
            same = [os.path.relpath(every[k], root) for k in [n] + others + ([m] if m in every else []) if k in every]
            print(f"falls together: {n} -> {m}: {', '.join(others)} {same}")
            clash += 1
    for p in files(root, ".antt"):
        t = open(p, encoding="utf-8").read()
        both = imported(t, own) & set(table)
        if both:
            print(f"the library's here: {os.path.relpath(p, root)}: {sorted(both)}")
    if "--say" in sys.argv:
        return
    for p in list(files(root, ".antt")) + list(files(root, ".rt")):
        t = open(p, encoding="utf-8").read()
        for file, names in SPECIAL_IN.items():
            if os.path.relpath(p, root) == file:
                t = turned(t, names, set())
        new = antt(t, table, own) if p.endswith(".antt") else rust(t, table, own)
        if new != open(p, encoding="utf-8").read():
            open(p, "w", encoding="utf-8").write(new)
    print(f"{len(table)} names, {clash} fall together")


main()
