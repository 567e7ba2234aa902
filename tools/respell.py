#!/usr/bin/env python3
"""Brings the repository's own definitions and lemmas to the spelling that the toolchain's library has: words in snake case, types in camel case.

usage: python3 tools/respell.py      at the top of the checkout, once, after the toolchain's port.py

Names of functions in src/, exported names, strings, inputs and outputs stay. A file specs/Contracts.antt becomes specs/Promises.antt, since the
toolchain makes a module `contracts` there. Names that would fall together are told apart by the table APART.
"""

import os
import re
import subprocess

# two names of one spelling that stand in one file, and the names of two kinds that a script can't tell
APART = {
    "symbol-arity": "arity_of_symbol",
    "answer-by": "answer_by_book",
    "done-by": "done_by_book",
    "payee-page-of": "payee_page_of_lem",
    "page-of": "page_of_lem",
    "frame-at": "nth_frame",
    "bit-or": "bit_or_lem",
    "bit-xor": "bit_xor_lem",
    "Frame-fits": "FrameFitsFields",
    "Unit-fits": "UnitFitsFields",
    "getD-from": "get_or_from",
    "getD-listed": "get_or_listed",
    "eN": "eN",
    # what port.py leaves of a type's name
    "Goes_on": "GoesOn",
    "Order-discrete": "order_discrete",
    "Flat-discrete": "flat_discrete",
    "Frame-discrete": "frame_discrete",
    "Ending-discrete": "ending_discrete",
}
# words of comments that are no names
PROSE = {"all-zero"}

LETTER = r"[\w'₀-₉′]"
NAME = r"[A-Za-z_Α-ωℕℤ]" + LETTER + "*(?:-" + LETTER + "+)*"
TOKEN = re.compile(r"(?<![\w'′₀-₉-])" + NAME + r"(?![\w'′₀-₉-])")
USE = re.compile(r"^\s*(?:pub )?(?:ghost )?use ([^;\n{]*)(?:\{([^}]*)\})?", re.M)
KIND = r"(?:abbrev|unfoldable|pub|data|record|ruleset)"
SIGNATURE = re.compile(r"^\s*(?:" + KIND + r"\s+)*(" + NAME + r")((?:\s+\{[^}]*\}|\s+\([^)]*\)|\s+" + NAME + r")*)\s*:(?!=)")
DECLARED = re.compile(r"^\s*" + KIND + r"(?:\s+" + KIND + r")*\s+(" + NAME + ")")


def listed(pattern):
    said = subprocess.check_output(["git", "ls-files"] + pattern, text=True).split("\n")
    return [f for f in said if f and os.path.exists(f)]


def read(path):
    with open(path, encoding="utf-8") as f:
        return f.read()


def write(path, text):
    if text != read(path):
        with open(path, "w", encoding="utf-8") as f:
            f.write(text)


def bare(text):
    """Without strings and comments."""
    return re.sub(r"--.*", "", re.sub(r'"[^"\n]*"', '""', text))


def respelled(name):
    if name in APART:
        return APART[name]
    if name[0].isupper():
        first, *rest = name.split("-")
        return first + "".join(p[:1].upper() + p[1:] for p in rest)
    name = name.replace("-", "_")
    if re.match(r"[a-z][a-z0-9_]*[a-z0-9]?[A-Z]", name):
        name = re.sub(r"(?<=[a-z0-9])([A-Z])", lambda m: "_" + m.group(1).lower(), name)
    return name


def of_library(text, crates):
    """What a file takes from elsewhere than this repository."""
    names = set()
    for m in USE.finditer(text):
        path = m.group(1).strip().rstrip(".").split(".")
        if path[0] == "Rattle" and len(path) > 1 and path[1] in crates:
            continue
        for item in (m.group(2) or "").split(","):
            names.add(item.strip().split(" as ")[0].strip())
    return names


def own_names(files, crates):
    """What specs/ and proofs/ define, and names with a dash that they bind and don't take from the library."""
    names = set()
    for path in files:
        text = read(path)
        taken = of_library(text, crates)
        for line in bare(text).split("\n"):
            m = SIGNATURE.match(line)
            if m:
                names.add(m.group(1))
                if not re.search(r"[{(]", m.group(2)):
                    names.update(re.findall(NAME, m.group(2)))
            m = DECLARED.match(line)
            if m:
                names.add(m.group(1))
        for m in TOKEN.finditer(bare(text)):
            if "-" in m.group() and m.group() not in taken and "ℤ" not in m.group():
                names.add(m.group())
    return {n: respelled(n) for n in names if respelled(n) != n}


def turn(text, table, taken, comment):
    """Each name outside strings; in comments all but PROSE."""

    def name(m):
        n = m.group()
        return n if n in taken else table.get(n, n)

    lines = []
    for line in text.split("\n"):
        at = line.find(comment)
        code, said = (line, "") if at < 0 else (line[:at], line[at:])
        code = "".join(p if p.startswith('"') else TOKEN.sub(name, p) for p in re.split(r'("[^"\n]*")', code))
        said = TOKEN.sub(lambda m: m.group() if m.group() in PROSE else name(m), said)
        lines.append(code + said)
    return "\n".join(lines)


def in_ticks(text, table):
    return re.sub(r"`[^`\n]+`", lambda q: TOKEN.sub(lambda m: table.get(m.group(), m.group()), q.group()), text)


def main():
    crates = set(os.listdir("crates"))
    antt = listed(["crates/*/specs/*.antt", "crates/*/proofs/*.antt"])
    lemmas = [f for f in antt if f.count("/") == 3]
    rust = listed(["crates/*/src/*.rt"])
    edits = listed(["crates/*/must-fail/*.edit"])
    pages = listed(["README.md", "CONTRIBUTING.md", "docs/*.md", "workbench/*.md"])
    table = own_names(lemmas, crates)
    for path in antt + rust:
        text = read(path)
        write(path, turn(text, table, of_library(text, crates), "//" if path.endswith(".rt") else "--"))
    for path in edits:
        write(path, turn(read(path), table, set(), "\0"))
    for path in pages:
        write(path, in_ticks(read(path), table))
    for path in [f for f in lemmas if f.endswith("/specs/Contracts.antt")]:
        subprocess.check_call(["git", "mv", path, path.replace("Contracts.antt", "Promises.antt")])
    for path in listed(["crates/*/specs/*.antt", "crates/*/proofs/*.antt"]) + rust + edits + pages:
        text = read(path)
        text = re.sub(r"(\bspecs[./])Contracts\b", r"\1Promises", text)
        write(path, re.sub(r"^pub mod Contracts$", "pub mod Promises", text, flags=re.M))


main()
