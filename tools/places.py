#!/usr/bin/env python3
"""Counts the places of docs/DESIGN-PASS.md in the src/ of the listed crates: `python3 tools/places.py`, with `-v` each of them."""
import glob
import re
import sys

EMPTY = "Nothing|Broken|Bad|Refused|Out|Failed|Nowhere|Other|None"


def crates():
    for line in open("crates.txt"):
        line = line.split("#")[0].strip()
        if line:
            yield line.split(":")[0].split()[0]


def files():
    for crate in crates():
        for path in sorted(glob.glob(f"crates/{crate}/src/**/*.rt", recursive=True)):
            yield path, open(path).read()


KEYWORDS = set("as break else false fn for if in let loop match move mut ref return self true while".split())


def clauses_out(text):
    """the text without the clauses of contracts"""
    text = re.sub(r"^    (requires|ensures)( \w+)? \{(?:[^{}\n]|\{[^{}]*\})*\}\n", "", text, flags=re.M)
    return re.sub(r"^    (requires|ensures)( \w+)? \{.*?\}\n(?=\{|    requires|    ensures)", "", text, flags=re.M | re.S)


def code(text):
    return re.sub(r"//[^\n]*", "", text)


def shaped():
    """enums one of whose cases says that there is nothing, or why not"""
    for path, text in files():
        for m in re.finditer(r"\benum (\w+) \{\n(.*?)\n\}", code(text), re.S):
            names = re.findall(r"^    (\w+)", m.group(2), re.M)
            if len(names) <= 5 and any(re.fullmatch(EMPTY, n) for n in names):
                yield f"{path}: {m.group(1)} ({', '.join(names)})"


def flagged():
    """structs with a flag"""
    for path, text in files():
        for m in re.finditer(r"\bstruct (\w+) \{\n(.*?)\n\}", code(text), re.S):
            if re.search(r": bool,", m.group(2)):
                yield f"{path}: {m.group(1)}"


def numbered():
    """refusals, faults and kinds written as numbers: literals that are answered, and functions that answer one"""
    for path, text in files():
        for n, line in enumerate(code(text).split("\n"), 1):
            if re.search(r"Refused\(\d+\)|return (1[6-9]|2[0-9]);|^    (1[6-9]|2[0-5])$|fault: \d+|=> \d+ as u8|: u8\) -> (?:RunResult|Halt)|-> u8$", line):
                yield f"{path}:{n}: {line.strip()}"


def counted():
    """while loops that count an index by hand"""
    for path, text in files():
        text = code(text)
        for m in re.finditer(r"\n( *)while ([^\n]*)\{\n(.*?)\n\1\}", text, re.S):
            for name in set(re.findall(r"\b[a-z]\w*\b", m.group(2))):
                inside = r"\n" + m.group(1) + r"    " + name
                if re.search(inside + r" (\+= 1|-= 1|= " + name + r" [+-] 1);", "\n" + m.group(3)):
                    yield f"{path}: while {m.group(2).strip()}"
                    break


def whiles():
    """all while loops"""
    for path, text in files():
        for m in re.finditer(r"\n *while ([^\n]*)\{", code(text)):
            yield f"{path}: while {m.group(1).strip()}"


def parameters():
    """functions of eight parameters or more"""
    for path, text in files():
        for m in re.finditer(r"\bfn (\w+)[^(]*\(([^{]*?)\)(?= ->|\n)", code(text)):
            if len(re.findall(r"\w+: ", m.group(2))) >= 8:
                yield f"{path}: {m.group(1)}"


def twins():
    """functions that are another one of the repository but for names and numbers"""
    seen = {}
    for path, text in files():
        for m in re.finditer(r"\bfn (\w+)[^{]*?\n\{\n(.*?)\n\}", clauses_out(code(text)), re.S):
            order = {}
            shape = []
            for token in re.findall(r"[A-Za-z_]\w*|\d\w*|\S", m.group(2)):
                if token[0].isdigit():
                    token = "0"
                elif (token[0].isalpha() or token[0] == "_") and token not in KEYWORDS:
                    token = str(order.setdefault(token, len(order)))
                shape.append(token)
            if len(shape) >= 24:
                seen.setdefault(tuple(shape), []).append(f"{path}: {m.group(1)}")
    for group in seen.values():
        for place in group[1:]:
            yield f"{place} (as {group[0]})"


def main():
    for name in (shaped, flagged, numbered, twins, counted, whiles, parameters):
        places = list(name())
        print(f"{len(places):4} {name.__doc__}")
        if "-v" in sys.argv:
            for place in places:
                print("      " + place)


main()
