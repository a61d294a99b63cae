#!/usr/bin/env python3
"""Spells the repository's own definitions, lemmas, fields and constructors in snake case: payloadAt is payload_at, a-step-stays-good is a_step_stays_good.

usage: respell.py [--look] [ROOT]

Run once, behind port.py. It goes by text: a name that specs/ or proofs/ declare is respelled where the file declares it, imports it from a crate of the
repository, names it behind a dot, or gives it as a field. A name that a file imports from the library stays there. Names of src/ are Rust's and stay.
--look writes nothing and prints the names that would fall together with another in one file.
"""
import os
import re
import sys

LOOK = "--look" in sys.argv
ROOT = next((a for a in sys.argv[1:] if not a.startswith("-")), ".")
NAME = r"[^\s(){}.;,@\"«»\[\]\\:=]+"
TOKEN = re.compile(r"--[^\n]*|//[^\n]*|\"(?:[^\"\\]|\\.)*\"|«[^»]*»|" + NAME)
USE = re.compile(r"\buse (Rattle\.[^\s;{]+|[A-Za-z][^\s;{]*?)\.?(?:\{([^}]*)\})?(?: as (\S+))?[ \t]*;?[ \t]*(?=\n|$)")
# What falls together with a parameter, a local or another name, and so gets a name of its own.
OTHERWISE = {"is-nan": "is_nan_lem", "at-start": "at_start", "copy-room": "copy_room_lem", "lent-all": "lent_all_lem"}


def files(*ends):
    for folder, dirs, names in os.walk(os.path.join(ROOT, "crates")):
        dirs[:] = sorted(d for d in dirs if d not in ("out", "must-fail"))
        for n in sorted(names):
            if n.endswith(ends):
                yield os.path.join(folder, n)


def read(path):
    with open(path, encoding="utf-8", newline="") as f:
        return f.read()


def of_a_function(path):
    """Whether a file is of one function's proof, which stands in a folder of its own below proofs/."""
    name = os.path.basename(path) in ("Proof.antt", "Answers.antt", "Invariants.antt")
    return name and os.path.basename(os.path.dirname(path)) not in ("specs", "proofs")


def snake(name):
    if name in OTHERWISE:
        return OTHERWISE[name]
    if name[:1].isupper():
        return name
    words = re.sub(r"(?<=[a-z0-9])([A-Z])", lambda m: "_" + m[1].lower(), name)
    return re.sub(r"(?<=[\w'₀-₉])-(?=[\w₀-₉])", "_", words)


DECLARED = re.compile(r"(?m)^( *)(?:(?:pub|abbrev|unfoldable|private) )*(" + NAME + r")((?: \{[^{}\n]*\})*) :(?=\s)")


def declared():
    out = {}
    for p in files(".antt"):
        if of_a_function(p):
            continue
        for m in DECLARED.finditer(read(p)):
            n = m[2]
            if n not in ("record", "data", "module", "let", "in", "where", "use", "elim"):
                out.setdefault(n, set()).add(p)
    return out


OWN = {d for d in os.listdir(os.path.join(ROOT, "crates"))}


def is_own(path):
    steps = path.split(".")
    return steps[0] == "Rattle" and len(steps) > 1 and steps[1] in OWN


def from_library(text):
    out = set()
    for m in USE.finditer(text):
        if not is_own(m[1]):
            for item in (m[2] or "").split(","):
                item = item.strip()
                if item:
                    out.add(item.split(" as ")[-1])
                    out.add(item.split(" as ")[0])
    return out


def turned(text, table, stays, rust):
    # in Rust only what stands in a clause, a ghost item or behind Rattle. is respelled: the caller gives such pieces
    def one(m):
        t = m[0]
        if t[:2] in ("--", "//"):
            return re.sub(r"`([^`\s]+)`", lambda q: "`" + table.get(q[1], q[1]) + "`", t)
        if t[0] in "\"«":
            return t
        if t in stays or t not in table:
            return t
        return table[t]
    return TOKEN.sub(one, text)


CLAUSE = re.compile(r"\b(?:requires\*?|ensures\*?)(?: \w+)? \{|\bghost \w+:? ?\{|\bghost \w+: \{")


def clauses(text):
    """The spans of a .rt file that are antt: ghost use lines, clauses, ghost fields."""
    spans = []
    for m in re.finditer(r"(?m)^\s*ghost use [^;]*;", text):
        spans.append((m.start(), m.end()))
    for m in CLAUSE.finditer(text):
        depth, i = 0, text.index("{", m.start())
        while True:
            depth += {"{": 1, "}": -1}.get(text[i], 0)
            i += 1
            if depth == 0:
                break
        spans.append((m.start(), i))
    return sorted(spans)


def main():
    names = declared()
    table = {n: snake(n) for n in names if snake(n) != n}
    # where a definition and a lemma would have one name, the lemma gets _lem
    groups = {}
    for n in names:
        groups.setdefault(table.get(n, n), set()).add(n)
    for new, olds in groups.items():
        camel = any(re.search("[a-z0-9][A-Z]", o) for o in olds)
        for o in olds:
            if len(olds) > 1 and not re.search("[a-z0-9][A-Z]", o) and (camel or "-" in o) and o not in OTHERWISE:
                table[o] = new + "_lem"
    # two names for one
    back = {}
    for n in names:
        back.setdefault(table.get(n, n), set()).add(n)
    for new, olds in sorted(back.items()):
        if len(olds) > 1:
            print("together:", new, "of", ", ".join(sorted(olds)), "|", "; ".join(sorted({os.path.relpath(p, ROOT) for o in olds for p in names[o]})[:6]))
    for p in files(".antt", ".rt"):
        text = read(p)
        stays = from_library(text if p.endswith(".antt") else "\n".join(re.findall(r"(?m)^\s*ghost (use [^;]*;)", text)))
        if p.endswith(".antt"):
            tokens = set(m[0] for m in TOKEN.finditer(text) if m[0][:2] != "--")
            for n in sorted(tokens & set(table)):
                if n not in stays and table[n] in tokens:
                    print("look:", os.path.relpath(p, ROOT), n, "beside", table[n])
            new = turned(text, table, stays, False)
        else:
            new, at = "", 0
            for a, b in clauses(text):
                if a < at:
                    continue
                new += text[at:a] + turned(text[a:b], table, stays, True)
                at = b
            new += text[at:]
            for m in re.finditer(r"(?ms)\bfn (\w+)[^;{]*?\((.*?)\)(?: ->[^{]*?)?(?=\n\s+(?:requires|ensures)|\s*\{)", new):
                params = set(re.findall(r"(\w+):", m[2]))
                end = new.find("\n{", m.end())
                cl = new[m.end():end if end > 0 else m.end()]
                cited = {t[0] for t in TOKEN.finditer(cl)}
                olds = {table[t] for t in table}
                for q in sorted(params & cited & olds):
                    # only where the name is imported as a definition here
                    if re.search(r"ghost use [^;]*[{, ]" + q + r"[},]", new):
                        print("parameter:", os.path.relpath(p, ROOT), m[1], q)
        if new != text and not LOOK:
            with open(p, "w", encoding="utf-8", newline="") as f:
                f.write(new)
    print(len(table), "names respelled", file=sys.stderr)


main()
