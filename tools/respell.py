#!/usr/bin/env python3
"""Respells the repository's own definitions and lemmas: functions, lemmas, fields and constructors in snake case, types in upper camel case.

usage: python3 tools/respell.py [--list]      at the top of the repository, once, after /opt/rattle/port/port.py
--list prints the table of names and writes nothing.

A name is the repository's own where an .antt file of a crate declares it. A dash stays in a lemma behind a word of the library, as in length-links,
and behind a type. Names that Rattle makes, names of the library, comments' prose, strings and Rust code stay as they are;
what a comment cites turns. The name on an `impl` goes, since impls have none.
"""

import os
import re
import sys

# words of the library, and of its operators, that a lemma's name joins by a dash
WORDS = set("le lt leb ltb eqb mul add sub div zero suc take drop set get_or sum_by sum count_by replicate range_with_len prefix_len length append nil cons map cond".split())
# names that would fall together with another's
OTHERWISE = {"number-of": "fault_number"}
TYPE_RESULT = re.compile(r"Type 0\s*$|Type 1\s*$|Type \d\s*$")


def files():
    for folder, dirs, names in os.walk("crates"):
        dirs[:] = sorted(d for d in dirs if d != "out")
        for f in sorted(names):
            if f.endswith((".antt", ".rt", ".edit")):
                yield os.path.join(folder, f)


def code_of(line):
    """A line of antt without its comment."""
    m = re.search(r"(^|\s)--(\s|$).*", line)
    return line[: m.start()] if m else line


TOKEN = re.compile(r"[^\s(){}\[\].,;:\"@«»=→λ×◌∷&|]+")


def declared():
    """Each name that a file of the repository declares, and whether each of its declarations is a type, a function of specs/ or anything else."""
    kinds = {}

    def add(name, kind):
        if "-" in name or re.match(r"[A-Z][A-Za-z0-9]*_", name):
            kinds.setdefault(name, set()).add(kind)

    for p in files():
        if not p.endswith(".antt"):
            continue
        part = p.split(os.sep)[2]
        lines = open(p, encoding="utf-8").read().split("\n")
        in_data = None
        for i, raw in enumerate(lines):
            line = code_of(raw)
            m = re.match(r"(\s*)((?:(?:abbrev|pub|unfoldable|opaque|pattern|instance|mutual)\s+)*)(?:(record|data)\s+)?([^\s:(){},.=|;]+)(.*)", line)
            if not m:
                continue
            indent, marks, word, name, rest = len(m[1]), m[2], m[3], m[4], m[5]
            if name in ("use", "mod", "module", "where", "let", "in", "unfolding", "λ", "elim"):
                name = ""
            for b in re.finditer(r"[({]([^(){}:;=]+?)\s+:\s", line):
                for w in b[1].split():
                    if TOKEN.fullmatch(w):
                        add(w, "name")
            if word:
                add(name, "type")
                continue
            d = re.match(r"((?:\s+[^\s:(){},.=|;]+)*)\s*:(\s|$)(.*)", rest) if name else None
            if d and not re.search(r"^\s*goal\.", d[3]):
                text = d[3] + " " + " ".join(code_of(l).strip() for l in lines[i + 1 : i + 4] if len(l) - len(l.lstrip()) > indent) if not d[3].strip() else d[3]
                kind = "type" if TYPE_RESULT.search(text.strip()) and not marks.startswith("data") and name[:1].isupper() else ("function" if part == "specs" and indent == 0 and name[:1].islower() else "name")
                add(name, kind)
                for other in d[1].split():
                    add(other, kind)
            # binders and lets
            for b in re.finditer(r"\blet\s+([^\s:(){},.=|;]+)\s*[:=]", line):
                add(b[1], "name")
            for b in re.finditer(r"λ\s+([^.=→()]+?)[.]", line):
                for w in b[1].split():
                    add(w, "name")
    for p in files():
        if not p.endswith(".edit"):
            for m in re.finditer(r"\bas ([^\s,}]+)\s*[,}]", open(p, encoding="utf-8").read()):
                add(m[1], "name")
    return kinds


def imported():
    """Names that come from a library that is not the repository's."""
    own = set(os.listdir("crates"))
    out = set()
    for p in files():
        if p.endswith(".edit"):
            continue
        for m in re.finditer(r"use\s+([\w.·'+-]+)\.\{([^}]*)\}", open(p, encoding="utf-8").read()):
            head = m[1].split(".")
            if head[0] == "Rattle" and len(head) > 1 and head[1] in own:
                continue
            for w in m[2].split(","):
                out.add(w.split(" as ")[0].strip())
    return out


def camel(name):
    return "".join(w[:1].upper() + w[1:] for w in re.split(r"[-_]", name))


def snake(name):
    """Underscores, but a dash behind a word of the library at the head, as in length-links."""
    head, _, tail = name.partition("-")
    return head + "-" + tail.replace("-", "_") if head in WORDS and tail else name.replace("-", "_")


def table():
    kinds, foreign = declared(), imported()
    turn = {}
    for n, k in sorted(kinds.items()):
        if n in foreign or not re.search(r"[A-Za-z]", n):
            continue
        if n[:1].isupper():
            # a lemma about a type keeps the type's capital and the dash behind it
            if "type" in k:
                turn[n] = camel(n)
            else:
                head, _, tail = n.partition("-")
                turn[n] = head + "-" + tail.replace("-", "_") if tail else camel(n)
        else:
            turn[n] = n.replace("-", "_") if "function" in k else snake(n)
    turn |= {a: b for a, b in OTHERWISE.items() if a in turn}
    return {a: b for a, b in turn.items() if a != b}


def main(argv):
    turn = table()
    if "--list" in argv:
        for a, b in sorted(turn.items()):
            print(a, b)
        return 0
    every = set()
    for p in files():
        if p.endswith(".antt"):
            every |= set(TOKEN.findall(open(p, encoding="utf-8").read()))
    taken = {}
    for a, b in turn.items():
        if b in every:
            print("falls together with a name that is there:", a, b)
        if b in taken:
            print("fall together:", a, taken[b], b)
        taken[b] = a
    ends = r"(?![^\s(){}\[\].,;:\"@«»=→λ×◌∷&|`])"
    words = re.compile(r"(?<![^\s(){}\[\].,;:\"@«»=→λ×◌∷&|`!])(" + "|".join(re.escape(w) for w in sorted(turn, key=len, reverse=True)) + ")" + ends)
    for p in files():
        text = open(p, encoding="utf-8").read()
        new = text
        if p.endswith(".rt"):
            new = re.sub(r"(\bimpl\b[^{;\n]*?)\s+as\s+(?:pub\s+)?\w+(\s*\{)", r"\1\2", new)
        new = words.sub(lambda m: turn[m[1]], new)
        if new != text:
            open(p, "w", encoding="utf-8").write(new)
    return 0


if __name__ == "__main__":
    sys.exit(main(sys.argv[1:]))
