#!/usr/bin/env python3
"""Respells the repository's own definitions and lemmas as today's Rattle spells words; run once, right behind the kit's port.py.

    python3 tools/respell.py [--dry]

A definition, constructor or field in camel case becomes snake case. In a name with dashes a dash stays where it joins two names; elsewhere it becomes '_'.
A lemma that would have a definition's name gets '_lem'. Names of types, of modules, of what src/ declares and of the library stay, and so do strings.
"""
import os
import re
import sys

ROOT = os.path.dirname(os.path.dirname(os.path.realpath(__file__)))
TOKEN = re.compile(r"[^\s(){}\[\];,.\"`]+")
TOGETHER = re.compile(r"^\s+(?:pub )?([a-z]\w*(?: [a-z]\w*)+) : ")
DECLARED = re.compile(r"^\s*(?:(?:pub|abbrev|unfoldable|record|data)\s+)*([^\s(){}\[\];,.\"]+)\s+:\s")
FIELDS = {"open_mark"}
SKIP = {"let", "λ", "--", "use", "ghost", "where", "in", "|", "infix", "infixl", "infixr"}


def files(ending, below=("specs", "proofs")):
    for folder, dirs, names in os.walk(os.path.join(ROOT, "crates")):
        dirs[:] = sorted(d for d in dirs if d not in ("out", "target", "data"))
        for n in sorted(names):
            if n.endswith(ending):
                yield os.path.join(folder, n)


def read(p):
    with open(p, encoding="utf-8") as f:
        return f.read()


def is_own(p):
    """A file of definitions or lemmas: right in specs/ or proofs/."""
    return os.path.basename(os.path.dirname(p)) in ("specs", "proofs") and p.endswith(".antt")


def declared():
    own, library, more = set(), set(), set()
    for p in files(".antt"):
        t = read(p)
        for line in t.split("\n"):
            m = re.match(r"\s*(?:pub )?use ([^\s{]+)\.\{(.*)\}", line)
            if m:
                crate = m.group(1).split(".")
                if crate[0] != "Rattle" or crate[1] == "std":
                    for item in m.group(2).split(","):
                        library.add(item.split(" as ")[0].strip())
                continue
            if is_own(p):
                m = DECLARED.match(line)
                if m and m.group(1) not in SKIP:
                    own.add(m.group(1))
                m = TOGETHER.match(line)
                if m and m.group(1).split()[0] not in ("let", "pub", "abbrev", "unfoldable", "record", "data"):
                    more.update(m.group(1).split())
    for p in files(".rt"):
        for m in re.finditer(r"ghost use ([^\s{]+)\.\{([^}]*)\}", read(p)):
            crate = m.group(1).split(".")
            if crate[0] != "Rattle" or crate[1] == "std":
                library.update(i.split(" as ")[0].strip() for i in m.group(2).split(","))
    return own, library, more


def snake(name):
    return re.sub(r"(?<=[a-z0-9'])([A-Z])", lambda m: "_" + m.group(1).lower(), name)


def dashed(name, words):
    parts = name.split("-")
    if any(not p for p in parts):
        return name
    ends = [any("_".join(parts[j:i + 1]) in words for j in range(i + 1)) for i in range(len(parts))]
    starts = [any("_".join(parts[i:j + 1]) in words for j in range(i, len(parts))) for i in range(len(parts))]
    out = parts[0]
    for i in range(1, len(parts)):
        out += ("-" if ends[i - 1] and starts[i] else "_") + parts[i]
    return out


def spelling(own, library):
    cased = {n: snake(n) for n in own if n[:1].islower() and re.search("[A-Z]", n) and n not in library}
    words = {cased.get(n, n) for n in own if "-" not in n and len(n) > 1} | {n for n in library if "-" not in n and len(n) > 1}
    words = {w for w in words if w.isascii()}
    new = {}
    for n in sorted(own - library):
        to = cased.get(n, n)
        if "-" in to and to[:1].islower():
            to = dashed(to, words)
        if to != n:
            new[n] = to
    taken, late = own - set(new), {}
    for n in sorted(new, key=lambda n: ("-" in n, n)):
        if "-" not in n and new[n] in taken and new[n] not in FIELDS:
            late[new[n]] = new[n] + "_lem"
        while "-" in n and new[n] in taken or new[n] in library:
            new[n] += "_lem"
        taken.add(new[n])
    return new, late


def respell(text, new, late={}):
    """Every token outside strings; a lemma that gives its name up, where it is no part of a path."""
    out, inside = [], False
    for piece in re.split(r'(")', text):
        if piece == '"':
            inside = not inside
            out.append(piece)
        elif inside:
            out.append(piece)
        else:
            out.append(TOKEN.sub(lambda m: named(m, piece, new, late), piece))
    return "".join(out)


def named(m, text, new, late):
    word = m.group(0)
    if word in new:
        return new[word]
    return word if "." in (text[m.start() - 1:m.start()], text[m.end():m.end() + 1]) else late.get(word, word)


def lines(text, new, late={}):
    return "\n".join(respell(line, new, late) for line in text.split("\n"))


def in_source(text, new):
    cased = {a: b for a, b in new.items() if "-" not in a}
    out = []
    for line in text.split("\n"):
        clause = re.match(r"\s*(ghost|requires|ensures)\b", line)
        out.append(respell(line, new if clause else cased))
    return "\n".join(out)


def in_page(text, new):
    return re.sub(r"`[^`\n]+`", lambda m: TOKEN.sub(lambda w: new.get(w.group(0), w.group(0)), m.group(0)), text)


def main():
    own, library, more = declared()
    new, late = spelling(own, library)
    new.update({n: snake(n) for n in more - library if n not in new and snake(n) != n})
    if "--cased" in sys.argv:
        new, late = {a: b for a, b in new.items() if "-" not in a and snake(a) != a}, {}
    if "--dry" in sys.argv:
        for a, b in sorted(new.items()):
            print(a, b)
        print(late)
        return
    changed = 0
    pages = [os.path.join(ROOT, p) for p in ("README.md", "CONTRIBUTING.md")]
    for folder, dirs, names in os.walk(os.path.join(ROOT, "docs")):
        pages += [os.path.join(folder, n) for n in names if n.endswith(".md")]
    for ps, how in ((files(".antt"), lambda t, new: lines(t, new, late)), (files(".rt"), in_source), (files(".edit"), lines), (pages, in_page)):
        for p in ps:
            t = read(p)
            u = how(t, new)
            if u != t:
                with open(p, "w", encoding="utf-8") as f:
                    f.write(u)
                changed += 1
    print(f"respell: {len(new)} names in {changed} files")


main()
