#!/usr/bin/env python3
"""Brings the repository's own definitions, lemmas, constructors and fields of specs/ and proofs/ to one spelling.

usage: python3 tools/respell.py [--list]      at the top of the repository, once, right after the kit's port.py

Facts and types are written in upper camel case, everything else in snake case; a dash becomes an underscore.
A name in upper camel case that is neither, as that of a constructor, stays. Names that the check makes stay: those of answers, invariants and measures.
One table serves all crates. It rewrites crates/**/*.antt whole, crates/**/*.rt outside strings and comments, and what stands between backticks in README.md and docs/.
A name that an import gives with `as` stays.
With --list it writes nothing and prints each old name with its new one. It stops where a new name is in use already.
"""

import collections
import glob
import os
import re
import sys

WORD = r"[^\s(){}\[\].,;:@\"`]+"
# A dash stays where it joins the names of two functions.
JOINED = {"length-hexLine": "length-hex_line", "length-hex_line": "length-hex_line"}


def files(ending):
    return sorted(p for p in glob.glob("crates/*/**/*" + ending, recursive=True) if "/out/" not in p)


def text(path):
    with open(path, encoding="utf-8") as f:
        return f.read()


def names():
    """Each own name with whether it states a fact or a type, and those that the check makes."""
    own, made = collections.OrderedDict(), set()
    for path in files(".antt"):
        for line in text(path).splitlines():
            m = re.match(r"^( {0,4})((?:(?:pub|abbrev|unfoldable|record|data) )*)(" + WORD + r")( .*)?$", line)
            if not m or line.lstrip().startswith(("--", "use ", "pub use ", "mod ", "pub mod ", "unfolding ", "open ", "let ", "|")):
                continue
            words, name, rest = m.group(2).split(), m.group(3), m.group(4) or ""
            typed = "record" in words or "data" in words
            if not typed and not rest.startswith(" : "):
                continue
            if re.match(r"^ : goal\.", rest):
                made.add(name)
                continue
            fact = typed or bool(re.search(r"(→|:) Type \d$", rest))
            own[name] = own.get(name, False) or fact
    return own, made


def respelled(name, fact):
    if name in JOINED or not re.match(r"^[A-Za-z][\w'-]*$", name):
        return JOINED.get(name, name)
    if fact:
        return "".join(w[:1].upper() + w[1:] for w in re.split(r"[-_]", name))
    n = re.sub(r"(?<=[a-z0-9])([A-Z])", lambda m: "_" + m.group(1).lower(), name)
    return n.replace("-", "_")


def table():
    own, made = names()
    turned = {}
    for name, fact in own.items():
        if name[0].isupper() and not fact:
            continue
        new = respelled(name, fact)
        if new != name and name not in made:
            turned[name] = new
    return own, turned


def tokens(s):
    """The words of a file, but for the steps of a path."""
    return re.findall(WORD, re.sub(r"Rattle(\.\w+)+", "", s))


def turn(s, turned):
    return re.sub(WORD, lambda m: turned.get(m.group(0), m.group(0)), s)


def turn_source(s, turned):
    """Only outside of string literals and comments."""
    parts = re.split(r'("(?:[^"\\]|\\.)*"|//[^\n]*)', s)
    return "".join(p if i % 2 else turn(p, turned) for i, p in enumerate(parts))


def turn_page(s, turned):
    return re.sub(r"`[^`\n]+`", lambda m: turn(m.group(0), turned), s)


def main():
    if not os.path.isdir("crates"):
        sys.exit("respell: run it at the top of the repository")
    if any("Rattle\u00b7" in text(p) for p in files(".antt")):
        sys.exit("respell: run the kit's port.py first")
    own, turned = table()
    seen = set()
    for path in files(".antt"):
        seen |= set(tokens(text(path)))
    clash = sorted((a, b) for a, b in turned.items() if b in seen or b in own)
    back = collections.defaultdict(list)
    for a, b in turned.items():
        back[b].append(a)
    clash += sorted((" ".join(a), b) for b, a in back.items() if len(a) > 1)
    outside = set()
    for path in files(".antt") + files(".rt"):
        for m in re.finditer(r"use (Rattle\.(\w+)\.[\w.]+)\.\{([^}]*)\}", text(path)):
            if not os.path.isdir("crates/" + m.group(2)):
                outside |= {w for w in re.split(r"[,\s]+", m.group(3)) if w}
    clash += [(a, turned[a] + ", but the library has " + a) for a in turned if a in outside]
    if "--list" in sys.argv:
        for a, b in turned.items():
            print(a, b)
        for a, b in clash:
            print("falls together:", a, "->", b)
        return
    if clash:
        sys.exit("respell: falls together: " + ", ".join(a + " -> " + b for a, b in clash))
    changed = 0
    for path in files(".antt") + files(".rt") + ["README.md"] + sorted(glob.glob("docs/*.md")):
        s = text(path)
        t = turn(s, turned) if path.endswith(".antt") else turn_source(s, turned) if path.endswith(".rt") else turn_page(s, turned)
        if t != s:
            changed += 1
            with open(path, "w", encoding="utf-8") as f:
                f.write(t)
    print(f"respell: {len(turned)} names, {changed} files")


if __name__ == "__main__":
    main()
