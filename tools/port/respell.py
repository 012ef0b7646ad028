#!/usr/bin/env python3
"""Respells this repository's own definitions, lemmas, fields and variables in snake case, once, on what port.py wrote.

usage: tools/port/respell.py [--dry]     at the top of the repository

Words are in snake case, types and modules in camel case. A name that starts with a small letter and has a capital behind it, or a dash, is turned:
headerLength is header_length, key-store is key_store. Names of the library stay, and so do names that Rattle makes (goals, steps), the functions
of src/, strings and file names. Clauses of src/, comments' code spans, specs/, proofs/ and must-fail/ are turned alike.
It prints names that fall together in one file."""

import collections
import glob
import os
import re
import sys

TOKEN = re.compile(r'[^\s(){}.;,@"«»`:\[\]]+')
# lemmas that have their definition's name once all is turned: by dashes, and those that port.py has turned already, in these files
LEMMAS = {"due-at"}
TURNED = {
    "all_true": ("scheme/proofs/Rules", "checks/proofs/Fitting", "claims/proofs/Steps/Fits", "seeking/proofs/Seeking"),
    "same_bytes": ("scheme/proofs/Bytes",),
    "entry_length": ("scheme/proofs/Items", "claims/proofs/Steps/Entries"),
}
COMMENT = re.compile(r"(--|//)[^\n]*")
SPAN = re.compile(r"`[^`\n]*`")


def text(p):
    with open(p, encoding="utf-8") as f:
        return f.read()


def snake(w):
    w = w.replace("-", "_")
    return re.sub(r"(?<=[a-z0-9₀-₉])([A-Z])", lambda m: "_" + m[1].lower(), w) if re.match(r"[a-z]", w) else w


def turns(w):
    return bool(re.match(r"[A-Za-zΣσ]", w)) and (("-" in w.strip("-") and not w.startswith("--")) or re.match(r"[a-z]\w*[A-Z]", w)) and not w.endswith("-")


def lines_of(t):
    return [l for l in t.split("\n")]


DECL = re.compile(r"^\s*(?:(?:abbrev|unfoldable|pub|private|data|record)\s+)*([^\s(){}.;,@\"«»:]+)((?:\s*[({].*?[)}])*)\s+:\s")


def imports(t):
    """Names that a file takes from the library, and from our own modules."""
    kit, own = set(), set()
    for m in re.finditer(r"^(?:pub )?(?:ghost )?use ([^\s{;]+?)(?:\.\{([^}]*)\}|\.([^\s.{};]+))?(?: as (\S+?))?;?$", t, re.M):
        mine = m[1].startswith("Rattle.") and m[1].split(".")[1] in CRATES
        for part in (m[2] or m[3] or "").split(","):
            name = part.split(" as ")[0].strip()
            if name:
                (own if mine else kit).add(name)
    return kit, own


CRATES = set(os.listdir("crates"))


def main():
    dry = "--dry" in sys.argv
    antt = sorted(glob.glob("crates/*/specs/**/*.antt", recursive=True) + glob.glob("crates/*/proofs/**/*.antt", recursive=True))
    rt = sorted(glob.glob("crates/*/src/**/*.rt", recursive=True))
    edits = sorted(glob.glob("crates/*/must-fail/*.edit"))
    kit = set()
    own = set()
    declared = {}
    for p in antt + rt:
        kit |= imports(text(p))[0]
    for p in antt:
        walk = p.endswith("/Proof.antt")
        t = text(p)
        here = set()
        for l in t.split("\n"):
            m = DECL.match(l)
            if m and turns(m[1]) and not (walk and re.search(r":\s+(tie\.|statement|\{M : Type)", l)):
                here.add(m[1])
        if not walk:
            for w in TOKEN.findall(re.sub(r"--[^\n]*|^use [^\n]*", "", t, flags=re.M)):
                if turns(w) and w not in kit:
                    here.add(w)
        declared[p] = here
        own |= here
    both = own & kit
    own -= both
    # names that Rattle makes, of which our files of lemmas speak
    table = {w: snake(w) for w in own if snake(w) != w}
    # a lemma that would have its definition's name
    functions = {n for w, n in table.items() if "-" not in w}
    for w in table:
        if "-" in w and (table[w] in functions or w in LEMMAS):
            table[w] += "_lem"
    for w in sorted(both):
        print("both ours and the library's, left:", w)
    # fall together
    for p in antt + rt:
        t = re.sub(r"--[^\n]*|//[^\n]*", "", text(p))
        words = set(TOKEN.findall(t))
        new = collections.defaultdict(set)
        for w in words:
            new[table.get(w, w)].add(w)
        for n, ws in sorted(new.items()):
            if len(ws) > 1:
                print(f"falls together: {p}: {' '.join(sorted(ws))} -> {n}")

    def turn(s, p):
        here = dict(table)
        for w, files in TURNED.items():
            if any(p == f"crates/{f}.antt" for f in files):
                here[w] = w + "_lem"
        words = lambda s: TOKEN.sub(lambda m: here.get(m[0], m[0]), s)

        def line(l):
            m = re.search(r"(^|\s)(--|//)(\s|$)", l)
            at = m.start() if m else len(l)
            code, said = l[:at], l[at:]
            parts = re.split(r'(b?"(?:[^"\\]|\\.)*")', code)
            code = "".join(x if i % 2 else words(x) for i, x in enumerate(parts))
            return code + SPAN.sub(lambda m: words(m[0]), said)

        return "\n".join(line(l) for l in s.split("\n"))

    for p in antt + rt + edits:
        t = text(p)
        n = turn(t, p)
        if n != t and not dry:
            with open(p, "w", encoding="utf-8") as f:
                f.write(n)
    print(len(table), "names")


main()
