#!/usr/bin/env python3
"""Brings the names that this repository's own texts declare to today's spelling, once, behind port.py.

usage: python3 tools/respell.py        at the top of the repository

Words are in snake case: `crcStep` is `crc_step`, `as-table` is `as_table`. In a lemma's name a dash stays, or comes back, where it joins the
names of two definitions: `stuff-append`. Types and modules keep their capitals. A name of the source, and a name that Rattle makes, keeps
its spelling: functions' own proof folders declare none of the names that are turned, and comments are left as they are but in backquotes.
A line that begins 'meet:' says that two names would fall together in a file; then nothing is written.
"""

import collections
import glob
import os
import re
import sys

NAME = r'[^\s(){}.;,@"«»]+'
TOKEN = re.compile(r'--[^\n]*|//[^\n]*|"(?:[^"\\\n]|\\.)*"|' + NAME)
QUOTED = re.compile(r"`[^`\n]+`")
SIGNED = re.compile(rf"^( *)((?:(?:abbrev|unfoldable|opaque|pub|data|record|ruleset) )*)({NAME}(?: {NAME})*?)(?: \{{[^{{}}\n]*\}})* (?::|=)(?=\s|$)")
# What the library's lemmas join to, beside the definitions of this repository.
JOINED = set("append length take drop nil cons snoc lt le eq step".split())

# Names that would meet a definition's, and are fields too.
APART = {"upper-seven": "upper_seven_is", "core-fits": "core_fits_lem"}


def snake(name):
    name = re.sub(r"(?<=[a-z0-9])([A-Z])(?=[a-z]|$|[-_'])", lambda m: "_" + m[1].lower(), name)
    return name.replace("-", "_")


def own(path):
    """Whether a file's declarations are this repository's own: those of a function's proof folder are not."""
    return not re.search(r"/proofs/.*/(Proof|Answers|Invariants)\.antt$", path)


def declared(text):
    """The names that a text declares, each with its kind: 'definition', 'field' or 'lemma'."""
    found, inside = {}, None
    for line in text.split("\n"):
        if line.strip().startswith("--") or not line.strip():
            continue
        m = SIGNED.match(line)
        if not line.startswith(" "):
            inside = "field" if re.match(r"(pub )?(record|data) ", line) else None
        if not m or (line.split() or [""])[0] in ("use", "module", "open", "let"):
            continue
        for name in m[3].split():
            if name in ("=", ":", "→") or not re.match(r"[^\W\d]", name):
                continue
            if m[1] and inside:
                kind = "field"
            elif re.search(r"\b(abbrev|unfoldable|data|record)\b", m[2]):
                kind = "definition"
            else:
                kind = "lemma"
            found.setdefault(name, kind)
    return found


def spelled(name, kinds, words):
    """Today's spelling of a name that has these kinds."""
    if name[0].isupper() and not re.match(r"[A-Z]-", name):
        return name
    if name in APART:
        return APART[name]
    flat = snake(name)
    if kinds != {"lemma"}:
        return flat
    if flat in words:
        return flat + "_lem"
    parts = flat.split("_")
    for i in range(1, len(parts)):
        left, right = "_".join(parts[:i]), "_".join(parts[i:])
        if "or" not in parts and (right in JOINED or left in words and right in words):
            return left + "-" + right
    return flat


def main():
    os.path.isdir("crates") or sys.exit("respell: run this at the top of the repository")
    texts = {}
    for path in sorted(glob.glob("crates/*/specs/**/*.antt", recursive=True) + glob.glob("crates/*/proofs/**/*.antt", recursive=True) + glob.glob("crates/*/src/**/*.rt", recursive=True)):
        with open(path, encoding="utf-8") as f:
            texts[path] = f.read()
    kinds, signed = collections.defaultdict(set), {}
    for path, text in texts.items():
        if path.endswith(".antt") and own(path):
            signed[path] = declared(text)
            for name, kind in signed[path].items():
                kinds[name].add(kind)
    words = {snake(n) for n, k in kinds.items() if "definition" in k or n[0].isupper()}
    source = {m[1] for path, text in texts.items() if path.endswith(".rt") for m in re.finditer(r"\b(?:fn|mod|let|let mut) (\w+)|(\w+):", text)}
    turned = {n: spelled(n, k, words) for n, k in kinds.items() if n not in source and (n not in words or snake(n) != n)}
    # A lemma whose name another script has turned already, and whose definition gets the same name now.
    lemmas = {n for n, k in kinds.items() if k == {"lemma"} and n not in source and any(snake(d) == n != d for d in kinds)}
    turned = {n: s for n, s in turned.items() if n != s} | {n: n + "_lem" for n in lemmas}

    # Two names of one file that would fall together.
    met = 0
    for path, text in texts.items():
        if not path.endswith(".antt"):
            continue
        seen = collections.defaultdict(set)
        for m in TOKEN.finditer(text):
            t = m[0]
            if not t.startswith(("--", '"')) and text[m.start() - 1] != ".":
                seen[turned.get(t, t)].add(t)
        for s, old in sorted(seen.items()):
            if len(old) > 1:
                print(f"meet: {path}: {', '.join(sorted(old))} would all be {s}")
                met += 1
    if met:
        sys.exit(1)

    def code(rt):
        def turn(m):
            t = m[0]
            if t.startswith(("--", "//")):
                return QUOTED.sub(lambda q: re.sub(NAME.replace("@", "@`"), lambda w: turned.get(w[0], w[0]), q[0]), t)
            return t if t.startswith('"') or (rt and t not in turned) else turned.get(t, t)
        return turn

    changed = 0
    for path, text in texts.items():
        new = TOKEN.sub(code(path.endswith(".rt")), text)
        if new != text:
            with open(path, "w", encoding="utf-8") as f:
                f.write(new)
            changed += 1
    for n, s in sorted(turned.items()):
        print(f"{n}\t{s}")
    print(f"respell: {len(turned)} names, {changed} files", file=sys.stderr)


main()
