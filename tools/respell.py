#!/usr/bin/env python3
"""Brings the repository's own antt names to today's spelling, once, after Rattle's port.py.

Names of definitions, lemmas and fields that stand in camel case or with dashes go to snake case; types keep their
capitals. A lemma that would then have its function's name gets `_lem`. Kept: names that the files take from the
library, names that Rattle makes, and everything that is code, text or data. Crates named as one of the kit's get
another name.

usage: python3 tools/respell.py          at the top of the repository; prints each name with its new spelling
"""

import collections
import glob
import os
import re
import sys

CRATES = {"bytes": "byte_fields", "unicode": "unicode_forms"}
DEFINES = re.compile(r"^\s*((?:(?:unfoldable|abbrev|pub|data|record|ruleset)\s+)*)([^\s(){}.,;:=]+)\s*(?:[({][^)}]*[)}]\s*)*(?::\s|=\s)")
TOKEN = re.compile(r"[^\s(){}.,;\[\]`\"]+")
IMPORT = re.compile(r"use\s+([^\s{;]+?)\.\{([^}]*)\}")
MADE = re.compile(r"(invariant|decreases)-|.*\u03bc|\+")
WALKED = re.compile(r"\b[A-Za-z\u03ba]+(?:\.[^\s(){},;.]+)*\.(?:before|ensures|given|invariant|requires|args)\b(?:\.[^\s(){},;.]+)*")
PATH = re.compile(r"Rattle(?:\.[^\s(){},;.]+)+")
# a field of another record in the same file has the plain name
CHOSEN = {"valueIn": "placed_value"}


def antt_files():
    return sorted(glob.glob("crates/*/specs/**/*.antt", recursive=True) + glob.glob("crates/*/proofs/**/*.antt", recursive=True))


def read(path):
    with open(path, encoding="utf-8") as f:
        return f.read()


def is_our_module(path, crates):
    parts = path.split(".")
    return parts[0] == "Rattle" and len(parts) > 1 and parts[1] in crates


def snake(name):
    return re.sub(r"([a-z0-9])([A-Z])", lambda m: m.group(1) + "_" + m.group(2).lower(), name).replace("-", "_")


def names(files):
    crates = {p.split("/")[1] for p in files}
    own, taken = {}, set()
    for path in files:
        text = read(path)
        for m in IMPORT.finditer(text):
            if not is_our_module(m.group(1), crates):
                taken.update(TOKEN.findall(m.group(2)))
        for line in text.splitlines():
            m = DEFINES.match(line)
            if m and not line.lstrip().startswith("--"):
                own.setdefault(m.group(2), path)
    for path in glob.glob("crates/*/src/**/*.rt", recursive=True):
        for m in IMPORT.finditer(read(path)):
            if not is_our_module(m.group(1), crates):
                taken.update(TOKEN.findall(m.group(2)))
    return own, taken


def spelling(own, taken):
    """The new name of each name that changes."""
    wanted = collections.defaultdict(list)
    operators = {}
    for name in own:
        m = re.fullmatch("\u25cc([a-z]\\w*)\u25cc", name)
        if m and snake(m.group(1)) != m.group(1):
            operators[name] = "\u25cc" + snake(m.group(1)) + "\u25cc"
            operators[m.group(1)] = snake(m.group(1))
    for name in own:
        if name in taken or MADE.match(name) or not name[0].islower() or snake(name) == name:
            continue
        wanted[snake(name)].append(name)
    new = dict(CHOSEN) | operators
    for to, group in wanted.items():
        function = [n for n in group if "-" not in n]
        for name in group:
            if name in new:
                continue
            clash = to in own or to in taken or bool(function)
            new[name] = to + "_lem" if "-" in name and clash else to
    return new


def lemmas_aside(own, new):
    """Lemmas in proofs/ that a function's new name meets in some file: the module of each, and its new name."""
    return {to: own[to] for old, to in new.items() if "-" not in old and to in own and "/proofs/" in own[to]}


def uses(text, path, name, home):
    crate, inner = re.match(r"crates/([^/]+)/proofs/(.*)\.antt$", home).groups()
    module = "Rattle." + crate + ".proofs." + inner.replace("/", ".")
    return path == home or any(m.group(1) == module and name in TOKEN.findall(m.group(2)) for m in IMPORT.finditer(text))


def set_aside(text, path, lemmas):
    for name, home in lemmas.items():
        if path.endswith(".antt") and uses(text, path, name, home):
            text = re.sub(r"(?<![^\s(){},;])" + re.escape(name) + r"(?![^\s(){}.,;])", name + "_lem", text)
    return text


def proof_of(path):
    """The name under which the proof of a folder proofs/F or proofs/+CYCLE stands, by its older spelling."""
    m = re.search(r"/proofs/(?:.*/)?([^/]+)/Proof\.antt$", path)
    return m and m.group(1).replace("_", "-") + "-spec", m and m.group(1) + "_spec"


def respelled(text, new, path):
    kept = []

    def keep(m):
        kept.append(m.group(0))
        return f"\x00{len(kept) - 1}\x00"

    if path.endswith((".rt", ".edit")):
        text = re.sub(r'"(?:[^"\\\n]|\\.)*"', keep, text)
    if "/proofs/" in path:
        text = WALKED.sub(keep, text)
        older, today = proof_of(path)
        if older:
            text = re.sub(r"(?<![^\s(){}.,;])" + re.escape(older) + r"(?![^\s(){}.,;])", today, text)
    text = PATH.sub(keep, text)
    text = TOKEN.sub(lambda m: new.get(m.group(0), m.group(0)), text)
    while "\x00" in text:
        text = re.sub("\x00(\\d+)\x00", lambda m: kept[int(m.group(1))], text)
    return text


def rename_crates():
    for old, new in CRATES.items():
        if os.path.isdir("crates/" + old):
            os.rename("crates/" + old, "crates/" + new)
    words = re.compile(r"\b(" + "|".join(CRATES) + r")\b")
    listed = words.sub(lambda m: CRATES[m.group(1)], read("crates.txt"))
    with open("crates.txt", "w", encoding="utf-8") as f:
        f.write(listed)
    path = re.compile(r"(?<![\w.:])(Rattle\.)?(" + "|".join(CRATES) + r")(?=\.(?:specs|proofs)\b|::)")
    for name in antt_files() + sorted(glob.glob("crates/*/src/**/*.rt", recursive=True) + glob.glob("crates/*/must-fail/*.edit")):
        text = read(name)
        turned = path.sub(lambda m: (m.group(1) or "") + CRATES[m.group(2)], text)
        if turned != text:
            with open(name, "w", encoding="utf-8") as f:
                f.write(turned)


def main():
    rename_crates()
    files = antt_files()
    own, taken = names(files)
    new = spelling(own, taken)
    for path in files:
        older, today = proof_of(path)
        if older:
            new.pop(older, None)
    lemmas = lemmas_aside(own, new)
    for old in sorted(new):
        print(old, new[old])
    for name in sorted(lemmas):
        print(name, name + "_lem", "in", lemmas[name])
    for path in files + sorted(glob.glob("crates/*/src/**/*.rt", recursive=True) + glob.glob("crates/*/must-fail/*.edit")):
        text = read(path)
        turned = respelled(set_aside(text, path, lemmas), new, path)
        if turned != text:
            with open(path, "w", encoding="utf-8") as f:
                f.write(turned)
    return 0


if __name__ == "__main__":
    sys.exit(main())
