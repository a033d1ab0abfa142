#!/usr/bin/env python3
"""Brings the repository's own names to the spelling of today's Rattle, after /opt/rattle/port/port.py: definitions, lemmas, fields and constructors
in snake case (`textWidth` and `out-is` are `text_width` and `out_is`), facts and modules as they are; each crate's module specs.Contracts is
specs.Clauses, since Rattle makes a module specs.contracts. Names of src/, of the library and those that Rattle makes keep their spelling.

usage: tools/respell.py         at the top of the repository, once
       tools/respell.py --list  prints old and new names, and writes nothing
"""

import collections
import os
import re
import subprocess
import sys

TOKEN = re.compile(r"[^\s(){}\[\].;,\"«»λ@:`|]+")
SIGNATURE = re.compile(r"^ *(?:abbrev |unfoldable |pub )*([^\s(){}\[\].;,\"«»λ@:]+)(?: *\{[^{}]*\}| *\([^()]*\)| *[ℓκ])* *:(?!=)", re.M)
SEVERAL = re.compile(r"^ *(?:abbrev |unfoldable |pub )*((?:[^\s(){}\[\].;,\"«»λ@:]+ +)+[^\s(){}\[\].;,\"«»λ@:]+) *:(?!=)", re.M)
USE = re.compile(r"(?:pub )?use ([^\s{;]+?)(?:\.?\{([^}]*)\}| as [^\s;]+|;|$)", re.M)
# Lemmas of these files that a definition would fall together with: they get `_lem`.
LEMMAS = {
    "crates/blank/proofs/elements/put_elements/Proof.antt": ["text_at"],
    "crates/drafts/proofs/AnyStore.antt": ["is_name"],
    "crates/drafts/proofs/Series.antt": ["is_name"],
    "crates/plan/proofs/Reached.antt": ["range_size"],
    "crates/walk/proofs/Child.antt": ["leaf_walked"],
    "crates/walk/proofs/Leaves.antt": ["leaf_walked", "taken_in"],
}


def files():
    for folder, dirs, names in os.walk("crates"):
        dirs[:] = sorted(d for d in dirs if d != "out")
        for name in sorted(names):
            if name.endswith((".antt", ".rt")):
                yield os.path.join(folder, name)


def snake(name):
    if name.startswith("getD"):
        name = "get_or" + name[4:]
    name = re.sub(r"(?<=[a-z0-9])([A-Z])", lambda m: "_" + m.group(1).lower(), name)
    return name.replace("-", "_")


def own(path, crates):
    parts = path.split(".")
    return parts[0] == "Rattle" and len(parts) > 1 and parts[1] in crates


def table(texts, crates):
    """The new spelling of each name of our own that changes."""
    declared, kit = set(), set()
    for path, text in texts.items():
        if not path.endswith(".antt"):
            continue
        for m in USE.finditer(text):
            if not own(m.group(1), crates) and m.group(2):
                kit.update(re.split(r"[,\s]+", m.group(2)))
        if path.endswith("/Proof.antt"):
            continue
        declared.update(SIGNATURE.findall(text))
        for several in SEVERAL.findall(text):
            declared.update(several.split())
    names = {n for n in declared if re.match(r"[a-z]", n) and (re.search(r"[a-z0-9][A-Z]", n) or "-" in n)}
    both = names & kit
    new = {n: snake(n) for n in names - both}
    # A lemma that would have its definition's name, or another's of a file, gets `_lem`.
    for path, text in texts.items():
        here = set(TOKEN.findall(text))
        turned = collections.Counter(new.get(t, t) for t in here)
        for t in sorted(here):
            if "-" in t and t in new and turned[new[t]] > 1:
                new[t] = snake(t) + "_lem"
    return new, both


def main(argv):
    crates = set(os.listdir("crates"))
    texts = {p: open(p, encoding="utf-8").read() for p in files()}
    read = dict(texts)
    for path, names in LEMMAS.items():
        if path in texts:
            texts[path] = TOKEN.sub(lambda m: m.group(0) + "_lem" if m.group(0) in names else m.group(0), texts[path])
    new, both = table(texts, crates)
    clash = set()
    for path, text in texts.items():
        here = set(TOKEN.findall(text))
        turned = collections.defaultdict(set)
        for t in here:
            turned[new.get(t, t)].add(t)
        for n, olds in turned.items():
            if len(olds) > 1:
                clash.add((n, tuple(sorted(olds)), path))
    for n, olds, path in sorted(clash):
        print("together:", n, *olds, path)
    for n in sorted(both):
        print("also the library's:", n)
    if "--list" in argv:
        for n in sorted(new):
            print(n, new[n])
        return 0
    for path, text in texts.items():
        turned = TOKEN.sub(lambda m: new.get(m.group(0), m.group(0)), text)
        turned = re.sub(r"(Rattle\.\w+\.specs\.)Contracts\b", r"\1Clauses", turned)
        turned = re.sub(r"^(pub mod )Contracts$", r"\1Clauses", turned, flags=re.M) if path.endswith("specs/Lib.antt") else turned
        if turned != read[path]:
            open(path, "w", encoding="utf-8").write(turned)
    for path in texts:
        if path.endswith("/specs/Contracts.antt"):
            subprocess.run(["git", "mv", path, path.replace("Contracts.antt", "Clauses.antt")], check=True)
    return 0


if __name__ == "__main__":
    raise SystemExit(main(sys.argv[1:]))
