#!/usr/bin/env python3
"""Spells the repository's own antt names in snake case, as the library spells its words.

usage: python3 tools/snake_names.py        at the top of the repository, once, right after the kit's port.py

A definition `bitSteps` becomes `bit_steps`, a lemma `check-gives` becomes `check_gives`. A dash stays where it joins the names of two
functions, as in `bit_steps-zero`. A lemma that would then have the name of something else gets `_lem`. Types and modules keep their
capitals. Files of specs/ and proofs/ are turned, the clauses of src/ and of the must-fail edits, and names between backticks in
README.md and docs/. It stops before it writes where two names would fall together.
"""

import collections
import os
import re
import sys

MODIFIERS = r"(?:(?:pub|abbrev|unfoldable|data|record)\s+)*"
DECLARED = re.compile(r"^\s*" + MODIFIERS + r"([^\s(){}\[\].;,:\"`]+)(?: [({][^)}]*[)}])* :(?:\s|$)")
WORD = re.compile(r"[^\s(){}\[\].;,:\"`]+")
# A word that is no part of a path and no field, or stands in the list of a `use` line.
BARE = re.compile(r"(?<![.\w'-])[^\s(){}\[\].;,:\"`]+")
TICKED = re.compile(r"`[^`\n]*`")
IMPORT = re.compile(r"^use ([\w.+-]+)\.\{([^}]*)\}")
# Words of the library that are names of functions: behind one of ours, a dash joins the two names.
FUNCTIONS = set("zero suc add mul append take drop length set map replicate".split())
# Names that are right as they stand: two words of the library joined.
KEPT = {"and-false", "or-true"}
# A definition that gets another name, since a theorem has it.
DEFINITIONS = {"farApart": "far_apart_file"}
# Lemmas and cases that have in snake case the name that a definition gets, with the files that say them.
FIRST = {
    "envelope/proofs/AddressLaws": {"is_address": "is_address_lem"},
    "envelope/proofs/PlaceLaws": {"too_short": "is_too_short"},
    "envelope/proofs/RewriteLaws": {"no_room": "no_room_lem"},
    "envelope/proofs/rewriter/rewrite/Proof": {"no_room": "no_room_lem"},
    "feed/proofs/FewLaws": {"end_by": "end_by_lem"},
    "feed/proofs/WeighedLaws": {"too_long": "is_too_long"},
    "feed/proofs/PlaceLaws": {"too_long": "is_too_long"},
    "feed/proofs/RefusedLaws": {"too_long": "is_too_long"},
    "feed/proofs/StandLaws": {"goes_on": "going_on"},
    "feed/proofs/RunLaws": {"goes_on": "going_on"},
    "golden/proofs/PairingLaws": {"any_below": "any_below_lem"},
    "golden/proofs/CheckedLaws": {"any_below": "any_below_lem"},
}


def files(root, *endings):
    for folder, dirs, names in os.walk(root):
        dirs[:] = sorted(d for d in dirs if d not in ("out", "target", ".git"))
        for name in sorted(names):
            if name.endswith(endings):
                yield os.path.join(folder, name)


def read(path):
    with open(path, encoding="utf-8") as f:
        return f.read()


def write(path, before, after):
    if after != before:
        with open(path, "w", encoding="utf-8") as f:
            f.write(after)


def humps(word):
    """`bitSteps` as `bit_steps`; a word that begins with a capital names a type and stays."""
    if not word[:1].islower():
        return word
    return re.sub(r"(?<=[a-z0-9])([A-Z])(?=[a-z0-9]|$)", lambda m: "_" + m.group(1).lower(), word)


def joined(name, own):
    parts = [humps(part) for part in name.split("-")]
    out = parts[0]
    for part in parts[1:]:
        out += ("-" if out in own and part in FUNCTIONS else "_") + part
    return out


def declared():
    """Each name that a file of specs/ or proofs/ declares; proofs of functions go by names that Rattle makes."""
    names = set()
    for path in files("crates", ".antt"):
        if os.path.basename(path) != "Proof.antt":
            names |= {found.group(1) for found in map(DECLARED.match, read(path).splitlines()) if found}
    return names


def words_of_the_library():
    names = set()
    ours = {crate for crate in os.listdir("crates")}
    for path in files("crates", ".antt"):
        for line in read(path).splitlines():
            found = IMPORT.match(line)
            if found and found.group(1).split(".")[1 if found.group(1).startswith("Rattle.") else 0] not in ours:
                names |= {name.strip() for name in found.group(2).split(",")}
    return names


def table(names):
    own = {humps(name) for name in names if "-" not in name}
    turned = {name: DEFINITIONS.get(name, humps(name)) for name in names if "-" not in name and humps(name) != name}
    taken = set(turned.values())
    for path in files("crates", ".antt"):
        taken |= set(WORD.findall(read(path)))
    for name in sorted(name for name in names if "-" in name and name not in KEPT):
        new = joined(name, own)
        if new != name:
            while new in taken:
                new += "_lem"
            turned[name] = new
            taken.add(new)
    return turned


def first(path, text):
    """Makes room for the definitions: FIRST, where the word is bare."""
    here = FIRST.get(os.path.relpath(path, "crates")[: -len(".antt")], {})
    return "\n".join(
        line if line.lstrip().startswith("--") else BARE.sub(lambda m: here.get(m.group(0), m.group(0)), line)
        for line in text.split("\n")
    )


def turn_words(text, turned):
    return WORD.sub(lambda m: turned.get(m.group(0), m.group(0)), text)


def turn_ticked(text, turned):
    return TICKED.sub(lambda m: turn_words(m.group(0), turned), text)


def turn_antt(text, turned):
    return "\n".join(turn_ticked(line, turned) if line.lstrip().startswith("--") else turn_words(line, turned) for line in text.split("\n"))


def bare_words(text):
    lines = [line for line in text.split("\n") if not line.startswith("use ") and not line.lstrip().startswith("--")]
    return set(BARE.findall("\n".join(lines)))


def fall_together(turned):
    """Where a file that has the old name of a definition has its new one too, as a bare word."""
    bad = []
    library = words_of_the_library()
    bad += [f"{old} is a word of the library too" for old in turned if old in library]
    by_new = collections.defaultdict(list)
    for old, new in turned.items():
        by_new[new].append(old)
    bad += [f"{olds} all become {new}" for new, olds in by_new.items() if len(olds) > 1]
    for path in files("crates", ".antt"):
        text = first(path, read(path))
        words, bare = set(WORD.findall(text)), bare_words(text)
        fields = set(re.findall(r"[{;]\s*([^\s(){}\[\].;,:\"`]+) =", text)) | set(re.findall(r"^\s+(?:pub )?([^\s(){}\[\].;,:\"`]+) (?:=|:)", text, re.M))
        bad += [f"{path}: {old} -> {new}" for old, new in turned.items() if old in words and new in bare and new not in fields]
    return bad


def main():
    names = declared()
    turned = table(names)
    bad = fall_together(turned)
    if bad:
        print("\n".join(bad))
        return 1
    of_clauses = {old: new for old, new in turned.items() if "-" not in old}
    for path in files("crates", ".antt", ".rt", ".edit"):
        before = read(path)
        if path.endswith(".antt"):
            write(path, before, turn_antt(first(path, before), turned))
        else:
            write(path, before, turn_words(before, of_clauses))
    for path in ["README.md", *files("docs", ".md")]:
        before = read(path)
        write(path, before, turn_ticked(before, turned))
    print(f"{len(turned)} names turned")
    return 0


if __name__ == "__main__":
    sys.exit(main())
