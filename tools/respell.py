#!/usr/bin/env python3
"""Brings the repository's own names to the spelling of today's Rattle.

Run once, at the top, after the toolchain's own script. Words are in snake case; types, facts and modules keep their camel
case. A dash is kept in a lemma whose name begins with a definition's (`member-or`); elsewhere, and in fields, constructors
and definitions, it becomes an underscore. Names of functions of src/, of the exported C calls and of the toolchain stay.
With `names` it prints what it would change, and with `look` what would fall together.
"""
import collections
import glob
import re
import sys

IDENT = r"[A-Za-z_ℕℤ][A-Za-z0-9_'\-→ℕ]*"
TOKEN = re.compile(IDENT)
SIGNATURE = re.compile(r"^(?:(?:abbrev|pub|unfoldable|data|record)\s+)*(" + IDENT + r")(?:\s+[({][^)}]*[)}])*\s*:(?!=)")
FIELD = re.compile(r"^\s+(?:pub\s+)?(" + IDENT + r")\s*:(?!=)")
CAMEL = re.compile(r"[a-z][a-z0-9]*(?:[A-Z][a-z0-9]*)+")
# Of the toolchain: a type's name, a dash or an underscore, a trait's.
TOOLCHAIN = {"is_IsWord", "mut_slice_Tells", "read_Some", "shr_slice_Lawful", "shr_slice_Tells", "uint_Lawful", "uint_Makes",
             "uint_Tells", "walk_Meets", "ownVal"}


# `first_of` is a tactic's. The others lost their dash to the toolchain's script, and would fall together with a definition.
OTHER = {"firstOf": "first_within", "first_of": "first_within"}
OTHER.update({a: a.replace("_", "-") for a in ["all_digits", "at_first", "cut_left", "halves_of", "next_place", "path_bytes",
                                               "says_at", "whole_run"]})


def snake(word):
    """camelCase as snake_case: `onlyS` is `only_s`, `placeInOrder` is `place_in_order`."""
    return re.sub(r"(?<=[a-z0-9])([A-Z])", lambda m: "_" + m.group(1), word).lower()


def files(*patterns):
    return sorted(f for p in patterns for f in glob.glob(p, recursive=True) if "/out/" not in f)


SPECS = files("crates/*/specs/**/*.antt")
LEMMAS = files("crates/*/proofs/*.antt")
PROOFS = files("crates/*/proofs/**/*.antt")
SOURCES = files("crates/*/src/**/*.rt")
EDITS = files("crates/*/must-fail/*.edit", "tests/tried/*/*")
PAGES = files("README.md", "CHANGELOG.md", "docs/**/*.md", "bench/README.md", "tests/vectors/README.md", "samples/README.md")


def declared(paths):
    """The names that stand at the head of a line with a type, and those of fields and constructors."""
    heads, fields = set(), set()
    for path in paths:
        for line in open(path, encoding="utf-8"):
            line = line.split("--")[0]
            m = SIGNATURE.match(line)
            if m:
                heads.add(m.group(1))
                continue
            m = FIELD.match(line)
            if m:
                fields.add(m.group(1))
    return heads, fields


def lemma(name, definitions):
    """Keeps a dash after a definition or a type, and before one."""
    parts = name.split("-")
    said = parts[0]
    for before, part in zip(parts, parts[1:]):
        said += ("-" if parts[0] in definitions or before in definitions and part in definitions else "_") + part
    return said


def parts_in_snake(name):
    """Each lower camel word of a name in snake case; a type's name and a word of the toolchain stay."""
    if name in TOOLCHAIN:
        return name
    return "-".join(snake(p) if CAMEL.fullmatch(p) else p for p in name.split("-"))


def renaming():
    heads, fields = declared(SPECS)
    lemmas, more_fields = declared(LEMMAS)
    definitions = {h for h in heads}
    new = {}
    for name in heads | fields | more_fields:
        new[name] = parts_in_snake(name).replace("-", "_")
        if "-" in name and not name[0].isupper():
            new[name] = new[name].lower()
    for name in lemmas - heads:
        new[name] = parts_in_snake(lemma(name, definitions))
    words = set()
    for path in SPECS + PROOFS + SOURCES:
        for token in TOKEN.findall(open(path, encoding="utf-8").read()):
            words.add(token)
            if token not in new and re.search(r"(?:^|-)" + CAMEL.pattern + r"(?:-|$)", token):
                new[token] = parts_in_snake(token)
    new.update(OTHER)
    # Where two would fall together, the one with a dash keeps it.
    count = collections.Counter(new.values())
    new = {a: b for a, b in new.items() if a in OTHER or a != b and not ("-" in a and (count[b] > 1 or b in words))}
    return new, words


def turned(text, new):
    return TOKEN.sub(lambda m: new.get(m.group(0), m.group(0)), text)


def page(text, new):
    """In prose only what stands in backquotes, and words that are in camel case."""
    camel = {a: b for a, b in new.items() if re.search(r"[a-z][A-Z]", a)}
    quoted = re.sub(r"`[^`\n]+`", lambda m: turned(m.group(0), new), text)
    return turned(quoted, camel)


def main():
    new, words = renaming()
    if sys.argv[1:] == ["names"]:
        for a, b in sorted(new.items()):
            print(a, b)
        return
    if sys.argv[1:] == ["look"]:
        back = collections.defaultdict(list)
        for a, b in new.items():
            back[b].append(a)
        for b, olds in sorted(back.items()):
            if len(olds) > 1 or b in words:
                print(b, "<-", *olds, "(stands already)" if b in words else "")
        return
    for path in SPECS + PROOFS + SOURCES + EDITS + PAGES:
        text = open(path, encoding="utf-8").read()
        said = page(text, new) if path in PAGES else turned(text, new)
        if said != text:
            open(path, "w", encoding="utf-8").write(said)


main()
