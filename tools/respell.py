#!/usr/bin/env python3
"""Spells the repository's own definitions, lemmas and fields in snake case, once, after the kit's port.py.

usage: python3 tools/respell.py      at the top of a checkout that port.py has turned

Renamed are the names that specs/ and the named files of proofs/ define at their top level, and the fields of their records and
data types: `nodesOf` becomes `nodes_of`, `kids-within` becomes `kids_within`. Types and modules keep their capital, names of the
library stay, and so do names that are local to a proof. Functions, types and constants of src/ are not touched. A name that
would fall together with another one in a file that has both keeps its spelling, unless APART gives it one of its own.
Must-fail edits are respelled alike.
"""

import collections
import glob
import os
import re

# a lemma or a field with the name of its definition gets `_lem`
APART = {
    "root-refused": "root_refused_lem",
    "root-given": "root_given_lem",
    "node-right": "node_right_lem",
    "node-refused": "node_refused_lem",
    "node-given": "node_given_lem",
    "capture-if": "capture_if_lem",
    "capture-value": "capture_value_lem",
    "minimax-at": "minimax_at_lem",
    "tree-settings-right": "tree_settings_right_lem",
    "is-given": "is_given_lem",
    "data-word": "data_word_lem",
    "hash-word": "hash_word_lem",
    "well-sized": "well_sized_lem",
    "length-right": "length_right_lem",
    "blocks-right": "blocks_right_lem",
    "layout-right": "layout_right_lem",
    "fields-right": "fields_right_lem",
    "levels-right": "levels_right_lem",
    "block-right": "block_right_lem",
    "children-right": "children_right_lem",
    "reduction-if": "reduction_if_lem",
    "rowZero": "zero_row",
    "columnZero": "zero_column",
}
# the kit's script had brought this lemma to the spelling of its definition already
LEMMA = ("crates/tree/proofs/Accepted.antt", "eval_right", "eval_right_lem")
NAME = r"[^\s.:;,(){}\[\]⟦⟧⌜⌝λ\"`∷×→≡≢≤≥<>=+*/%^&|¬∙@«»↦]+"
TOKEN = re.compile(NAME)
HEAD = re.compile(r"^(?:abbrev |unfoldable |pub |data |record |module |open )*(" + NAME + r") *(?:\(.*)?:(?![:=])")
FIELD = re.compile(r"^ +pub (" + NAME + r") *:(?![:=])")
CASE = re.compile(r"^ +(" + NAME + r") *:(?![:=])")
USE = re.compile(r"^(?:ghost )?use (\S+?)\.\{([^}]*)\}", re.M)


def snake(name):
    if not name[0].isupper():
        name = re.sub(r"(?<=[a-z0-9])([A-Z])(?![A-Z])", lambda m: "_" + m.group(1).lower(), name)
        name = re.sub(r"(?<=[a-z0-9])([A-Z]+)\b", lambda m: "_" + m.group(1).lower(), name)
    return name.replace("-", "_")


def read(path):
    with open(path, encoding="utf-8") as f:
        return f.read()


def stated():
    return sorted(glob.glob("crates/*/specs/**/*.antt", recursive=True) + glob.glob("crates/*/proofs/*.antt"))


def texts():
    proofs = glob.glob("crates/*/specs/**/*.antt", recursive=True) + glob.glob("crates/*/proofs/**/*.antt", recursive=True)
    return sorted(set(proofs)) + sorted(glob.glob("crates/*/src/**/*.rt", recursive=True))


def defined():
    """The names that the repository defines, with whether one of them is at a top level."""
    names = collections.OrderedDict()
    for path in stated():
        inside = False
        for line in read(path).split("\n"):
            if re.match(r"^(pub )?data ", line):
                inside = True
            elif line and not line[0].isspace():
                inside = False
            found = HEAD.match(line) or FIELD.match(line) or (CASE.match(line) if inside else None)
            if found and not line.lstrip().startswith("--"):
                names[found.group(1)] = True
    return list(names)


def foreign(paths):
    names = set()
    for path in paths:
        for use in USE.finditer(read(path)):
            parts = use.group(1).split(".")
            if not (parts[0] == "Rattle" and os.path.isdir("crates/" + parts[1])):
                names.update(n.strip().split(" as ")[0] for n in use.group(2).split(","))
    return names


def words(path):
    """The names that stand alone in a file: no comments, no paths of modules, no fields behind a dot; of code only parameters and fields."""
    text = re.sub(r"^\s*(--|//).*$", "", read(path), flags=re.M)
    if path.endswith(".rt"):
        clauses = " ".join(re.findall(r"(?:requires|ensures|ghost)[^{;]*\{.*?\n", text)) + " ".join(u.group(2) for u in USE.finditer(text))
        return set(TOKEN.findall(clauses)) | set(re.findall(r"(\w+): ", text))
    text = USE.sub(lambda m: m.group(2), text)
    return set(re.findall(r"(?<![\w'.])(?:" + NAME + ")", text))


def mapping():
    paths = texts()
    library = foreign(paths)
    new = collections.OrderedDict()
    for name in defined():
        if re.match(r"^[A-Za-z][\w'ℤℕ₀-₉-]*$", name) and name not in library and snake(name) != name:
            new[name] = APART.get(name, snake(name))
    kept = []
    each = {p: words(p) for p in paths}
    back = collections.defaultdict(list)
    for old, to in new.items():
        back[to].append(old)
    for to, olds in back.items():
        for old in olds:
            near = [p for p, w in each.items() if old in w and (to in w or any(o in w for o in olds if o != old))]
            if near or (to in library):
                kept.append((old, to, near[:2]))
    for old, _, _ in kept:
        del new[old]
    return new, kept


def turn(text, new, dashes):
    return TOKEN.sub(lambda m: new.get(m.group(0), m.group(0)) if dashes or "-" not in m.group(0) else m.group(0), text)


def write(path, text):
    with open(path, "w", encoding="utf-8") as f:
        f.write(text)


def main():
    path, old, to = LEMMA
    write(path, turn(read(path), {old: to}, True))
    new, kept = mapping()
    for old, to, near in kept:
        print(f"kept: {old} (beside {to} in {', '.join(near)})")
    edits = sorted(glob.glob("crates/*/must-fail/*.edit"))
    for path in texts() + edits:
        text = read(path)
        dashes = path.endswith(".antt") or "file: specs/" in text
        after = turn(text, new, dashes)
        if after != text:
            write(path, after)
    print(f"respelled: {len(new)} names")


main()
