#!/usr/bin/env python3
"""Respells the definitions and lemmas of this repository: words in snake case, `a-b` and `aB` as `a_b`.

usage: python3 tools/respell.py        at the top of a tree that /opt/rattle/port/port.py has turned and nobody has edited since

It reads each name with a dash or a capital within from specs/ and from the lemma files of proofs/, leaves out what the kit brings, and writes the
new name wherever the old one stands as a whole token: in .antt and .rt files, must-fail edits, docs/STATEMENTS.md and README.md. A lemma whose
name would fall together with the definition that it speaks of gets `_lem` behind it."""
import pathlib
import re

TOKEN = re.compile(r"[^\s(){}.,;]+")
COMMENT = re.compile(r"(^|(?<=\s))--[^\n]*")
TURNED = re.compile(r"^[a-zα-ω].*[a-z0-9?]-[a-z0-9]|^[a-z][a-z0-9_'-]*[A-Z]")

# Where two names fall together the lemma gives way; the last two name a function of their own.
OTHERS = {
    "bit-and": "bit_and_lem",
    "bit-or": "bit_or_lem",
    "edge-count": "edge_count_lem",
    "lastLine": "last_line_of",
    "of_tree": "of_tree_lem",
    "place-of": "place_of_lem",
    "prefix-of": "prefix_of_lem",
    "put-at": "put_here",
    "same_bool": "same_bool_lem",
    "same-list": "same_list_lem",
}
# Rattle makes a module of this name now.
FILES = {"crates/tables/specs/Contracts.antt": "InnerContracts"}


def snake(name):
    return re.sub(r"([a-z0-9])([A-Z])", lambda at: at[1] + "_" + at[2].lower(), name.replace("-", "_"))


def imported(text, own):
    """The names that a file brings from the kit."""
    for path, names in re.findall(r"use ([^\s{]+?)\.\{([^}]*)\}", text):
        if not (path.startswith("Rattle.") and path.split(".")[1] in own):
            yield from (name.strip() for name in names.split(","))


def renamings(files, own):
    names, kit = set(), set()
    for file in files:
        text = COMMENT.sub("", file.read_text())
        kit.update(imported(text, own))
        names.update(TOKEN.findall(text))
    found = {name: snake(name) for name in names if TURNED.match(name)} | {n: OTHERS[n] for n in OTHERS if n in names}
    for name, new in list(found.items()):
        if "-" in name and name not in OTHERS and any(snake(o) == new and "-" not in o for o in found if o != name):
            found[name] = new + "_lem"
    return {name: new for name, new in found.items() if name not in kit}


def main():
    crates = pathlib.Path("crates")
    own = {folder.name for folder in crates.iterdir()}
    defining = [*crates.glob("*/specs/**/*.antt"), *crates.glob("*/proofs/*.antt")]
    new = renamings(defining, own)
    for file in [*crates.rglob("*.antt"), *crates.rglob("*.rt"), *crates.rglob("*.edit"), pathlib.Path("docs/STATEMENTS.md"), pathlib.Path("README.md")]:
        if "out" in file.parts:
            continue
        text = file.read_text()
        kit = set(imported(text, own))
        token = TOKEN if file.suffix in (".antt", ".rt", ".edit") else re.compile(r"[A-Za-z][\w'?-]*[\w?]")
        text = token.sub(lambda at: new[at[0]] if at[0] in new and at[0] not in kit else at[0], text)
        # a namespace of the kit is a module now
        text = text.replace("Iff·", "Iff.")
        text = re.sub(r"(?m)^use ([^\s{]+)\.\{([^{}]*Iff\.[^{}]*)\}$", modules, text)
        for old, to in FILES.items():
            path = re.escape(".".join(["Rattle", old.split("/")[1], "specs", pathlib.Path(old).stem]))
            text = re.sub(path + r"(?![\w'])", lambda at: at[0].rsplit(".", 1)[0] + "." + to, text)
        file.write_text(text)
    for old, to in FILES.items():
        file = pathlib.Path(old)
        names = file.parent / "Lib.antt"
        names.write_text(re.sub(rf"\b{file.stem}\b", to, names.read_text()))
        file.rename(file.with_name(to + ".antt"))


def modules(at):
    """A use line for the module `Iff` in place of its members, and one for the other names."""
    kept = [name.strip() for name in at[2].split(",") if not name.strip().startswith("Iff.")]
    return "\n".join([f"use {at[1]}.{{{', '.join(kept)}}}"] * bool(kept) + [f"use {at[1]}.Iff"])


if __name__ == "__main__":
    main()
