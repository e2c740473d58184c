#!/usr/bin/env python3
"""Brings the repository's own names to the spelling of the Rattle that it was ported to, once, behind that kit's port.py.

usage: tools/port_names.py            at the top of the repository

A definition, a lemma or a field in camel case becomes snake case (unlessZero: unless_zero), and a dash in a name of specs/, which
is no lemma's, an underscore (by-opcode: by_opcode). Types, modules and constructors keep their spelling, and so does all of the
code: no function, parameter or field of src/ has such a name. The files crates/lent/specs/Contracts.antt and what names it are
renamed too, since `specs.contracts` is made by the kit. It prints each name that falls together with one that was there.
"""
import os
import re
import sys

DECLARES = re.compile(
    r"^(?:\s*)(?:(?:abbrev|unfoldable|pub|data|record|ruleset|open)\s+)*([^\s(){}:,;|↦=λ.]+)(?:\s[^:]*)?\s+:\s"
)
NAME = re.compile(r"[^\s(){}\[\],;:.`'\"]+'*")
# Where snake case would make one name of two.
OTHERWISE = {"byCount": "by_item_count", "byFirst": "by_first_byte"}


def files(suffixes):
    for folder, dirs, names in os.walk("crates"):
        dirs[:] = sorted(d for d in dirs if d != "out")
        for name in sorted(names):
            if name.endswith(suffixes):
                yield os.path.join(folder, name)


def snake(name):
    name = re.sub(r"(?<=[a-z0-9])([A-Z])", lambda m: "_" + m[1].lower(), name)
    return name


def declared():
    """The names that are to change, and to what."""
    turns = {}
    for path in files(".antt"):
        parts = path.split("/")
        with open(path, encoding="utf-8") as it:
            for line in it:
                found = DECLARES.match(line)
                if not found or line.lstrip().startswith("--"):
                    continue
                name = found[1]
                new = name
                if re.match(r"[a-z]", name) and re.search(r"[a-z0-9][A-Z]", name):
                    new = snake(name)
                if parts[2] == "specs" and re.match(r"[a-z][\w]*-", new):
                    new = new.replace("-", "_")
                new = OTHERWISE.get(name, new)
                if new != name:
                    turns[name] = new
    return turns


def main():
    turns = declared()
    there = set()
    for path in files((".antt", ".rt")):
        with open(path, encoding="utf-8") as it:
            there |= set(NAME.findall(it.read()))
    for old, new in sorted(turns.items()):
        if new in there:
            print(f"together: {old} and {new}")
    changed = 0
    for path in list(files((".antt", ".rt", ".edit"))):
        with open(path, encoding="utf-8") as it:
            text = it.read()
        new = NAME.sub(lambda m: turns.get(m[0], m[0]), text)
        new = re.sub(r"(lent\.specs\.)Contracts\b", r"\1Leaves", new)
        if path == "crates/lent/specs/Lib.antt":
            new = new.replace("pub mod Contracts", "pub mod Leaves")
        if new != text:
            changed += 1
            with open(path, "w", encoding="utf-8") as it:
                it.write(new)
    if os.path.exists("crates/lent/specs/Contracts.antt"):
        os.rename("crates/lent/specs/Contracts.antt", "crates/lent/specs/Leaves.antt")
    print(f"{len(turns)} names in {changed} files")


if __name__ == "__main__":
    sys.exit(main())
