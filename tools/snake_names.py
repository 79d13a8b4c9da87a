#!/usr/bin/env python3
"""Brings the definitions and lemmas of this repository to snake case: `signal-at` becomes `signal_at`.

    python3 tools/snake_names.py           at the top of the repository, once, after the kit's port.py
    python3 tools/snake_names.py --list    what would be renamed, and which names would fall together

A name is renamed where it is declared by this repository: in specs/, in a lemma file of proofs/, or as a helper in the
proof of a function. Names of goals (`pub NAME : goal.NAME`) belong to the check and stay. Renamed are the .antt files,
the clauses and ghost items of .rt files (strings and comments stay), and the must-fail edits.
"""
import pathlib
import re
import sys

# Names that a library has in snake case.
OTHER = {"bit-and": "bit_of_and", "bit-or": "bit_of_or"}
EDGE = r"[\s(){}\[\].,;:\"`«»⟦⟧]"
SIGNATURE = re.compile(r"^\s*(?:unfoldable |abbrev )?(?:pub )?([^\s:(){}.,;]+) :(?: (\S+))?", re.M)


def declared(root):
    """Each name with a dash that the repository declares, with the files that declare it."""
    names = {}
    for path in sorted(root.glob("crates/*/*/**/*.antt")):
        if "/out/" in str(path):
            continue
        for found in SIGNATURE.finditer(path.read_text()):
            name, of = found.group(1), found.group(2) or ""
            if "-" not in name.strip("-") or name.startswith("--"):
                continue
            if of.startswith(("goal.", "need.", "given.")):
                continue
            names.setdefault(name, []).append(path)
    return names


def pattern(names):
    longest = sorted(names, key=len, reverse=True)
    return re.compile(r"(?<!%s)(%s)(?!%s)" % (EDGE.replace("[", "[^", 1), "|".join(map(re.escape, longest)), EDGE.replace("[", "[^", 1)))


def new_name(name):
    return OTHER.get(name, name.replace("-", "_"))


def in_source(text, rename):
    """Renames outside comments and strings."""
    out = []
    for line in text.split("\n"):
        parts = re.split(r'("(?:\\.|[^"\\])*"|//.*$)', line)
        out.append("".join(p if k % 2 else rename(p) for k, p in enumerate(parts)))
    return "\n".join(out)


def main():
    root = pathlib.Path(".")
    names = declared(root)
    word = pattern(names)
    rename = lambda text: word.sub(lambda m: new_name(m.group(1)), text)
    files = [p for p in sorted(root.glob("crates/**/*")) if p.is_file() and "/out/" not in str(p)]
    files = [p for p in files if p.suffix in (".antt", ".rt", ".edit")]
    if "--list" in sys.argv:
        for name, where in sorted(names.items()):
            new = new_name(name)
            token = re.compile(r"(?<!%s)%s(?!%s)" % (EDGE.replace("[", "[^", 1), re.escape(new), EDGE.replace("[", "[^", 1)))
            old = re.compile(r"(?<!%s)%s(?!%s)" % (EDGE.replace("[", "[^", 1), re.escape(name), EDGE.replace("[", "[^", 1)))
            both = [str(p) for p in files if old.search(p.read_text()) and token.search(p.read_text())]
            print(name, "->", new, "  MEETS " + " ".join(both) if both else "")
        return
    for path in files:
        text = path.read_text()
        new = in_source(text, rename) if path.suffix == ".rt" else rename(text)
        if new != text:
            path.write_text(new)


main()
