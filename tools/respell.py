#!/usr/bin/env python3
"""Respells this repository's own names in antt, once, after the kit's port.py: words in snake case, types in camel case.

usage: python3 tools/respell.py [ROOT]     ROOT is a checkout on which port.py ran; the default is this one

- A definition, lemma, record field or constructor of specs/ and proofs/ whose name has a dash gets underscores: `left-lines` is
  `left_lines`. A name that begins with a capital loses the dashes instead: `Dim-unique` is `DimUnique`.
- Names that Rattle makes (goals, steps of a walk), names of the library and functions of src/ keep their spelling.
- The crate `log` is `portal_log`, since the kit has a library of that name.
It says which names fall together with others, and changes nothing then.
"""
import os
import re
import sys

IDENT = r"[^\s(){}\[\],;.:\"'`·|⌜⌝]+"
TOKEN = re.compile(IDENT)
DECLARED = re.compile(r"^( *)(?:unfoldable )?(?:abbrev )?(?:pub )?(?:abbrev )?(?:unfoldable )?(?:(?:data|record) )?(?P<name>[^\s(){}\[\],;.:\"`·|]*-[^\s(){}\[\],;.:\"`·|]*) (?::|\(|\{)")


def files(root, endings):
    for folder, dirs, names in os.walk(os.path.join(root, "crates")):
        dirs[:] = sorted(d for d in dirs if d != "out")
        for name in sorted(names):
            if name.endswith(endings):
                yield os.path.join(folder, name)


def read(path):
    with open(path, encoding="utf-8") as f:
        return f.read()


def answers(path):
    """Whether the file answers goals of one function."""
    return os.path.basename(path) in ("Answers.antt", "Invariants.antt", "Proof.antt")


def declared(root):
    """Names with a dash that specs/ and proofs/ declare; the goals that files of answers answer are not among them."""
    found = set()
    for path in files(root, ".antt"):
        for line in read(path).split("\n"):
            m = DECLARED.match(line)
            if not m:
                continue
            name = m["name"]
            if answers(path) and re.search(r": (goal|given|need)\." + re.escape(name) + r"\b", line):
                continue
            if answers(path) and re.match(r"(invariant|decreases|Inv|Dec)-", name):
                continue
            if re.search(r"[a-zA-Zτℓℕ]", name) and not name.startswith("-") and not name.endswith("-"):
                found.add(name)
    return found


def library(root):
    """Names that some file takes from the kit, and the goals that are answered."""
    kept = set()
    for path in files(root, (".antt", ".rt")):
        text = read(path)
        for m in re.finditer(r"\buse (?:Rattle\.std|mathlib|Prim|lib|native|base|denote|Rattle\.core)[\w.'-]*\.\{([^}]*)\}", text):
            kept.update(w.strip().split(" as ")[0] for w in m[1].split(","))
        if answers(path):
            kept.update(m[1] for m in re.finditer(r"(?m)^pub (\S+) : (?:goal|need|given)\.", text))
    return kept


# Names that would fall together with others.
APART = {"Division-step": "DivisionStepKept", "Value-laws": "ValuesLinear", "bit-xor": "bit_of_xor"}


def respelled(name):
    if name in APART:
        return APART[name]
    if name[0].isupper():
        return "".join(w[:1].upper() + w[1:] for w in name.split("-"))
    return name.replace("-", "_")


def every_token(root):
    seen = set()
    for path in files(root, (".antt", ".rt")):
        seen.update(TOKEN.findall(read(path)))
    return seen


def plain_names(root):
    """Names that antt files use by themselves and not as a folder of a path, as `dim_adding` of `proofs.dim_adding.Goals`."""
    seen = set()
    for path in files(root, ".antt"):
        seen.update(m[1] for m in re.finditer(r"(?<![\w.'-])(" + IDENT + r")(?![\w'-])", read(path)))
    return seen


def rename_crate(root, old, new):
    if not os.path.isdir(os.path.join(root, "crates", old)):
        return
    os.rename(os.path.join(root, "crates", old), os.path.join(root, "crates", new))
    listing = os.path.join(root, "crates.txt")
    text = re.sub(rf"(?<![\w-]){old}(?![\w-])", new, read(listing))
    with open(listing, "w", encoding="utf-8") as f:
        f.write(text)
    for path in files(root, (".rt", ".antt")):
        text = read(path)
        turned = re.sub(rf"\bRattle\.{old}\.", f"Rattle.{new}.", text)
        if path.endswith(".rt"):
            turned = re.sub(rf"(?m)^(\s*(?:pub )?use ){old}::", rf"\g<1>{new}::", turned)
        if turned != text:
            with open(path, "w", encoding="utf-8") as f:
                f.write(turned)


def main():
    root = os.path.abspath(sys.argv[1] if len(sys.argv) > 1 else os.path.join(os.path.dirname(__file__), ".."))
    names = declared(root)
    kept = library(root)
    mine = plain_names(root)
    tokens = every_token(root)
    turn, together = {}, []
    for name in sorted(names):
        if name in kept:
            print(f"kept, since the library or a goal has it: {name}")
            continue
        new = respelled(name)
        if new in tokens and new in mine:
            together.append((name, new))
        turn[name] = new
    for name, new in together:
        print(f"falls together: {name} with {new}")
    if together and "--anyway" not in sys.argv:
        raise SystemExit("nothing was changed")
    changed = 0
    for path in files(root, (".antt", ".rt")):
        text = read(path)
        turned = TOKEN.sub(lambda m: turn.get(m[0], m[0]), text)
        if turned != text:
            changed += 1
            with open(path, "w", encoding="utf-8") as f:
                f.write(turned)
    print(f"{len(turn)} names respelled, in {changed} files")
    rename_crate(root, "log", "portal_log")


if __name__ == "__main__":
    main()
