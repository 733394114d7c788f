#!/usr/bin/env python3
"""Brings this repository's own definitions, fields and lemmas to snake case, as today's Rattle spells words.

usage: python3 tools/snake_names.py [TOP]      once, after port.py, at the top of the repository

A name of specs/ or proofs/ that begins with a small letter is respelled: `isAfter` and `is-after` are `is_after`. Types,
modules, functions of src/ and names that a file imports from the library stay. Where a definition and a lemma or a row of a
claim would fall together, the definition has the plain name, and the other ends in `_lem` or `_row`.
"""

import glob
import os
import re
import sys

WORD = r"[A-Za-z_][\w']*(?:-[\w']+)*"
TOKEN = re.compile(rf"(?<![\w'◌·-])(?:{WORD})(?![\w'-])")
HEAD = re.compile(rf"^\s*(?:(?:abbrev|unfoldable|pub|private|infixl|infixr)\s+)*({WORD})\s*:\s")
IMPORT = re.compile(r"^\s*(?:pub )?(?:ghost )?use ([^\s{]+?)\.\{([^}]*)\}", re.M)

# Claims name the word of a check by its letters.
LETTERS = re.compile(r"^[A-Z]{2}-")

# Lemmas and fields that a library's spelling had put into snake case already, and a definition of that name; by crate.
FALLEN = {"calls": ["has_room", "is_read", "kept_from"], "calendar": ["is_same"], "necktureen": ["told_over"]}


def snake(name):
    name = name.replace("-", "_")
    name = re.sub(r"([A-Z]+)([A-Z][a-z])", r"\1_\2", name)
    name = re.sub(r"([a-z0-9])([A-Z])", r"\1_\2", name)
    return re.sub(r"([a-z]{2})(\d{4})", r"\1_\2", name).lower()


def own_files(top):
    for folder in ("specs", "proofs"):
        yield from sorted(glob.glob(f"{top}/crates/*/{folder}/**/*.antt", recursive=True))


def is_function_proof(path):
    return "/proofs/" in path and os.path.basename(path) in ("Proof.antt", "Invariants.antt", "Answers.antt")


def is_ours(path, crates):
    parts = path.split(".")
    return parts[0] == "Rattle" and len(parts) > 1 and parts[1] in crates


def plain(name):
    """Whether the name is one that this script may respell."""
    return (name[0].islower() or LETTERS.match(name) is not None) and snake(name) != name


def own_names(top):
    """The names declared in specs/ and in the lemma files, each with the files that declare it."""
    found = {}
    for path in own_files(top):
        if is_function_proof(path):
            continue
        for line in open(path, encoding="utf-8"):
            head = HEAD.match(line)
            if head:
                found.setdefault(head.group(1), set()).add(path)
    return found


def spellings(found):
    """Old name to new name. Of names that fall together the definition of specs/ in camel case has the plain one."""
    groups = {}
    for name in found:
        if name[0].islower() or plain(name):
            groups.setdefault(snake(name), []).append(name)
    new = {}
    for name in found:
        if not plain(name):
            continue
        spelled = snake(name)
        others = [o for o in groups[spelled] if o != name]
        if others and "-" in name:
            in_specs = all("/specs/" in path for path in found[name])
            spelled += "_row" if in_specs else "_lem"
        new[name] = spelled
    return new


def imported(text, crates):
    """The names that a file takes from the library."""
    names = set()
    for path, items in IMPORT.findall(text):
        if not is_ours(path, crates):
            names.update(re.split(r"[,\s]+|\bas\b", items))
    return names


def turned(text, new, library, everything):
    """Code of antt with its own names respelled; with `everything` also those that no file of specs/ declares, as a `let`."""
    def one(token):
        name = token.group(0)
        if name in library:
            return name
        if name in new:
            return new[name]
        if everything and plain(name) and name[0].islower():
            return snake(name)
        return name

    return TOKEN.sub(one, text)


def turn_antt(text, new, crates):
    library = imported(text, crates)
    lines = []
    for line in text.split("\n"):
        code, dashes, comment = line.partition("-- ") if not line.lstrip().startswith("--") else ("", "", line)
        code = turned(code, new, library, True)
        comment = re.sub(r"[a-z]+[A-Z]\w*", lambda t: new.get(t.group(0), t.group(0)), comment)
        lines.append(code + dashes + comment)
    return "\n".join(lines)


def turn_rt(text, new):
    """Ghost lines of a source: code has no name in camel case, and no dash without spaces."""
    def line(text):
        if text.lstrip().startswith("//") or '"' in text:
            return re.sub(r"[a-z]+[A-Z]\w*", lambda t: new.get(t.group(0), t.group(0)), text)
        return turned(text, new, set(), False)

    return "\n".join(line(l) for l in text.split("\n"))


def main(top):
    crates = {os.path.basename(path) for path in glob.glob(f"{top}/crates/*")}
    found = own_names(top)
    new = spellings(found)
    # a fallen name is respelled before the definitions come to have it
    for path in own_files(top):
        crate = os.path.relpath(path, f"{top}/crates").split("/")[0]
        text = open(path, encoding="utf-8").read()
        fallen = [n for n in FALLEN.get(crate, []) if "/proofs/" in path and (not is_function_proof(path) or re.search(rf"use .*\b{n}\b", text))]
        for name in fallen:
            text = re.sub(rf"(?<![\w'-]){name}(?![\w'-])", name + "_lem", text)
        done = turn_antt(text, new, crates)
        open(path, "w", encoding="utf-8").write(done)
    for path in sorted(glob.glob(f"{top}/crates/*/src/**/*.rt", recursive=True)):
        text = open(path, encoding="utf-8").read()
        open(path, "w", encoding="utf-8").write(turn_rt(text, new))
    for name in sorted(new):
        print(name, new[name])


if __name__ == "__main__":
    main(sys.argv[1] if len(sys.argv) > 1 else ".")
