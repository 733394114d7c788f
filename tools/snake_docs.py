#!/usr/bin/env python3
"""Respells the names that README.md and docs/ have in backticks to those that specs/ and proofs/ declare today.

usage: python3 tools/snake_docs.py [TOP]      at the top of the repository, after snake_names.py; a second run changes nothing

A name after a file, as in `journal/specs/Sound.antt: daysRise, isHead`, becomes the one that the file declares; any other
name that is spelled as before becomes the one that some file declares. A proof that is no longer one file is named by
its answers. What has no name of today is printed and left as it was. docs/PORT.md tells of the spelling, and is left.
"""

import glob
import os
import re
import sys

from snake_names import HEAD, snake

SPAN = re.compile(r"`([^`\n]+)`")
PATH = re.compile(r"^((?:[\w+]+/)+\w+\.antt)(?:: (.*))?$")
# A name in the old spelling: a small letter and then a capital or a dash.
OLD = re.compile(r"(?<![\w'./:-])(?:[a-z]\w*[A-Z][\w']*|[A-Za-z][\w']*(?:-[\w']+)+|[a-z]+-[\w'-]+)(?![\w'-]|\.\w|::)")


def declared(path):
    """The names that a file declares: definitions, lemmas, fields, rows and records."""
    names = set()
    for line in open(path, encoding="utf-8"):
        head = HEAD.match(line) or re.match(r"^\s*(?:pub\s+)?(?:record|data)\s+([\w'-]+)", line)
        if head:
            names.add(head.group(1))
    return names


def respelled(name, names):
    """What a name is called among these, or None. A name with dashes was a lemma's or a row's."""
    if name in names:
        return name
    plain = snake(name)
    longer = [f"{plain}_row", f"{plain}_lem"]
    found = [it for it in ([*longer, plain] if "-" in name else [plain, *longer]) if it in names]
    return found[0] if found else None


def file_of(top, path):
    """A file by its path, which may leave out crates/; a proof that was one file is its answers."""
    for at in (f"{top}/crates/{path}", f"{top}/{path}"):
        if os.path.isfile(at):
            return at, path
        answers = re.sub(r"/Proof\.antt$", "/Answers.antt", at)
        if os.path.isfile(answers):
            return answers, re.sub(r"/Proof\.antt$", "/Answers.antt", path)
    return None, path


def main(top):
    everywhere = set()
    for part in ("specs", "proofs"):
        for path in glob.glob(f"{top}/crates/*/{part}/**/*.antt", recursive=True):
            everywhere |= declared(path)
    pages = [f"{top}/README.md", *sorted(glob.glob(f"{top}/docs/**/*.md", recursive=True))]
    for page in pages:
        if page.endswith("/PORT.md"):
            continue
        short, lost = os.path.relpath(page, top), []

        def span(found):
            text = found.group(1)
            cited = PATH.match(text)
            if cited and not re.search(r"(?:^|/)[A-Z]+/", text):
                file, path = file_of(top, cited.group(1))
                if not file:
                    lost.append(f"no file {path}")
                    return found.group(0)
                if not cited.group(2):
                    return f"`{path}`"
                names, new = declared(file), []
                for name in cited.group(2).split(", "):
                    word = respelled(name, names)
                    lost.extend([] if word else [f"{path}: {name}"])
                    new.append(word or name)
                return f"`{path}: {', '.join(new)}`"
            return "`" + OLD.sub(one, text) + "`"

        def one(found):
            word = respelled(found.group(0), everywhere)
            if not word:
                lost.append(found.group(0))
            return word or found.group(0)

        was, fenced, lines = open(page, encoding="utf-8").read(), False, []
        for number, line in enumerate(was.split("\n"), 1):
            fenced ^= line.startswith("```")
            lost.clear()
            lines.append(line if fenced or line.startswith("    ") else SPAN.sub(span, line))
            for it in lost:
                print(f"{short}:{number}: {it}")
        now = "\n".join(lines)
        if now != was:
            with open(page, "w", encoding="utf-8") as it:
                it.write(now)


if __name__ == "__main__":
    main(sys.argv[1] if len(sys.argv) > 1 else ".")
