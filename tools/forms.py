#!/usr/bin/env python3
"""Counts the places of older forms in the sources of the crates, by the points of docs/DESIGN-PASS.md: python3 tools/forms.py [FOLDER]."""
import collections
import itertools
import pathlib
import re
import sys

ROOT = pathlib.Path(sys.argv[1] if len(sys.argv) > 1 else ".")
SOURCES = {f: f.read_text() for f in sorted(ROOT.glob("crates/*/src/**/*.rt"))}


def name(f):
    return str(f.relative_to(ROOT))


def lines(pattern):
    for f, text in SOURCES.items():
        for n, line in enumerate(text.split("\n"), 1):
            if re.search(pattern, line) and not line.strip().startswith("//"):
                yield f"{name(f)}:{n}: {line.strip()}"


def show(title, places):
    places = list(places)
    print(f"{title}: {len(places)}")
    for p in places:
        print("  " + p)


def functions():
    """Each function: its file, its name, its parameters and the text from its head to its end."""
    head = re.compile(r"^( *)(?:pub(?:\([a-z]+\))? )?(?:extern \"C\" )?fn (\w+)(?:<[^(]*>)?\((.*?)\)", re.M | re.S)
    for f, text in SOURCES.items():
        for m in head.finditer(text):
            end = re.search(r"^%s\}" % m.group(1), text[m.end():], re.M)
            yield f, m.group(2), m.group(3), text[m.start():m.end() + (end.end() if end else 0)]


def parameters(text):
    return [p.strip() for p in re.findall(r"(\w+: [^,]+)", re.sub(r"\s+", " ", text))]


def point_1():
    show("1. enums of the repository's own", lines(r"^\s*(pub(\(crate\))? )?enum "))
    show("1. constants that are numbers for kinds or refusals", lines(r"^\s*pub const [A-Z_]+: u8 = (\d+|b'.');"))
    show("1. functions that answer a refusal's number", (f"{name(f)}: {n}" for f, n, _, t in functions() if re.search(r"-> u8", t.split("{")[0]) and "Number::" in t))
    show("1. structs with a number for a refusal", lines(r"^\s*(pub )?number: u8,"))
    show("1. a flag with a value beside it", lines(r"^\s*(pub )?(carried|withdrawn|found): (bool|u8),"))


def normal(body):
    body = re.sub(r"//.*", "", body)
    body = re.sub(r"^\s*(requires|ensures|ghost).*$", "", body, flags=re.M)
    body = re.sub(r"\b\d+\b", "N", body)
    return re.sub(r"\s+", " ", body)


def point_2():
    shapes = collections.defaultdict(list)
    for f, n, _, text in functions():
        if "no_mangle" in text or "{}" in text:
            continue
        shape = re.sub(r"\b[a-z_]\w*\b|\b[A-Z]\w*\b", "x", normal(text))
        if len(shape) > 60:
            shapes[shape].append(f"{name(f)}: {n}")
    show("2. functions of one shape, names and numbers apart", (" | ".join(v) for v in shapes.values() if len(v) > 1))
    rows = collections.defaultdict(list)
    for f, text in SOURCES.items():
        body = [l.strip() for l in text.split("\n")]
        for i in range(len(body) - 3):
            four = " ".join(body[i:i + 4])
            if len(four) > 70 and not re.search(r"use |//|#\[|requires|ensures|: [ui]\d+,|fn ", four):
                rows[re.sub(r"\b[a-z_]\w*\(", "f(", four)].append(f"{name(f)}:{i + 1}")
    show("2. four lines that stand again, names of calls apart", (f"{' '.join(v)}: {k[:90]}" for k, v in rows.items() if len(v) > 1))


def point_3():
    show("3. loops with a condition", lines(r"^\s*while "))


def point_4():
    pairs = (f"{name(f)}: {n}({p}) {r.group(1)}" for f, n, p, t in functions()
             if len(parameters(p)) == 1 and (r := re.search(r"-> ([^{]*?)\s*(ensures|requires|\{|$)", re.sub(r"\s+", " ", t)))
             and re.search(r"match |== .*&|if \w+ ==", t) and "self" not in p and "journal: &" not in p)
    show("4. functions of one value that choose by what it is", pairs)


def point_5():
    facts = collections.defaultdict(set)
    for f, n, _, text in functions():
        for clause in re.findall(r"^\s*(?:requires|ensures)(?: \w+)? \{(.*)\}\s*$", text, re.M):
            for fact in re.split(r" × | → ", clause):
                fact = re.sub(r"^[ (]+|[ )]+$", "", fact)
                fact = re.sub(r"\b(now|old|new)\b", "now", fact)
                if "result" not in fact and len(fact) > 8:
                    facts[fact].add(f"{name(f)}: {n}")
    show("5. facts in the contracts of three functions or more", (f"{len(v)}: {k}" for k, v in sorted(facts.items(), key=lambda x: -len(x[1])) if len(v) > 2))
    pairs = collections.Counter()
    for f, n, p, _ in functions():
        for two in itertools.combinations(sorted(set(parameters(p))), 2):
            pairs[two] += 1
    show("5. parameters that stand together in three functions or more", (f"{c}: {a}, {b}" for (a, b), c in pairs.most_common() if c > 2))


def point_6():
    show("6. a buffer with a length or a place beside it", (f"{name(f)}: {n}" for f, n, p, _ in functions()
         if re.search(r"\[u8(; [\w:]+)?\]", p) and re.search(r"\b(n|at|end|count|m|length): (u8|u16|u32|usize)", p)))


def point_7():
    show("7. a choice of the step to run", lines(r"^\s*(match (locate|call|reply|found|decide\w*|kind_of|next_at)\b.*\{|Located::|Decided::)"))


for point in (point_1, point_2, point_3, point_4, point_5, point_6, point_7):
    point()
