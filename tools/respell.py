#!/usr/bin/env python3
"""Brings the repository's own definitions and lemmas to the spelling of today's Rattle, once, after port.py.

usage: tools/respell.py [--list]      at the top of the repository

A word of a name is joined by `_`; a dash is kept where a law says what a word of the library is of a function, as in `length-written`. Names
of src/, strings, outputs and names that Rattle makes stay. With --list it prints the table and writes nothing. It stops where two names would
fall together.
"""

import os
import re
import sys

NAME = r"[^\s(){}\[\],;:.λ∀`\"]+"
MADE = {"declared", "Statement", "Tie", "Lts", "Met", "contracts", "Code", "Goals", "Given"}
# Functions of the library that laws here are about.
WORDS = {"length", "get_or", "take", "drop", "append", "set", "sets", "replicate"}
USE = re.compile(r"^((?:ghost )?use )([^;{\s]+?)\.\{(.*?)\}", re.M | re.S)


def is_dashed(name):
    return "-" in name[1:-1] and "◌" not in name and "·" not in name


def files(root, ends):
    for folder, dirs, names in os.walk(root):
        dirs[:] = sorted(d for d in dirs if d not in ("out", "target", ".git", "tools"))
        for n in sorted(names):
            if n.endswith(ends):
                yield os.path.join(folder, n)


def read(path):
    with open(path, encoding="utf-8") as f:
        return f.read()


def without_comments(text):
    return "\n".join(l for l in text.split("\n") if not l.lstrip().startswith("--"))


def is_own(module, crates):
    parts = module.split(".")
    return parts[0] == "Rattle" and parts[1] in crates and not MADE & set(parts)


def collect(texts, crates):
    """The dashed names of the repository's own, the functions among its definitions, and the names that come from elsewhere."""
    own, functions, foreign, plain = set(), set(), set(), set()
    for path, text in texts.items():
        code = without_comments(text)
        made = set(re.findall(r"^(?:abbrev )?(" + NAME + r") : tie\.", code, re.M))
        for m in USE.finditer(code):
            for item in m.group(3).split(","):
                names = item.strip().split(" as ")
                if not is_own(m.group(2), crates):
                    foreign.add(names[0])
                if len(names) == 2:
                    own.add(names[1])
        own.update(re.findall(r"^use \S+ as (\S+)", code, re.M))
        for m in re.finditer(r"^\s*((?:pub |abbrev |unfoldable )*)(" + NAME + r"(?: " + NAME + r")*) :(?: |$)", code, re.M):
            for n in m.group(2).split(" "):
                if n not in made:
                    own.add(n)
                    if "/specs/" in path:
                        functions.add(n)
        own.update(re.findall(r"\blet (" + NAME + r")(?: :| =)", code))
        for m in re.finditer(r"[({](" + NAME + r"(?: " + NAME + r")*) :", code):
            own.update(m.group(1).split(" "))
        # A part of a path names a module, which is apart from the names of functions.
        plain.update(re.findall(r"(?<![.\w'-])" + NAME + r"(?!\.\S)", code))
    own = {n for n in own if is_dashed(n) and not n.startswith("+") and not n.endswith(("-lts", "-kinds"))}
    return own - foreign, functions, foreign, plain


def respelled(name, functions):
    """`_` between words, and a dash between a word of the library and a function that it is taken of."""
    first, dash, rest = name.partition("-")
    rest = rest.replace("-", "_")
    of_a_function = first in WORDS and (rest in WORDS or rest in {f.replace("-", "_") for f in functions})
    return first + (dash if name not in functions and of_a_function else "_") + rest


def table(root):
    crates = set(os.listdir(os.path.join(root, "crates")))
    texts = {p: read(p) for p in files(os.path.join(root, "crates"), ".antt")}
    own, functions, foreign, plain = collect(texts, crates)
    new = {n: respelled(n, functions) for n in sorted(own)}
    new = {n: m for n, m in new.items() if n != m}
    taken, bad = {}, []
    for n, m in new.items():
        if m in foreign or m in plain:
            bad.append((n, m, "is there already"))
        if m in taken:
            bad.append((n, m, "and " + taken[m]))
        taken[m] = n
    return new, bad


def turn_names(text, new):
    return re.sub(NAME, lambda m: new.get(m.group(0), m.group(0)), text)


def turn_quoted(text, new):
    """Names in backquotes, as comments and pages have them."""
    return re.sub(r"`[^`\n]+`", lambda m: turn_names(m.group(0)[1:-1], new).join("``"), text)


def turn_antt(text, new):
    lines = []
    for l in text.split("\n"):
        head, dashes, comment = (l, "", "") if "--" not in l else re.match(r"(.*?)((?:^|\s)--\s)(.*)$", l).groups() if re.search(r"(?:^|\s)--\s", l) else (l, "", "")
        lines.append(turn_names(head, new) + dashes + turn_quoted(comment, new))
    return "\n".join(lines)


def turn_source(text, new):
    """Clauses and ghost imports; code has no dashed names, and strings stay."""
    lines = []
    for l in text.split("\n"):
        s = l.lstrip()
        if s.startswith("//"):
            lines.append(turn_quoted(l, new))
        elif s.startswith(("ghost use ", "requires", "ensures", "ghost ")):
            lines.append(turn_names(l, new))
        else:
            lines.append(l)
    return "\n".join(lines)


def main(argv):
    root = "."
    new, bad = table(root)
    if argv == ["--list"]:
        print("\n".join(f"{n} {m}" for n, m in new.items()))
    for n, m, why in bad:
        print(f"falls together: {n} as {m}: {why}", file=sys.stderr)
    if argv == ["--list"] or bad:
        return 1 if bad else 0
    for ends, turn in ((".antt", turn_antt), (".rt", turn_source), (".md", turn_quoted), (".edit", turn_names)):
        for p in files(root, ends):
            text = read(p)
            turned = turn(text, new)
            if turned != text:
                with open(p, "w", encoding="utf-8") as f:
                    f.write(turned)
    return 0


if __name__ == "__main__":
    raise SystemExit(main(sys.argv[1:]))
