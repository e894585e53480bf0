#!/usr/bin/env python3
"""Turns the proofs that walk a function's code by hand into Invariants.antt and Answers.antt.

usage: tools/answers.py NAMES CRATE..     at the top of the repository

NAMES/crates/CRATE/names.json is what `rt names NAMES` lists: each goal's and each step's old and new name. An answer that says `search rules`
is left out, since the check tries that by itself. A file that has lemmas or modules of its own keeps them in Answers.antt.
"""

import json
import os
import re
import sys

NAME = r"[^\s(){}\[\],;:.λ∀`\"]+"


def read(path):
    with open(path, encoding="utf-8") as f:
        return f.read()


def plain(name):
    """A goal's name with neither its kind's prefix nor the two spellings of a join."""
    name = re.sub(r"^overflow[-_]", "", name)
    return name.replace("_", "-")


def functions(src):
    """The names of the requires and of the ensures of each function."""
    found = {}
    for m in re.finditer(r"fn (\w+)[^{;]*?\)(?: -> [^\n{]+)?\n((?:\s+(?:requires|ensures)\*? (?:\w+ )?\{.*\}\n)*)", src):
        clauses = re.findall(r"(requires|ensures)\*? (?:(\w+) )?\{", m.group(2))
        found[m.group(1)] = {k: [n for kind, n in clauses if kind == k] for k in ("requires", "ensures")}
    return found


def blocks(text):
    """The imports, and the declarations one by one, each with the comment above it."""
    uses, parts, now = [], [], []
    for l in text.split("\n"):
        if re.match(r"(?:pub )?use ", l):
            uses.append(l)
        elif not l.strip():
            if now:
                parts.append(now)
            now = []
        else:
            now.append(l)
    if now:
        parts.append(now)
    # A declaration with a blank line inside it goes on indented.
    joined = []
    for p in parts:
        if joined and p[0].startswith(" "):
            joined[-1] += [""] + p
        else:
            joined.append(p)
    return uses, joined


def split_top(body, sep=","):
    """The parts of a tuple's inside."""
    parts, depth, now = [], 0, ""
    for ch in body:
        if ch in "({[":
            depth += 1
        if ch in ")}]":
            depth -= 1
        if ch == sep and depth == 0:
            parts.append(now.strip())
            now = ""
        else:
            now += ch
    if now.strip():
        parts.append(now.strip())
    return parts


def as_record(body, fields):
    """A tuple at the end of a body, as the record of these clauses."""
    at = body.rstrip()
    if len(fields) < 2 or any(f == "" for f in fields) or not at.endswith(")"):
        return body
    depth = 0
    for i in range(len(at) - 1, -1, -1):
        depth += at[i] in ")]}"
        depth -= at[i] in "([{"
        if depth == 0:
            break
    if at[:i].strip() and not re.search(r"(\bin|=)\s*$", at[:i]):
        return body
    parts = split_top(at[i + 1 : -1])
    if len(parts) != len(fields):
        return body
    return at[:i] + "record { " + "; ".join(f"{f} = {p}" for f, p in zip(fields, parts)) + " }"


class Function:
    def __init__(self, names, told):
        self.told = told
        self.goals = {}
        for old, new in names["needs"]:
            self.goals.setdefault(plain(old), new)
        self.steps = {}
        self.fields = {}
        for place, parent, step, callee, _ in names["places"]:
            if step[0]:
                self.steps.setdefault(step[0], step[1])
                if callee:
                    self.fields[step[1]] = told.get(callee.split("::")[-1], {}).get("ensures", [])
        self.loops = [(l[0], l[1], c) for l, c in zip(names["loops"], names["changed"])]
        self.asked = {plain(k): v for k, v in names["asked"].items()}
        self.callee = {}
        for place, parent, step, callee, _ in names["places"]:
            if callee:
                self.callee[plain(step[0])] = callee.split("::")[-1]

    def goal(self, old):
        return self.goals.get(plain(old))

    def loop(self, old):
        for (o, n), variables, changed in self.loops:
            if plain(o) == plain(old):
                return n, variables, changed
        return None

    def path(self, m):
        """c.before.before.x.ensures.0 as c.new-x.ensures.value"""
        parts = m.group(0).split(".")
        parts = [parts[0]] + [p for p in parts[1:] if p != "before"]
        if len(parts) > 1 and parts[1] in self.steps:
            parts[1] = self.steps[parts[1]]
            if len(parts) > 3 and parts[2] == "ensures" and parts[3].isdigit():
                names = self.fields.get(parts[1], [])
                if len(names) > 1 and int(parts[3]) < len(names):
                    parts[3] = names[int(parts[3])]
        return ".".join(parts)

    def body(self, text):
        aliases = {"c"}
        lines = []
        for l in text.split("\n"):
            m = re.match(r"\s*let (" + NAME + r") = (" + NAME + r")((?:\.before)*) in$", l)
            if m and m.group(2) in aliases:
                aliases.add(m.group(1))
                continue
            lines.append(l)
        text = "\n".join(lines)
        for a in sorted(aliases - {"c"}, key=len, reverse=True):
            text = re.sub(r"(?<![\w.'-])" + re.escape(a) + r"(?![\w'-])", "c", text)
        return re.sub(r"(?<![\w.'-])c(?:\.[\w'-]+)+", self.path, text)


def answer(lines, function, goal, prefix, cycle):
    """A goal's answer under its new name; None where the check finds it by itself."""
    comment = [l for l in lines if l.startswith("--")]
    code = [l for l in lines if not l.startswith("--")]
    head = 1
    unfolding = []
    while code[head].startswith("unfolding"):
        unfolding.append(code[head])
        head += 1
    text = "\n".join(code[head:])
    left, body = text.split("=", 1)
    body = function.body(body)
    if not unfolding and body.strip() == "search rules" or body.strip() == "(search rules, search rules)":
        return None
    if plain(goal[0]) in function.asked:
        body = as_record(body, function.asked[plain(goal[0])])
    m = re.match(r"(.*?)-requires(?:-\d+)?$", plain(goal[0]))
    if m:
        callee = function.callee.get(m.group(1)) or m.group(1).replace("-", "_")
        body = as_record(body, function.told.get(callee, {}).get("requires", []))
    name = prefix + goal[1]
    args = "t c" if cycle else "c"
    return "\n".join(comment + [f"pub {name} : goal.{name}"] + unfolding + [f"{name} {args} ={body}"])


def invariant(lines, function, loop, prefix, what, cycle):
    comment = [l for l in lines if l.startswith("--")]
    code = [l for l in lines if not l.startswith("--")]
    left, body = "\n".join(code[1:]).split("=", 1)
    new, variables, changed = loop
    names = left.split()[1:]
    later = [v for v, c in zip(variables, changed) if c]
    to = {}
    for n, v, c in zip(names, variables, changed):
        to[n] = f"l.initial.{v}" if c else f"l.{v}"
    for n, v in zip(names[len(variables) :], later):
        to[n] = f"l.{v}"
    if len(names) != len(variables) + len(later):
        comment.append(f"-- TODO: {names} for {variables} {later}")
    body = re.sub(r"(?<![\w.'₀-₉-])(" + NAME + r")", lambda m: to.get(m.group(1), m.group(1)), body)
    name = f"{what}-{prefix}{new}"
    return "\n".join(comment + [f"abbrev pub {name} : goal.{name}", f"{name} l ={body}"])


def turn(crate, path, names, told):
    folder = os.path.dirname(path)
    module = os.path.relpath(folder, os.path.join("crates", crate, "proofs")).replace("/", ".")
    text = read(path)
    uses, parts = blocks(text)
    top = []
    if parts and all(l.startswith("--") for l in parts[0]):
        top = parts.pop(0)
    else:
        first = text.split("\n")
        while first and first[0].startswith("--"):
            top.append(first.pop(0))
        if parts and top and parts[0][: len(top)] == top:
            parts[0] = parts[0][len(top) :]
        if not parts[0]:
            parts.pop(0)
    cycle = module.split(".")[-1].startswith("+")
    members = {}
    for u in uses:
        m = re.match(r"use Rattle\.\w+\.proofs\.(\S+)\.Lts-(\S+) as (\S+)", u)
        if m:
            members[m.group(3)] = m.group(2)
    base = f"Rattle-{crate}-proofs.{module}.Lts"
    invariants, answers, left = [], [], []
    for lines in parts:
        code = [l for l in lines if not l.startswith("--")]
        if not code:
            left.append("\n".join(lines))
            continue
        m = re.match(r"(?:pub )?(?:abbrev )?(\S+) : (.*)", code[0])
        if m and re.search(r"\bstatement M$", m.group(2)):
            continue
        kind = m and re.search(r"(?:^|→ |\s)(tie|" + "|".join(map(re.escape, members or ["tie"])) + r")\.(invariant|decreases|Need|Claims)(?:-(\S+))?", m.group(2))
        if not kind:
            if cycle and m and re.search(r"Measures|: ℕ → In ", code[0]):
                continue
            left.append("\n".join(lines))
            continue
        key = base if kind.group(1) == "tie" else f"{base}-{members[kind.group(1)]}"
        prefix = members[kind.group(1)] + "-" if len(members) > 1 else ""
        if kind.group(2) == "Claims":
            continue
        function = Function(names[key], told)
        if kind.group(2) in ("invariant", "decreases"):
            loop = function.loop(kind.group(3))
            if not loop:
                left.append("-- TODO no loop " + kind.group(3) + "\n" + "\n".join(lines))
                continue
            invariants.append(invariant(lines, function, loop, prefix, kind.group(2), cycle))
            continue
        new = function.goal(kind.group(3))
        if not new:
            body = code[-1].split("=", 1)[-1].strip()
            if body == "search rules":
                continue
            left.append("-- TODO no goal " + kind.group(3) + "\n" + "\n".join(lines))
            continue
        a = answer(lines, function, (kind.group(3), new), prefix, cycle)
        if a:
            answers.append(a)
    kept = [u for u in uses if not re.search(r"\.(Statement|Tie|Reads|Kinds)\b|\.Lts-|\.\{statement\}|borrow\.Fn\.", u)]
    os.remove(path)

    def write(name, module_uses, parts):
        if parts:
            own = [f"use Rattle.{crate}.proofs.{module}.{module_uses} as goal"]
            with open(os.path.join(folder, name), "w", encoding="utf-8") as f:
                f.write("\n".join(top + kept + own) + "\n\n" + "\n\n".join(parts) + "\n")

    if cycle:
        for member in dict.fromkeys(members.values()):
            for lines in parts:
                m = re.match(r"abbrev μ_" + member.replace("-", "_") + r" :", lines[0])
                if m:
                    value = lines[-1].split("=", 1)[1]
                    order = names[f"{base}-{member}"]["params"].get(f"{crate}::{member}", [])
                    value = re.sub(r"\ba((?:\.1)*)\.0", lambda k: "l." + order[len(k.group(1)) // 2] if len(k.group(1)) // 2 < len(order) else "l.n", value)
                    invariants.insert(0, f"abbrev pub decreases-{member} : goal.decreases-{member}\ndecreases-{member} l ={value}")
    write("Invariants.antt", "Given", invariants)
    write("Answers.antt", "Goals", left + answers)
    if not os.listdir(folder):
        os.rmdir(folder)
    return [l for l in left if "TODO" in l]


def main(argv):
    told = {}
    for c in sorted(os.listdir("crates")):
        for folder, _, files in os.walk(os.path.join("crates", c, "src")):
            for f in files:
                told.update(functions(read(os.path.join(folder, f))))
    for crate in argv[1:]:
        with open(os.path.join(argv[0], "crates", crate, "names.json"), encoding="utf-8") as f:
            names = json.load(f)
        for folder, _, files in os.walk(os.path.join("crates", crate, "proofs")):
            if "Proof.antt" in files:
                path = os.path.join(folder, "Proof.antt")
                try:
                    for l in turn(crate, path, names, told):
                        print(f"left: {path}: {l.splitlines()[0]}")
                except (KeyError, ValueError, IndexError) as e:
                    print(f"left: {path}: {type(e).__name__} {e}")
    return 0


if __name__ == "__main__":
    raise SystemExit(main(sys.argv[1:]))
