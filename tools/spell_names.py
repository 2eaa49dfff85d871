#!/usr/bin/env python3
"""Spells the repository's own definitions and lemmas as today's library does. Run once, at the top, after the kit's port.py.

Functions, lemmas, fields and antt's constructors go to snake case, facts and types to upper camel case; the crates `unicode`
and `either`, whose names the kit has taken, become `characters` and `either_source`. Names of src/, answers of goals, names of the
kit, strings, inputs and outputs stay. Prints each name that could fall together with another, and changes nothing then.
"""
import os
import re
import sys

CRATES = {"unicode": "characters", "either": "either_source"}
# Words of prose in comments, too.
PROSE = {"well-formed", "ill-formed"}
# A field of a law has the name that this one would get.
OTHERWISE = {"tooLong": "run_too_long"}
WORD = r"[^\s(){}\[\],;.:\"`λ∷|↦→×≡∥]+"
DECLARED = re.compile(r"^\s*(?:(?:abbrev|unfoldable|pub|data|record)\s+)*(" + WORD + r")(?:\s+[({].*?[)}])*\s*:(?:\s|$)")
GOAL = re.compile(r"^\s*(?:(?:abbrev|unfoldable|pub)\s+)*" + WORD + r"\s*:\s*(?:goal|need)\.")


def files(*endings):
    for folder, dirs, names in os.walk("crates"):
        dirs[:] = sorted(d for d in dirs if d != "out")
        for name in sorted(names):
            if name.endswith(endings):
                yield os.path.join(folder, name)


def spelled(name):
    if name in OTHERWISE:
        return OTHERWISE[name]
    if re.match(r"[A-Z]", name):
        parts = re.split(r"[-_]", name)
        return parts[0] + "".join(p[:1].upper() + p[1:] for p in parts[1:])
    if not re.search(r"[A-Za-z]-[A-Za-z]|[a-z][A-Z]", name):
        return name
    name = re.sub(r"(?<=[A-Za-z0-9'])-(?=[A-Za-z0-9])", "_", name)
    return re.sub(r"(?<=[a-z])([A-Z])", lambda m: "_" + m.group(1).lower(), name)


def own_names():
    """Old name to new, of what specs/ and proofs/ declare, but for the answers of goals."""
    names, fields = {}, set()
    for path in files(".antt"):
        for line in open(path, encoding="utf-8"):
            m = DECLARED.match(line)
            if not m or line.lstrip().startswith("--") or GOAL.match(line) or m.group(1) in ("use", "module"):
                continue
            for name in m.group(1).strip("◌").split("◌"):
                if spelled(name) != name:
                    names[name] = spelled(name)
                    if line.startswith("  "):
                        fields.add(name)
    return names, fields


def aliases(text):
    return set(re.findall(r" as (" + WORD + r")", "\n".join(l for l in text.splitlines() if re.match(r"\s*(ghost )?(pub )?use ", l))))


def foreign(text):
    """What a file imports from elsewhere than this repository."""
    own = {d for d in os.listdir("crates")}
    found = set()
    for crate, items in re.findall(r"^\s*(?:pub )?(?:ghost )?use Rattle\.(\w+)\.[\w.+-]*?\.?\{([^}]*)\}", text, re.M):
        if crate not in own:
            found |= {i.split(" as ")[-1].strip().strip("◌") for i in items.split(",")}
    return found


def turn_file(path, names, fields, clashes):
    text = open(path, encoding="utf-8").read()
    here = {n: s for n, s in names.items() if n not in foreign(text)}
    for a in aliases(text):
        if spelled(a) != a and re.match(r"[a-z]", a):
            here[a] = spelled(a)
    answers = {m.group(1) for l in text.splitlines() if GOAL.match(l) and (m := DECLARED.match(l))}
    here = {n: s for n, s in here.items() if n not in answers}
    tokens = set(re.findall(WORD, text))
    modules = set(re.findall(r"use Rattle\.\w+\.(?:specs|proofs)\.[\w.]+ as (\w+)", text)) - {"goal", "need"}

    def turn(m):
        old = m.group(0)
        before = text[max(0, m.start() - 200) : m.start()]
        if old in PROSE and "--" in before.rsplit("\n", 1)[-1]:
            return old
        if old not in here:
            parts = old.split("◌")
            if len(parts) > 1 and any(p in here for p in parts):
                return "◌".join(here.get(p, p) for p in parts)
            return old
        if before.endswith(".") and old not in fields:
            line = before.rsplit("\n", 1)[-1]
            of_module = (k := re.search(r"(\w+)\.$", before)) and k.group(1) in modules
            if not of_module and not re.match(r"\s*(pub )?(ghost )?use ", line):
                return old
        if here[old] in tokens:
            clashes.add((path, old, here[old]))
        return here[old]

    if path.endswith(".rt"):
        lines = text.splitlines(keepends=True)
        out, at, open_use = [], 0, False
        for line in lines:
            inside = open_use
            open_use = ("ghost use " in line or inside) and ";" not in line
            code = not inside and not re.match(r"\s*(ghost |requires|ensures|//|pub ghost )", line) and not re.search(r"requires \{|ensures( \w+)? \{|ghost ", line)
            start = at
            at += len(line)
            out.append(line if code else re.sub(WORD, lambda m, s=start: turn(Shift(m, s)), line))
        new = "".join(out)
    else:
        new = re.sub(WORD, turn, text)
    return text, new


class Shift:
    """A match within a line, by its place in the file."""

    def __init__(self, m, by):
        self.m, self.by = m, by

    def group(self, k):
        return self.m.group(k)

    def start(self):
        return self.m.start() + self.by


def rename_crates(text):
    for old, new in CRATES.items():
        text = re.sub(r"Rattle\." + old + r"\.", "Rattle." + new + ".", text)
        text = re.sub(r"^(\s*(?:pub )?use )" + old + r"::", r"\1" + new + "::", text, flags=re.M)
    return text


def main():
    names, fields = own_names()
    clashes, turned = set(), {}
    for path in files(".antt", ".rt"):
        text, new = turn_file(path, names, fields, clashes)
        new = re.sub(r"\b(\w+) as \1(?=[,}])", r"\1", rename_crates(new))
        if new != text:
            turned[path] = new
    declared = {}
    for old, new in names.items():
        declared.setdefault(new, set()).add(old)
    for path in files(".antt"):
        for line in open(path, encoding="utf-8"):
            m = DECLARED.match(line)
            if m and m.group(1) in declared and not GOAL.match(line):
                declared[m.group(1)].add(m.group(1))
    for new, olds in sorted(declared.items()):
        if len(olds) > 1:
            print("falls together:", ", ".join(sorted(olds)), "->", new)
    for path, old, new in sorted(clashes):
        print(f"in use: {path}: {old} -> {new}")
    if "--look" in sys.argv:
        return
    for path, new in turned.items():
        open(path, "w", encoding="utf-8").write(new)
    listed = open("crates.txt", encoding="utf-8").read()
    lines = []
    for line in listed.splitlines(keepends=True):
        lines.append(line if line.startswith("#") else re.sub(r"\w+", lambda m: CRATES.get(m.group(0), m.group(0)), line))
    open("crates.txt", "w", encoding="utf-8").write("".join(lines))
    for old, new in CRATES.items():
        if os.path.isdir("crates/" + old):
            os.rename("crates/" + old, "crates/" + new)
    # the kit's script has turned some names already
    for path in files(".antt"):
        for line in open(path, encoding="utf-8"):
            m = DECLARED.match(line)
            if m and "_" in m.group(1) and not GOAL.match(line):
                names.setdefault(m.group(1).replace("_", "-"), m.group(1))
    docs = ["README.md"] + ["docs/" + f for f in sorted(os.listdir("docs")) if f.endswith(".md")]
    for path in docs:
        text = open(path, encoding="utf-8").read()
        new = re.sub(r"`[^`\n]+`", lambda q: re.sub(WORD, lambda m: names.get(m.group(0), m.group(0)), q.group(0)), text)
        if new != text:
            open(path, "w", encoding="utf-8").write(new)


main()
