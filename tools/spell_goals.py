#!/usr/bin/env python3
"""Spells the names of goals and steps in proofs/F/ as today's Rattle makes them: a name of src/ keeps its underscores, and so
do Rattle's own words. Run at the top after spell_names.py: spell_goals.py CRATE.."""
import os
import re
import sys

WORDS = ["type_inv", "slice_bounds", "offset_bounds", "invariant_of", "in_default", "in_err", "in_ok", "index_mut", "into_iter", "as_slice", "as_mut_slice", "unwrap_or", "is_some", "is_none", "from_residual"]
WORDS += ["overflow_" + w for w in ("add", "sub", "mul", "shl", "shr", "cast", "step", "neg")] + ["nonzero_div", "nonzero_rem"]


def idents(crate):
    found = set(WORDS)
    for folder, _, names in os.walk(os.path.join("crates", crate, "src")):
        for name in names:
            if name.endswith(".rt"):
                text = open(os.path.join(folder, name), encoding="utf-8").read()
                text = re.sub(r"//.*", "", text)
                found |= {w for w in re.findall(r"\b[A-Za-z]\w*\b", text) if "_" in w}
    return sorted(found, key=len, reverse=True)


def main():
    for crate in sys.argv[1:]:
        ids = idents(crate)
        pattern = re.compile("(?<![A-Za-z0-9_])(" + "|".join(re.escape(w.replace("_", "-")) for w in ids) + r")(?![A-Za-z0-9_])")
        back = {w.replace("_", "-"): w for w in ids}

        def turn(token):
            return pattern.sub(lambda m: back[m.group(1)], token)

        for folder, _, names in os.walk(os.path.join("crates", crate, "proofs")):
            for name in names:
                if name not in ("Answers.antt", "Invariants.antt"):
                    continue
                path = os.path.join(folder, name)
                text = open(path, encoding="utf-8").read()
                goals = set(re.findall(r"^(?:pub |abbrev pub )?(\S+) : (?:goal|need)\.", text, re.M))
                taken = set()
                for items in re.findall(r"^use Rattle\.\w+\.proofs\.[\w.+]*\.Goals\.\{([^}]*)\}", text, re.M):
                    taken |= {i.strip() for i in items.split(",")}

                def line_turn(line):
                    if re.match(r"use ", line):
                        if ".Goals.{" in line or ".Given.{" in line:
                            return re.sub(r"\{[^}]*\}", lambda m: turn(m.group(0)), line)
                        return line
                    line = re.sub(r"(?<=\.)[A-Za-z][\w'-]*", lambda m: turn(m.group(0)), line)
                    return re.sub(r"(?<![\w.'-])[A-Za-z][\w'-]*", lambda m: turn(m.group(0)) if m.group(0) in goals | taken else m.group(0), line)

                new = "\n".join(line_turn(l) for l in text.split("\n"))
                if new != text:
                    open(path, "w", encoding="utf-8").write(new)


main()
