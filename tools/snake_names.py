#!/usr/bin/env python3
"""Spells the definitions and lemmas of crates/*/specs and crates/*/proofs as Rattle does now: words in snake case, types in camel case.

usage: python3 tools/snake_names.py [--look]     at the top of the repository, once, after the kit's port.py

What is renamed is what the specs and proofs of this tree themselves define with a hyphen in its name: definitions, lemmas,
constructors, fields and helpers of a `where`. Names that Rattle makes (goals, steps of a proof, as `c.look-kind`) and names of the
library keep theirs, and so does all Rust text: only what stands in clauses and ghost lines is touched there.
With --look nothing is written; names that fall together with others are printed either way.
"""
import collections
import os
import re
import sys

DEFINED = re.compile(
    r"^(\s*)((?:abbrev |unfoldable |pub |record |data |opaque |module |in |let )*)([A-Za-z][\w'-]*)\s*"
    r"((?:\([^()]*(?:\([^()]*\)[^()]*)*\)\s*|\{[^{}]*\}\s*)*):(?![=:])"
)
TOKEN = re.compile(r"(?<![\w'\-])([A-Za-z][\w']*(?:-[\w']+)+)(?![\w\-'])")
WORD = re.compile(r"[A-Za-z_][\w']*")
MADE = ("Answers.antt", "Invariants.antt", "Proof.antt")


def files(ending):
    for folder, dirs, names in os.walk("crates"):
        dirs[:] = sorted(d for d in dirs if d != "out")
        for name in sorted(names):
            if name.endswith(ending):
                yield os.path.join(folder, name)


def code_of(line):
    return re.sub(r"(^|\s)--.*", "", line)


def of_function(path):
    return "/proofs/" in path and os.path.basename(path) in MADE


def own_names():
    names = set()
    for path in files(".antt"):
        with open(path) as text:
            for line in text:
                m = DEFINED.match(code_of(line))
                if not m or "-" not in m.group(3):
                    continue
                # at the left margin of a function's proof stand answers, which have goals' names
                if of_function(path) and not m.group(1):
                    continue
                names.add(m.group(3))
    return names


def spelled(name):
    if name[0].isupper():
        head, *rest = name.split("-")
        return head + "".join(word[0].upper() + word[1:] for word in rest)
    return name.replace("-", "_")


def turn_antt(path, text, names):
    made = of_function(path)
    lines = []
    for line in text.split("\n"):

        def change(m):
            if m.group(1) not in names:
                return m.group(1)
            before = line[: m.start()]
            # a step or a goal: `c.look-kind`, `goal.x`
            if made and re.search(r"\b[cvgl](\.[\w'-]+)*\.$|\bgoal\.$", before):
                return m.group(1)
            if made and re.match(r"\s*(pub )?$", before) and not line.startswith(" "):
                return m.group(1)
            return spelled(m.group(1))

        lines.append(TOKEN.sub(change, line))
    return "\n".join(lines)


def turn_rt(text, names):
    lines = []
    for line in text.split("\n"):
        if line.lstrip().startswith("//"):
            lines.append(line)
        else:
            lines.append(TOKEN.sub(lambda m: spelled(m.group(1)) if m.group(1) in names else m.group(1), line))
    return "\n".join(lines)


def fallen_together(path, before, after, names):
    """New names that stood in the file already, as the name of something else."""
    stood = set(WORD.findall("\n".join(code_of(line) for line in before.split("\n"))))
    new = {spelled(t) for t in TOKEN.findall(before) if t in names}
    return sorted(n for n in new & stood if n in after)


def main():
    look = "--look" in sys.argv[1:]
    names = own_names()
    spellings = collections.defaultdict(set)
    for name in names:
        spellings[spelled(name)].add(name)
    for new, old in sorted(spellings.items()):
        if len(old) > 1:
            print(f"falls together: {', '.join(sorted(old))} -> {new}")
    changed = 0
    for ending in (".antt", ".rt"):
        for path in files(ending):
            with open(path) as file:
                before = file.read()
            after = turn_antt(path, before, names) if ending == ".antt" else turn_rt(before, names)
            for name in fallen_together(path, before, after, names):
                print(f"look: {path}: {name} stood there already")
            if after != before:
                changed += 1
                if not look:
                    with open(path, "w") as file:
                        file.write(after)
    print(f"{len(names)} names, {changed} files")


if __name__ == "__main__":
    main()
