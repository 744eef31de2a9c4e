#!/usr/bin/env python3
"""Brings the repository's own names to today's spelling: words of a definition or a lemma are joined by `_`.

usage: python3 docs/history/tools/respell.py at the top of the repository, once, after the toolchain's own port script

A name that has a dash and that a file of specs/ or proofs/ declares gets underscores, wherever it stands in a .rt or
.antt file of crates/ or, between backticks, in README.md and docs/. Names that the toolchain makes keep theirs: the
goals of a proof folder (Answers.antt, Invariants.antt) and the library's names. Where the new name stands in the text
already, or two names would fall together, the script says so and changes nothing. The crate `check` has the name of a
library of the toolchain, and becomes `checking`.
"""
import os
import re
import sys

NAME = r"(?<![\w'◌-])(%s)(?![\w'◌-])"
DECLARED = re.compile(
    r"\s*(?:abbrev |unfoldable )?(?:pub )?(?:abbrev |unfoldable )?(?:record |data )?"
    r"([^\s:(){},;=]*[\w'])\s*(?:\([^)]*\)\s*|\{[^}]*\}\s*)*:(?!:)"
)
GOAL = re.compile(
    r"^(returns|loop|invariant|decreases|overflow|bounds|slice|index|unreachable|measure|nonzero|offset)-|-requires(-\d+)?$"
)
# names whose words have changed as well
OTHER = {"getD-row": "get_or_row"}


def files():
    for folder, dirs, names in os.walk("crates"):
        dirs[:] = sorted(d for d in dirs if d != "out")
        for name in sorted(names):
            if name.endswith((".rt", ".antt")):
                yield os.path.join(folder, name)


def declared(path, text):
    goals = os.path.basename(path) in ("Answers.antt", "Invariants.antt")
    for line in text.splitlines():
        m = DECLARED.match(line)
        if m and "-" in m.group(1).strip("-") and re.fullmatch(r"[^\W\d][\w'-]*", m.group(1)):
            if not (goals and GOAL.search(m.group(1))):
                yield m.group(1)


def new_name(name):
    return OTHER.get(name) or name.replace("-", "_")


def respelled(text, pattern):
    return pattern.sub(lambda m: new_name(m.group(1)), text)


def rename_crate():
    if not os.path.isdir("crates/check"):
        return
    os.rename("crates/check", "crates/checking")
    for path in files():
        text = open(path, encoding="utf-8").read()
        new = text.replace("Rattle.check.", "Rattle.checking.")
        if path.endswith(".rt"):
            new = re.sub(r"(?<![\w:])check::", "checking::", new) if "mod check;" not in text else new
        if new != text:
            open(path, "w", encoding="utf-8").write(new)
    text = open("crates.txt", encoding="utf-8").read()
    open("crates.txt", "w", encoding="utf-8").write(re.sub(r"(?<!\w)check(?!\w)", "checking", text))


def main():
    rename_crate()
    texts = {p: open(p, encoding="utf-8").read() for p in files()}
    names = sorted({n for p, t in texts.items() for n in declared(p, t)})
    old = {}
    # a path to the goals of a function has the function's name, and no definition's
    whole = "\n".join(
        line
        for p, t in texts.items()
        if p.endswith(".antt")
        for line in t.splitlines()
        if not re.match(r"use \S+\.proofs\.\S+\.(Goals|Given)\b", line)
    )
    words = set(re.findall(r"[^\W\d][\w']*", whole))
    bad = []
    for n in names:
        if new_name(n) in old:
            bad.append(f"{n} and {old[new_name(n)]} fall together")
        old[new_name(n)] = n
        if new_name(n) in words:
            bad.append(f"{n}: {new_name(n)} stands in the text already")
    if bad:
        sys.exit("\n".join(bad))
    pattern = re.compile(NAME % "|".join(re.escape(n) for n in sorted(names, key=len, reverse=True)))
    for p, t in texts.items():
        new = respelled(t, pattern)
        if new != t:
            open(p, "w", encoding="utf-8").write(new)
    for p in ["README.md"] + sorted("docs/" + f for f in os.listdir("docs") if f.endswith(".md") and f != "PORT.md"):
        t = open(p, encoding="utf-8").read()
        new = re.sub(r"`[^`\n]*`", lambda m: respelled(m.group(0), pattern), t)
        if new != t:
            open(p, "w", encoding="utf-8").write(new)
    print(f"{len(names)} names respelled")


main()
