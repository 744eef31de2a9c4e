#!/usr/bin/env python3
"""Counts the places of src/ that docs/history/DESIGN-PASS.md speaks of. Run it at the top of a checkout: docs/history/tools/places.py [--list]."""

import collections
import itertools
import pathlib
import re
import sys

FILES = sorted(pathlib.Path("crates").glob("*/src/**/*.rt"))
GHOST = re.compile(r"^\s*(//|ghost |requires |ensures )")
HEAD = re.compile(r"^( *)(?:pub |pub\(crate\) )?fn (\w+)")
PASSED_ON = r"Ok\((\w+|\(\))\) => Ok\(|Err\(\w+\) => Err\(|Err\(_\) => (Err|unreachable)|let Ok\(.*\) = .* else|if let Err\(|if let Some\(why\)"
COMPARED = r"\.0 (==|!=|<=?|>=?) |(==|!=|<=?|>=?) [a-z_.]+\.0\b"
CAST = r" as (u8|u16|u32|u64|usize|char)\b"


def lines(pattern):
    found = []
    for file in FILES:
        for number, line in enumerate(file.read_text().splitlines(), 1):
            if not GHOST.match(line) and re.search(pattern, line):
                found.append(f"{file}:{number}: {line.strip()}")
    return found


def functions():
    """Each function with its parameters, its clauses and its body."""
    for file in FILES:
        text = file.read_text().splitlines()
        for start, line in enumerate(text):
            head = HEAD.match(line)
            if not head:
                continue
            indent, name = head.groups()
            opens = start
            while opens < len(text) and not re.search(r"(^|[^{}]) ?\{$", text[opens]) and not text[opens].endswith(";"):
                opens += 1
            closes = opens
            while closes < len(text) and text[closes] != indent + "}":
                closes += 1
            if opens == len(text) or text[opens].endswith(";"):
                closes = opens
            whole = " ".join(text[start : opens + 1])
            inside = whole[whole.index("(") + 1 :].split(" ensures ")[0].split(" requires ")[0]
            yield f"{file}: {name}", inside, whole, "\n".join(text[opens + 1 : closes])


def twins():
    """Functions whose bodies are alike but for names, numbers and texts."""
    alike = collections.defaultdict(list)
    for place, _, _, body in functions():
        shape = re.sub(r'b?"[^"]*"|b?\'[^\']*\'|\b\d+\b|\b[a-z_]\w*\b|\b[A-Z]\w*\b', "·", body)
        if shape.count("·") >= 6:
            alike[re.sub(r"\s+", " ", shape)].append(place)
    return [" = ".join(places) for places in alike.values() if len(places) > 1]


def travelling():
    """Sets of three parameters that stand together in three or more functions."""
    together = collections.defaultdict(set)
    for place, inside, _, _ in functions():
        names = sorted(set(re.findall(r"(\w+): ([^,()]+)", re.sub(r"\s+", " ", inside))))
        for group in itertools.combinations(names, 3):
            together[group].add(place)
    return sorted(", ".join(f"{n}: {t.strip()}" for n, t in group) + f" ({len(places)})" for group, places in together.items() if len(places) >= 3)


def needs():
    """Conditions of `requires` that stand in three or more functions."""
    count = collections.Counter()
    for _, _, whole, _ in functions():
        for clause in re.findall(r"requires(?: \w+)? \{(.*?)\}(?= |$)", whole):
            count.update({part.strip(" ()") for part in clause.split("×")})
    return [f"{need} ({n})" for need, n in count.items() if n >= 3]


POINTS = [
    ("1 own enums", lines(r"^(pub )?enum ")),
    ("1 errors passed on by hand", lines(PASSED_ON)),
    ("1 refusals in an Option", lines(r"-> Option<\w*(Refusal|Error)>")),
    ("1 flags of a struct", lines(r"^    (pub )?\w+: bool,")),
    ("1 numbers of kinds", lines(r"=> \d+,$")),
    ("2 functions alike but for names, numbers and texts", twins()),
    ("3 loops over numbers or by hand", lines(r"^\s*(while |loop |for .* in .*\.\.)")),
    ("3 chains over numbers", lines(r"^\s*.*\(0\.\.")),
    ("4 numbers inside compared", lines(COMPARED)),
    ("4 numbers inside as an index", lines(r"\.0 as usize")),
    ("4 other casts", [place for place in lines(CAST) if ".0 as usize" not in place]),
    ("4 numbers inside printed", lines(r"(print|write)(ln)?!.*\.0\b|^\s*\w+(\.0)+(, \w+(\.0)+)*$")),
    ("4 conversions by hand", lines(r"fn (of_route|of_rule|error_at|word)\(")),
    ("5 parameters that travel together", travelling()),
    ("5 needs that stand in three functions", needs()),
    ("6 arrays", lines(r"^    (pub(\(crate\))? )?\w+: \[.*; \d+\],")),
    ("7 steps named by an enum", lines(r"^pub enum (Act|Call)\b")),
]

for title, found in POINTS:
    print(f"{title}: {len(found)}")
    if "--list" in sys.argv:
        for place in found:
            print(f"    {place}")
