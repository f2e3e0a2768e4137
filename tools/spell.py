#!/usr/bin/env python3
"""Spells the repository's own words in snake case, once, behind the kit's port.py.

usage: python3 tools/spell.py [--dry] [CRATE..]     at the top of the repository

Definitions, lemmas, fields and constructors of specs/ and proofs/ that were written as likeThis or like-this become like_this; types, modules,
functions of src/ and text in quotes stay. In the proof of a function, what Rattle makes of a name of src/ (copy-from-slice) takes that
name's own spelling (copy_from_slice). A lemma that would be called as a definition gets _holds behind its name. It prints
which other names stand twice then.
"""
import collections
import glob
import os
import re
import sys

TOKEN = re.compile(r"[^\s(){}\[\].,;\"⦃⦄@#]+")
HEAD = re.compile(r"\s*((?:(?:abbrev|opaque|unfoldable|pub|instance|let)\s+)*)(?:(record|data)\s+)?([^\s:(){},.=|]+)(?:\s+[^=]*?)?\s*:(?:\s|$)")
STRING = re.compile(r'b?"(?:\\.|[^"\\])*"')
# what Rattle names itself in a function's proof
MADE = re.compile(r"^(returns|loop|invariant|decreases|offset|bounds|in|if|while|init|preserved|told|.*-(requires|bounds|arg|init|preserved|after)(-\d+)?$)(-|$)")


def snake(name):
    if not re.match(r"[A-Z]", name):
        name = re.sub(r"(?<=[a-z0-9])([A-Z])", lambda m: "_" + m[1].lower(), name)
    return re.sub(r"(?<=[\w'])-(?=[\w'])", "_", name)


def proof_of_function(path):
    return "/proofs/" in path and os.path.dirname(path).split("/proofs/")[-1] != os.path.dirname(path)


def files(kind):
    return sorted(p for p in glob.glob("crates/*/**/*." + kind, recursive=True) if "/out/" not in p)


def code(line):
    """A line up to its comment."""
    m = re.search(r"(?:^|\s)--(?:\s|$)", line)
    return (line, "") if not m else (line[: m.start()], line[m.start() :])


def own_names():
    names = collections.defaultdict(set)
    for p in files("antt"):
        in_function = proof_of_function(p)
        for line in open(p, encoding="utf-8"):
            m = HEAD.match(code(line)[0])
            if not m or m[3] in ("use", "mod", "module", "where", "λ", "→", "in"):
                continue
            if in_function and ("pub" in m[1] or MADE.match(m[3])):
                continue
            names[m[3]].add(p)
    return names


def tokens():
    found = collections.defaultdict(set)
    for p in files("antt") + files("rt"):
        for line in open(p, encoding="utf-8"):
            for t in TOKEN.findall(code(line)[0]):
                found[t].add(p)
    return found


def turned(text, table, rust):
    out = []
    for line in text.split("\n"):
        body, comment = code(line) if not rust else ((line, "") if not line.lstrip().startswith("//") else ("", line))
        spans = [m.span() for m in STRING.finditer(body)] if rust else []
        word = lambda m: m[0] if any(a <= m.start() < b for a, b in spans) else table.get(m[0], m[0])  # noqa: E731
        out.append(TOKEN.sub(word, body) + TOKEN.sub(lambda m: table[m[0]] if m[0] in table and re.search("[A-Z]", m[0]) else m[0], comment))
    return "\n".join(out)


def made_names(crate):
    """Names with underscores in the crate's code, as Rattle used to write them in a function's proof."""
    # the first ones are Rattle's own
    names = {"type_inv", "well_formed", "slice_known", "shared_slice_known", "row_known", "way_told"}
    for p in glob.glob(f"crates/{crate}/src/**/*.rt", recursive=True):
        names |= set(re.findall(r"\b[a-z]\w*_\w*\b", open(p, encoding="utf-8").read()))
    return sorted(((n.strip("_").replace("_", "-"), n) for n in names if "-" in n.strip("_").replace("_", "-")), key=lambda x: -len(x[0]))


def main(argv):
    dry = "--dry" in argv
    found, names = tokens(), own_names()
    table = {n: snake(n) for n in names if snake(n) != n}
    # a lemma that would be called as the definition that it speaks of
    for n in [n for n in table if "-" in n and (table[n] in names or any(m != n and "-" not in m and table[m] == table[n] for m in table))]:
        table[n] += "_holds"
    back = collections.defaultdict(set)
    for old, new in table.items():
        back[new].add(old)
    for new, olds in sorted(back.items()):
        if len(olds) > 1 or new in names or new in found:
            print("falls together:", new, "<-", " ".join(sorted(olds)), "| stands already in" if new in found else "", *sorted(found.get(new, []))[:4])
    print(len(table), "names")
    if dry:
        return
    for p in files("antt") + files("rt"):
        text = open(p, encoding="utf-8").read()
        new = turned(text, table, p.endswith(".rt"))
        if proof_of_function(p):
            made = made_names(p.split("/")[1])

            def spelled(m):
                t = m[0]
                for kebab, name in made:
                    t = re.sub(rf"(?:(?<=-)|(?<![\w-])){re.escape(kebab)}(?![\w])", name, t)
                return t

            new = TOKEN.sub(lambda m: spelled(m) if "-" in m[0] and m[0] not in table.values() else m[0], new)
        if new != text:
            open(p, "w", encoding="utf-8").write(new)


if __name__ == "__main__":
    main(sys.argv[1:])
