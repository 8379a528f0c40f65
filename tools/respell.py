#!/usr/bin/env python3
"""Turns the repository's own definitions and lemmas to the spelling of today's Rattle: functions and lemmas in snake case, types and facts in camel case.

usage: python3 tools/respell.py          at the top of a repository that the kit's port.py has turned, once
       python3 tools/respell.py --show   says what it would rename, and which names would fall together

It goes by text. Names that Rattle makes (goals and steps of a proof), functions of src/, strings and the rest of the code keep theirs.
In comments and pages only what stands in backticks is turned, and in a proof file's head the lines that show how a definition is called.
"""

import collections
import os
import re
import sys

# The conditions of the refusals were named in capitals, as the refusals are.
CONDITIONS = ["TURN", "SPENT", "BAND", "EMPTY", "TAPE", "SHORTFALL", "FULL", "SHEET", "UNKNOWN", "PRICE", "QUANTITY", "MINIMUM", "MIX"]
# These begin with a capital and are no facts, but lemmas about a condition.
LEMMAS = {f"{c}-found": f"{c.lower()}_holds_found" for c in ("EMPTY", "TAPE", "SHORTFALL", "FULL")}

NAME = r"[^\s(){}\[\].;,@λ:=\"`]+"
HEAD = re.compile(r"^\s*(?:(?:pub|abbrev|unfoldable)\s+)*(?:data|record)\s+(" + NAME + ")")
DECLARED = re.compile(r"^\s*(?:(?:pub|abbrev|unfoldable)\s+)*(" + NAME + r")\s*:\s")


def files():
    for folder, dirs, names in os.walk("crates"):
        dirs[:] = sorted(d for d in dirs if d != "out")
        for n in sorted(names):
            if n.endswith((".rt", ".antt", ".edit")):
                yield os.path.join(folder, n)


def read(p):
    with open(p, encoding="utf-8") as f:
        return f.read()


def declared():
    own = collections.defaultdict(set)
    for p in files():
        if not p.endswith(".antt"):
            continue
        for line in read(p).splitlines():
            if line.lstrip().startswith("--"):
                continue
            m = HEAD.match(line)
            if not m and ": goal." not in line:
                m = DECLARED.match(line)
            if m:
                own[m[1]].add(p)
    return own


def camel(n):
    return "".join(w[:1].upper() + w[1:] for w in n.split("-"))


def spelled(n):
    if n in CONDITIONS:
        return n.lower() + "_holds"
    if n in LEMMAS:
        return LEMMAS[n]
    if "-" not in n.strip("-"):
        return n
    return camel(n) if n[0].isupper() else n.replace("-", "_")


def turned(text, names, made):
    """Code of antt or Rattle, with strings left alone and with what follows `goal.` or a step of a proof left alone."""
    out, last = [], 0
    for m in re.finditer(r"\"(?:\\.|[^\"\\])*\"|" + NAME, text):
        out.append(text[last : m.start()])
        w = m[0]
        before = text[max(0, m.start() - 60) : m.start()]
        if not w.startswith('"') and w in names and not re.search(r"(?<![^\s(\[{,;])goal\.$", before):
            made[w] += 1
            w = names[w]
        out.append(w)
        last = m.end()
    out.append(text[last:])
    return "".join(out)


def in_backticks(text, names, made):
    return re.sub(r"`[^`\n]*`", lambda m: turned(m[0], names, made), text)


def respelled(p, text, names, made):
    if p.endswith(".md"):
        return in_backticks(text, names, made)
    mark = "--" if p.endswith(".antt") else "//"
    lines = []
    for line in text.split("\n"):
        if line.lstrip().startswith(mark):
            shown = mark == "--" and re.match(r"--  +\S", line)
            lines.append(turned(line, names, made) if shown else in_backticks(line, names, made))
        elif ": goal." in line:
            lines.append(line)
        else:
            lines.append(turned(line, names, made))
    return "\n".join(lines)


def main(argv):
    own = declared()
    names = {n: spelled(n) for n in own if spelled(n) != n}
    made = collections.Counter()
    texts = {p: read(p) for p in [*files(), *(os.path.join("docs", d) for d in sorted(os.listdir("docs")) if d.endswith(".md")), "README.md"]}
    # The library's names, where a file imports them, stay.
    together = collections.defaultdict(set)
    results = {}
    for p, text in texts.items():
        theirs = set()
        for m in re.finditer(r"use Rattle\.(?:std|core)\b[^{\n]*\{([^}]*)\}", text):
            theirs |= {w.strip() for w in m[1].split(",")}
        here = {a: b for a, b in names.items() if a not in theirs}
        results[p] = respelled(p, text, here, made)
        if not p.endswith(".md"):
            tokens = set(re.findall(NAME, re.sub(r"\"(?:\\.|[^\"\\])*\"", "", text)))
            for a, b in here.items():
                if a in tokens and b in tokens:
                    together[a, b].add(p)
    back = collections.defaultdict(set)
    for a in own:
        back[spelled(a)].add(a)
    if "--show" in argv:
        for a in sorted(names):
            print(f"{a} -> {names[a]} ({made[a]} places)")
        for (a, b), where in sorted(together.items()):
            print(f"TOGETHER in a file: {a} and {b}: {' '.join(sorted(where))}")
        for b, group in sorted(back.items()):
            if len(group) > 1:
                print(f"TOGETHER: {b} from {' '.join(sorted(group))}: " + " | ".join(f"{a}: {' '.join(sorted(own[a]))}" for a in sorted(group)))
        return 0
    for p, text in results.items():
        if text != texts[p]:
            with open(p, "w", encoding="utf-8") as f:
                f.write(text)
    print(f"{len(names)} names, {sum(made.values())} places")
    return 0


if __name__ == "__main__":
    raise SystemExit(main(sys.argv[1:]))
