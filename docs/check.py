#!/usr/bin/env python3
"""docs/check.py: whether the papers hold together. Every link of the papers leads to a file that is there and, behind a #, to a heading in it, and one
with a name of the crates to the file that declares it; every rule of RULES.md that names a definition is cited by it, and every definition of the crates below that cites a rule is named by it.
It prints what doesn't hold, a line each, and how much was looked at; the exit status is 1 where anything doesn't hold."""
import glob
import os
import re
import sys

TOP = os.path.dirname(os.path.dirname(os.path.abspath(__file__)))
DEFINITION = re.compile(r"^(?:abbrev |unfoldable )?pub (?:record |data )?([^\s:]+)")
CITED = re.compile(r"RULES ((?:[A-Z]{1,2}\d+(?:, | to )?)+)\.")


def read(path):
    with open(os.path.join(TOP, path), encoding="utf-8") as f:
        return f.read()


def anchors(text):
    """the anchors of a paper's headings, as they are made of them"""
    heads = re.findall(r"^#+ (.*)$", text, re.M)
    return {re.sub(r"[^a-z0-9 _-]", "", h.lower()).replace(" ", "-") for h in heads}


def declares(path, name):
    """whether a source file declares a function, a definition, a law or a record's field of that name"""
    form = r"\bfn %s\b" if path.endswith(".rt") else r"^ *(?:abbrev |unfoldable )?(?:pub )?(?:record |data )?%s [:({]"
    return re.search(form % re.escape(name), read(path), re.M)


def lost_links():
    papers = ["README.md"] + [os.path.relpath(p, TOP) for p in glob.glob(TOP + "/docs/**/*.md", recursive=True)]
    count = 0
    for paper in sorted(papers):
        for link in sorted(set(re.findall(r"\]\(([^)\s]+)\)", read(paper)))):
            if re.match(r"[a-z]+:", link):
                continue
            count += 1
            to, _, anchor = link.partition("#")
            path = os.path.normpath(os.path.join(os.path.dirname(paper), to)) if to else paper
            if not os.path.exists(os.path.join(TOP, path)):
                yield "%s: no such file: %s" % (paper, link)
            elif anchor and path.endswith(".md") and anchor not in anchors(read(path)):
                yield "%s: no such heading: %s" % (paper, link)
        for name, path in sorted(set(re.findall(r"\[`([^`]+)`\]\(\.\./(crates/[^)#\s]+)\)", read(paper)))):
            if os.path.isfile(os.path.join(TOP, path)) and not declares(path, name.split("::")[-1]):
                yield "%s: %s isn't declared in %s" % (paper, name, path)
    print("docs: %d links" % count)


def rules():
    """of each rule the (crate, definition, file or None) that it names in square brackets"""
    found = {}
    for block in read("docs/RULES.md").split("\n\n"):
        line = block.replace("\n", " ")
        head = re.match(r"\*\*([A-Z]{1,2}\d+)\.", line)
        if not head:
            continue
        named = found.setdefault(head.group(1), set())
        for part in ";".join(re.findall(r"\[([a-z_0-9]+:[^\]]*)\](?!\()", line)).split(";"):
            crate, _, names = part.strip().partition(":")
            if "struct" in names:
                continue
            for name, where in re.findall(r"`([^`]+)`((?: of `[^`]+`)?)", names):
                file = re.search(r"`(\w+)\.antt`", where)
                if not name.endswith(".antt"):
                    named.add((crate, name, file.group(1) if file else None))
    return found


def numbers(text):
    """RULES A1, B2 to B4. -> A1 B2 B3 B4"""
    for one in text.split(", "):
        first, _, last = one.partition(" to ")
        letter = re.match("[A-Z]+", first).group(0)
        for k in range(int(first[len(letter):]), int((last or first)[len(letter):]) + 1):
            yield letter + str(k)


def definitions():
    """of each (crate, definition, file) the rules that the comment above it cites"""
    found = {}
    for path in sorted(glob.glob(TOP + "/crates/*/specs/*.antt")):
        crate, file = path.split("/")[-3], os.path.basename(path)[:-5]
        lines = open(path, encoding="utf-8").read().split("\n")
        for i, line in enumerate(lines):
            name = DEFINITION.match(line)
            if not name or name.group(1) in ("mod", "use"):
                continue
            above = i
            while above and lines[above - 1].startswith("--") and not lines[above - 1].startswith("-- ----"):
                above -= 1
            cited = CITED.match(" ".join(one[2:].strip() for one in lines[above:i]))
            found[crate, name.group(1), file] = set(numbers(cited.group(1))) if cited else set()
    return found


def lost_rules():
    every, known = rules(), definitions()
    for (crate, name, file), cited in known.items():
        for rule in sorted(cited):
            if rule not in every:
                yield "%s: %s cites %s, which is no rule" % (crate, name, rule)
            elif not any(c == crate and n == name and f in (None, file) for c, n, f in every[rule]):
                yield "docs/RULES.md: %s doesn't name %s: %s, which cites it" % (rule, crate, name)
    for rule, named in every.items():
        for crate, name, file in sorted(named, key=str):
            hits = [k for k in known if k[:2] == (crate, name) and file in (None, k[2])]
            if not hits:
                yield "docs/RULES.md: %s names %s: %s, which isn't there" % (rule, crate, name)
            elif not any(rule in known[k] for k in hits):
                yield "%s: %s doesn't cite %s, which names it" % (crate, name, rule)
    print("docs: %d rules, %d definitions, %d of them cite a rule" % (len(every), len(known), sum(map(bool, known.values()))))


if __name__ == "__main__":
    faults = list(lost_links()) + list(lost_rules())
    print("\n".join(faults) if faults else "docs: links and rules hold together")
    sys.exit(1 if faults else 0)
