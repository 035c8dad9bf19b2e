#!/usr/bin/env python3
"""Brings the repository's own definitions and lemmas to today's spelling, once, after the kit's port.py.

usage: python3 tools/respell.py        at the top of the repository

Types and modules are in upper camel case, all other names of specs/ and proofs/ in snake case. A dash joins two names:
it stays in a lemma's name where both sides are names of definitions, and else becomes '_'. What Rattle makes or a
library has keeps its name, and so do functions, types and fields of src/, exported names, strings, inputs and outputs.
A name that would fall together with another gets '_lem' where it is a lemma, and else the run stops and says so.
"""
import os
import re
import sys

TOKEN = re.compile(r"(?<![\w'·\-≤≢])[A-Za-z][\w'·≤≢<]*(?:-[\w'·≤≢<]+)*(?![\w'])")
# words of std that a lemma's name may have as one of its sides
STD = set("length take drop append map reverse filter set replicate get_or min max add sub mul div mod pow sum suc".split())
# facts that were spelled as values, and names whose turned form another has
FACTS = {"quickOf": "QuickOf", "triedOf": "TriedOf", "table-grown": "table_is_grown", "record-a": "record_a_lem", "Found-as-Block": "BlockFound",
         # constructors, whose lemmas give way
         "noRoom": "no_room", "asksLength": "asks_length", "findsBlock": "finds_block", "looksUp": "looks_up",
         "someBytes": "some_bytes", "readThere": "read_there", "asks-length": "asks_length_lem",
         "finds-block": "finds_block_lem", "looks-up": "looks_up_lem", "read-there": "read_there_lem"}
# spelled alike in files that have nothing of one another: seen by hand, and no file has both
ALIKE = {"byName", "hasRoom", "inOrder", "lanesOn", "oneMore", "placeAfter", "list-pages", "goesOn"}
# lemmas in snake case already whose name a definition now gets
LEMMAS = {n: n + "_lem" for n in ("block_in", "four_bytes", "held_on", "length_from", "read_at", "size_top")}


def texts(root, ends):
    for folder, dirs, files in os.walk(root):
        dirs[:] = sorted(d for d in dirs if d not in ("out", ".git"))
        for f in sorted(files):
            if f.endswith(ends):
                yield os.path.join(folder, f)


def read(p):
    with open(p, encoding="utf-8") as f:
        return f.read()


def code_of(text):
    return re.sub(r"--.*", "", text)


def snake(word):
    w = re.sub(r"([a-z0-9'])([A-Z])", r"\1_\2", word)
    w = re.sub(r"([A-Z])([A-Z][a-z])", r"\1_\2", w)
    return w.lower()


def names():
    """Every name that the .antt files declare, and which of them are definitions; names that Rattle makes are left out."""
    defs, lemmas, fields, made, outside = set(), set(), set(), set(), set()
    inside = set(os.listdir("crates"))
    for p in texts("crates", (".antt", ".rt")):
        t = read(p)
        for m in re.finditer(r"\buse ([\w.·'-]+)\.\{([^}]*)\}", t):
            path = m.group(1).split(".")
            own = path[0] == "Rattle" and len(path) > 1 and path[1] in inside
            for n in m.group(2).split(","):
                n = n.strip()
                if " as " in n:
                    lemmas.add(n.split(" as ")[1].strip())
                if not own:
                    outside.add(n.split(" as ")[0].strip())
        if p.endswith(".rt"):
            continue
        t = code_of(t)
        for m in re.finditer(r"(?m)^( *)((?:(?:pub|abbrev|unfoldable|opaque) +)*)(?:(data|record|ruleset) +)?(?:pub +)?([^\s:(){},;.=]+)( *:| *\(| *\{|$| +where)", t):
            lead, mods, kw, name, _ = m.groups()
            if name in ("where", "use", "mod", "module", "unfolding", "let", "in"):
                continue
            rest = t[m.end(4):m.end(4) + 60]
            if not kw and not re.match(r" *:( |$)", rest):
                continue
            if re.match(r" *: *tie\.", rest) and p.endswith("/Proof.antt") and snake(name) == name:
                made.add(name)
            elif kw or "abbrev" in mods or "unfoldable" in mods:
                defs.add(name)
            elif lead and "pub" in mods and "module _" not in t[:m.start()][-4000:]:
                fields.add(name)
            else:
                lemmas.add(name)
    return defs, lemmas, fields, made, outside


def table():
    defs, lemmas, fields, made, outside = names()
    everything = defs | lemmas | fields
    known = {snake(d) for d in defs} | STD
    turned = {}
    for n in sorted(everything):
        if n in outside or n in made or not re.match(r"[A-Za-z]", n):
            continue
        if n in FACTS:
            turned[n] = FACTS[n]
            continue
        parts = [q for q in re.split(r"[-·]", n) if q]
        if "-as-" in n:
            # what the port made of a name with a dot: WHICH·NAME
            a, b = n.split("-as-")
            new = snake(a) + "_" + snake(b)
            if b[:1].isupper():
                new = a + b
            turned[n] = new
            continue
        if n[:1].isupper():
            if len(parts) > 1 and not any(c in n for c in "'"):
                turned[n] = "".join(q[:1].upper() + q[1:] for q in parts) if all(q[:1].isupper() for q in parts) else n
            continue
        low = [snake(q) for q in parts]
        new = low[0]
        for a, b in zip(low, low[1:]):
            new += ("-" if n in lemmas and "·" not in n and not n.endswith("-spec") and a in known and b in known else "_") + b
        if new != n:
            turned[n] = new
    # a Rust name, a local or what Rattle makes may be spelled as a definition is: each is reached in its own way
    taken = {}
    for n in sorted(everything | outside):
        if n not in turned and n not in LEMMAS:
            taken.setdefault(n, n)
    clash = []
    for n in sorted(turned, key=lambda n: (n not in defs, n)):
        new = turned[n]
        if new == n:
            continue
        if new in taken and taken[new] != n and n not in FACTS:
            if n in lemmas and n not in defs and new + "_lem" not in taken:
                new += "_lem"
            if new in taken and taken[new] != n and n not in ALIKE:
                clash.append((n, new, taken[new]))
                continue
        taken[new] = n
        turned[n] = new
    return {a: b for a, b in turned.items() if a != b}, clash


def turn_all(text, turned):
    return TOKEN.sub(lambda m: turned.get(m.group(0), m.group(0)), text)


def lemmas_left(text):
    """A lemma's own name, and not a part of a path."""
    return re.sub(r"(?<![\w'·.«-])(" + "|".join(LEMMAS) + r")(?![\w'-]| = )", lambda m: LEMMAS[m.group(1)], text)


def camel(turned):
    return {a: b for a, b in turned.items() if re.match(r"[a-z]\w*[A-Z]", a) and "-" not in a}


def antt(text, turned):
    few = camel(turned)
    # a file has the lemma where it declares it or imports it from a file of proofs
    left = re.search(r"(?m)^(pub )?(" + "|".join(LEMMAS) + r") :|^ +(pub )?(" + "|".join(LEMMAS) + r") :|proofs\.\w+\.\{[^}]*\b(" + "|".join(LEMMAS) + r")\b", text)
    out = []
    for line in text.split("\n"):
        i = line.find("--")
        head, tail = (line, "") if i < 0 else (line[:i], line[i:])
        tail = re.sub(r"`[^`]*`", lambda m: turn_all(m.group(0), turned), tail)
        out.append(turn_all(lemmas_left(head) if left else head, turned) + turn_all(tail, few))
    return "\n".join(out)


def rust(text, turned):
    few = camel(turned)
    out = []
    ghost = False
    for line in text.split("\n"):
        if line.lstrip().startswith("ghost use "):
            ghost = True
        clause = ghost or re.match(r"\s+(requires|ensures|decreases|invariant)\b", line)
        if '"' in line and not clause:
            out.append(line)
        else:
            out.append(turn_all(line, turned if clause else few))
        if ghost and ";" in line:
            ghost = False
    return "\n".join(out)


def edit(text, turned, known=None):
    few = camel(turned)
    out, inner = [], False
    for line in text.split("\n"):
        if line.startswith("file:"):
            inner = line.rstrip().endswith(".antt")
        if line.startswith(("old:", "new:")):
            # a path with a middle dot is the older kit's: it is turned with the edit, by hand
            line = line[:4] + turn_all(line[4:], turned if inner else few)
        elif line.startswith("#"):
            line = turn_all(line, few)
        if known and line.startswith(("old:", "new:")):
            line = line[:4] + port_turned(line[4:], known)
        out.append(line)
    return "\n".join(out)


def port_turned(text, known):
    """Names that port.py turned in the files, in a text that it doesn't turn."""
    def one(m):
        n = m.group(0)
        # a type's name keeps its capital: one that isn't ours is the crate's
        if n in known or n[:1].isupper() or not re.search(r"[a-z][A-Z]|-|·", n):
            return n
        for new in ("_".join(snake(q) for q in re.split("[-·]", n)), "-".join(snake(q) for q in n.split("-"))):
            if new in known:
                return new
        return n
    return TOKEN.sub(one, text)


def page(text, turned):
    return re.sub(r"`[^`\n]*`", lambda m: m.group(0) if re.search(r"[/$ ]\w*\.(md|bench|py|c|cpp|h)\b", m.group(0)) else turn_all(m.group(0), turned), text)


def write(p, text):
    with open(p, "w", encoding="utf-8") as f:
        f.write(text)


def main():
    if not os.path.isdir("crates"):
        print("respell: run it at the top of the repository", file=sys.stderr)
        return 2
    turned, clash = table()
    if clash:
        for n, new, other in clash:
            print(f"respell: {n} would become {new}, and so is {other}", file=sys.stderr)
        return 1
    known = set()
    for p in list(texts("crates", (".antt", ".rt"))):
        t = read(p)
        new = antt(t, turned) if p.endswith(".antt") else rust(t, turned)
        known |= set(TOKEN.findall(new))
        if new != t:
            write(p, new)
    for p in list(texts("crates", (".edit",))):
        t = read(p)
        new = edit(t, turned, known)
        if new != t:
            write(p, new)
    pages = ["README.md"] + [os.path.join("docs", f) for f in sorted(os.listdir("docs")) if f.endswith(".md") and not f.startswith("PORT")]
    for p in pages:
        t = read(p)
        new = page(t, turned)
        new = re.sub(r"`[^`\n]*`", lambda m: port_turned(m.group(0), known), new)
        if new != t:
            write(p, new)
    print(f"respell: {len(turned)} names")
    return 0


if __name__ == "__main__":
    raise SystemExit(main())
