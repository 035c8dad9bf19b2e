#!/usr/bin/env python3
"""The places of the design pass (docs/DESIGN-PASS.md), counted in src/ and proofs/.

design.py          a line a point: how many places
design.py POINT    each place of a point, as 1a or 5b, with file and line
It goes by text, so it finds some places that are none and is no judge of the others; the page says which are kept and why.
"""
import glob, os, re, sys
from collections import Counter, defaultdict

os.chdir(os.path.join(os.path.dirname(os.path.abspath(__file__)), ".."))
SOURCES = sorted(glob.glob("crates/*/src/**/*.rt", recursive=True))
TEXT = {f: open(f, encoding="utf-8").read() for f in SOURCES}


def line_of(text, at):
    return text.count("\n", 0, at) + 1


def closing(text, at, pair):
    """Where the bracket that opens at `at` closes."""
    depth = 0
    for i in range(at, len(text)):
        if text[i] == pair[0]:
            depth += 1
        elif text[i] == pair[1]:
            depth -= 1
            if depth == 0:
                return i
    return len(text)


def functions():
    """File, line, name, parameters, answer, clauses, body of each function."""
    for f, t in TEXT.items():
        for m in re.finditer(r"^[ \t]*(?:pub )?(?:const )?(?:extern \"C\" )?fn (\w+)(<[^(]*>)?\(", t, re.M):
            end = closing(t, m.end() - 1, "()")
            # the body is the first brace that begins a line, or that ends the line of the answer
            b = re.compile(r"(?:^[ \t]*\{[ \t]*$|\{[ \t]*$)", re.M)
            at = end
            while True:
                n = b.search(t, at)
                if not n:
                    break
                head = t[end + 1 : n.start()]
                line = t[t.rfind("\n", 0, n.start()) + 1 : n.end()]
                if re.match(r"\s*(ensures|requires|where|ghost)\b", line) and not re.match(r"^[ \t]*\{", line):
                    at = closing(t, n.end() - 1, "{}")
                    continue
                break
            if not n:
                continue
            start = n.end() - 1
            stop = closing(t, start, "{}")
            answer, _, clauses = head.partition("\n")
            yield f, line_of(t, m.start()), m[1], t[m.end() : end], answer.strip(), clauses, t[start : stop + 1]


FUNCTIONS = list(functions())


def enums():
    for f, t in TEXT.items():
        for m in re.finditer(r"^(?:pub )?enum (\w+)[^{]*\{", t, re.M):
            yield f, line_of(t, m.start()), m[1], t[m.end() : closing(t, m.end() - 1, "{}")]


def structs():
    for f, t in TEXT.items():
        for m in re.finditer(r"^(?:pub )?struct (\w+)[^{;(]*\{", t, re.M):
            yield f, line_of(t, m.start()), m[1], t[m.end() : closing(t, m.end() - 1, "{}")]


def grep(pattern, where=None):
    for f, t in TEXT.items():
        for m in re.finditer(pattern, t, re.M):
            s = t[t.rfind("\n", 0, m.start()) + 1 : t.find("\n", m.start())].strip()
            if s.startswith("//"):
                continue
            yield f, line_of(t, m.start()), s


def p1a():
    "own enums with a value in a variant"
    for f, n, name, body in enums():
        if re.search(r"^\s*\w+\(", body, re.M):
            yield f, n, "enum " + name


def p1b():
    "a flag or a fault's number beside a value in a struct"
    for f, n, name, body in structs():
        for m in re.finditer(r"^\s*(?:pub )?(fault: u32|met: bool|there: bool|stood: bool|expected: u32)", body, re.M):
            yield f, n, f"struct {name}: {m[1]}"


def p1c():
    "refusals and faults as numbers: literals, and answers of type u32 that are one"
    yield from grep(r"\b(Refused|Declined|Failed|Barred|Stopped|Unknown|Halted|Halt|Unread|Short|Refusal)\((?:\w+, )?\d+")
    for f, n, name, params, answer, clauses, body in FUNCTIONS:
        if answer == "-> u32" and re.search(r"fault|judge|mark_lane|look_over|poke_|end_of", name) and "no_mangle" not in body:
            yield f, n, "fn " + name + " answers a fault's number"


def p1d():
    "numbers for kinds: arms and tests"
    yield from grep(r"^\s+\d+ => ")
    yield from grep(r"\b(k|expected|k / 10) == \d+\b")


def flat(text):
    """A function's text without its names, types and numbers."""
    text = re.sub(r"//.*", "", text)
    text = re.sub(r"\b(u8|u16|u32|u64|usize|i32)\b", "T", text)
    text = re.sub(r"b?\"[^\"]*\"", "S", text)
    text = re.sub(r"\b\d[\d_]*(u8|u32|u64|usize|i32)?\b", "N", text)
    text = re.sub(r"\b[A-Z][A-Z0-9_]+\b", "N", text)
    text = re.sub(r"\b[A-Z]\w+", "K", text)
    names = {}
    text = re.sub(r"\b[a-z_]\w*\b", lambda m: names.setdefault(m[0], f"v{len(names)}") if m[0] not in KEPT else m[0], text)
    return re.sub(r"\s+", " ", text)


KEPT = set("fn let mut while if else return match as for in loop break continue true false self".split())


def p2():
    "functions whose bodies differ in names, types and numbers alone (60 characters and more)"
    groups = defaultdict(list)
    for f, n, name, params, answer, clauses, body in FUNCTIONS:
        b = flat("(" + params + ")" + answer + body)
        if len(re.sub(r"\s", "", body)) >= 60:
            groups[b].append((f, n, "fn " + name))
    for g, (k, v) in enumerate(sorted(groups.items(), key=lambda kv: kv[1])):
        if len(v) > 1:
            for f, n, name in v:
                yield f, n, f"{name}, with {', '.join(x[2][3:] + ' of ' + x[0].split('/')[1] for x in v if x != (f, n, name))}"


def p3():
    "loops by while or loop"
    yield from grep(r"^\s*(while (?!let )|loop \{)")


def p4():
    "one value turned into another by a function of one parameter: casts, a flag's number, an enum's"
    for f, n, name, params, answer, clauses, body in FUNCTIONS:
        one = params.count(":") == 1 and "&" not in params
        inner = body.strip("{} \n\t")
        if one and answer and re.fullmatch(r"[^\n;]* as \w+\)?[^\n;]*", inner) and "(" not in inner.replace("(" + params.split(":")[0].strip() + " as", ""):
            yield f, n, "fn " + name
        elif one and re.fullmatch(r"if [^{]*\{\s*return [\d\w.]+;\s*\}\s*[\d\w.]+", inner) and "bool" in params:
            yield f, n, "fn " + name
        elif re.match(r"(say_|tell_|print)", name) and re.match(r"match \w+ \{", inner):
            yield f, n, "fn " + name + " prints an enum"


def p5a():
    "functions with table, keys and lists as parameters"
    for f, n, name, params, answer, clauses, body in FUNCTIONS:
        if all(re.search(rf"\b{w}: &", params) for w in ("table", "keys", "lists")):
            yield f, n, "fn " + name


def p5b():
    "facts that stand in the requires of three functions or more"
    seen = defaultdict(list)
    for f, n, name, params, answer, clauses, body in FUNCTIONS:
        for m in re.finditer(r"requires(?: \w+)? \{", clauses):
            c = clauses[m.end() : closing(clauses, m.end() - 1, "{}")]
            c = re.sub(r"\s+", " ", c)
            c = re.sub(r"\.(old|now)\b", "", c)
            for part in re.split(r" × ", c):
                part = part.strip(" ()")
                if len(part) > 12:
                    seen[part].append((f, n, "fn " + name))
    for part, v in sorted(seen.items()):
        if len({(f, x) for f, n, x in v}) > 2:
            for f, n, name in v:
                yield f, n, f"{name}: {part}"


def p6():
    "an array with a count beside it in a struct"
    for f, n, name, body in structs():
        if re.search(r": \[\w+; ", body) and re.search(r"\b(count|held|len|used): usize", body):
            yield f, n, "struct " + name


def p7():
    "a number that says which step to run"
    for f, n, name, params, answer, clauses, body in FUNCTIONS:
        if re.search(r"\bmatch k( / 10)? \{|\bif (k|k / 10|expected) == \d+", body):
            yield f, n, "fn " + name


def p8():
    "answers that repeat a typed let as another does"
    for f in sorted(glob.glob("crates/*/proofs/**/Answers.antt", recursive=True)):
        t = open(f, encoding="utf-8").read()
        seen = Counter()
        for m in re.finditer(r"let \w+ : [^=]{20,}? =", re.sub(r"\s+", " ", t)):
            seen[re.sub(r"^let \w+ :", "", m[0])] += 1
        k = sum(v - 1 for v in seen.values() if v > 1)
        for _ in range(k):
            yield f, 1, "a let that stands there already"


POINTS = {
    "1a": p1a,
    "1b": p1b,
    "1c": p1c,
    "1d": p1d,
    "2": p2,
    "3": p3,
    "4": p4,
    "5a": p5a,
    "5b": p5b,
    "6": p6,
    "7": p7,
    "8": p8,
}

if __name__ == "__main__":
    words = sys.argv[1:]
    if words in (["-h"], ["--help"]):
        print(__doc__)
    elif not words:
        for name, point in POINTS.items():
            print(f"{name:3} {len(list(point())):4}  {point.__doc__}")
    elif len(words) == 1 and words[0] in POINTS:
        for f, n, s in POINTS[words[0]]():
            print(f"{f}:{n}: {s}")
    else:
        sys.exit("design.py: one of the points " + ", ".join(POINTS) + ", or none for all (--help says more)")
