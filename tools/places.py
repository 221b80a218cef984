#!/usr/bin/env python3
"""Counts the places of docs/DESIGN-PASS.md in crates/*/src, a line a place: tools/places.py [POINT].

Each point has the patterns that are given here and nothing else; what they find that is none of the point's, or is kept, has
its reason on the page.
"""
import glob
import re
import sys
from collections import defaultdict

FAILURE = "Refused|Missing|None|Nothing|Stray|Bad|Stopped|Cut|Garbled|Unread|TooLarge"
SENTINELS = r"\bNO_[A-Z]+\b|\bNONE\b|\bTOO_LARGE\b|\bUNREAD\b|^\s*(length|digits|written|entries|elements|selected): 0,"
REFUSALS = r"Refused\((\d|taken)|faulty\(\d|fault: \d|\brefused?\(\d|return \d+;|\bnumber: (\d\d?|number|taken\.fault),|(fault|number) [!=]= 0|\{ \d \} else \{ 0 \}"
STEP_PARAMETERS = r"\b(until|asked|ahead|after|bracket|opens|gate|there): (bool|AskedAhead|Gate|Local)\b"
LENGTHS = r"\b(at|n|entries|elements|size|end|bytes|written|count|most|used|room|last): (usize|u16)\b"


def functions(path, text):
    """(line, name, parameters, clauses, body) of each function with a body."""
    for m in re.finditer(r"^[ \t]*((?:pub(?:\(crate\))? )?(?:extern \"C\" )?fn (\w+)(?:<[^>]*>)?\()", text, re.M):
        depth, i = 1, m.end()
        while depth:
            depth += {"(": 1, ")": -1}.get(text[i], 0)
            i += 1
        head = text.find("\n{", i)
        inner = re.search(r"\n[ \t]*\{\n|\{\n", text[i:])
        if not inner:
            continue
        start = i + inner.start()
        body_start = i + inner.end()
        depth, j = 1, body_start
        while depth and j < len(text):
            depth += {"{": 1, "}": -1}.get(text[j], 0)
            j += 1
        yield text.count("\n", 0, m.start()) + 1, m.group(2), text[m.end() : i - 1], text[i:start], text[body_start : j - 1]


def tokens(body):
    words = "if else match return let mut while loop for in break fn true false as self Ok Err Some None".split()
    out = []
    for t in re.findall(r"[A-Za-z_]\w*|\d\w*|\S", re.sub(r"//[^\n]*", "", body)):
        out.append(t if t in words or not re.match(r"\w", t) else "N" if t[0].isdigit() else "i")
    return " ".join(out)


def parameters(text):
    return [re.sub(r"\s+", " ", p).strip() for p in re.split(r",(?![^<\[(]*[>\])])", text) if ":" in p]


def lines(point, pattern, files, keep=lambda path, line: True):
    for path, text in files:
        for k, line in enumerate(text.split("\n"), 1):
            if not line.lstrip().startswith("//") and re.search(pattern, line) and keep(path, line):
                yield point, f"{path}:{k}", line.strip()


def places():
    files = [(p, open(p).read()) for p in sorted(glob.glob("crates/*/src/*.rt"))]
    found = []
    for path, text in files:
        for m in re.finditer(r"^(?:pub(?:\(crate\))? )?enum (\w+)[^{]*\{(.*?)^\}", text, re.M | re.S):
            if re.search(rf"^\s*({FAILURE})\b", m.group(2), re.M):
                found.append((1, f"{path}:{text.count(chr(10), 0, m.start()) + 1}", f"enum {m.group(1)}"))
    found += lines(1, SENTINELS, files)
    found += lines(1, REFUSALS, files)
    shapes, names, clauses, groups = defaultdict(list), defaultdict(set), defaultdict(set), defaultdict(set)
    for path, text in files:
        for line, name, params, contract, body in functions(path, text):
            place = f"{path}:{line}"
            shape = tokens(body)
            if len(shape.split()) > 24:
                shapes[shape].append((place, name))
            if "export" not in path and "_c/" not in path:
                names[name].add(place)
            if re.search(r"\b(while|loop)\b", body) and re.search(r"\b(\w+) (\+|-)= 1;|\b(\w+) = \3 [+-] 1;", body):
                found.append((3, place, f"fn {name}"))
            if re.fullmatch(r"\s*\w+ as \w+\s*", body) or re.search(r"if (\w+) < (\w+) \{ \1 \} else \{ \2 \}", body):
                found.append((4, place, f"fn {name}: a conversion or a least"))
            if re.search(r"\b(\w+)\[[^\]]+\] = (\w+\[\w+\]|0);", body) and re.search(r"\bwhile\b", body):
                found.append((4, place, f"fn {name}: copies or fills by hand"))
            for clause in re.findall(r"requires (?:\w+ )?\{ (.*?) \}\n", contract):
                for part in re.split(r" × (?![^()]*\))", clause):
                    clauses[part.strip("() ")].add(f"{path.split('/')[1]} {name}")
            slices = [p for p in parameters(params) if re.search(r"&('a )?(mut )?\[", p)]
            if slices and re.search(LENGTHS, params):
                found.append((6, place, f"fn {name}: a buffer with a length or an offset beside it"))
            by_type = defaultdict(int)
            for p in slices:
                by_type[p.split(":", 1)[1].replace("mut ", "")] += 1
            if any(k > 1 and "u8" not in t for t, k in by_type.items()):
                found.append((6, place, f"fn {name}: parallel columns"))
            if re.search(STEP_PARAMETERS, params):
                found.append((7, place, f"fn {name}"))
            ps = sorted(set(parameters(params)))
            for a in range(len(ps)):
                for b in range(a + 1, len(ps)):
                    groups[ps[a], ps[b]].add(f"{path.split('/')[1]} {name}")
    for shape, at in shapes.items():
        if len(at) > 1:
            found.append((2, at[0][0], "same shape: " + ", ".join(f"{n} ({p})" for p, n in at)))
    for name, at in sorted(names.items()):
        if len({p.split("/")[1] for p in at}) > 1 and name not in ("main", "new", "see", "from"):
            found.append((2, sorted(at)[0], f"same name in crates: {name} " + ", ".join(sorted(p.split("/")[1] for p in at))))
    for part, at in sorted(clauses.items()):
        if len(at) > 2:
            found.append((5, sorted(at)[0], f"in {len(at)} contracts: {part}"))
    for pair, at in sorted(groups.items()):
        if len(at) > 2:
            found.append((5, sorted(at)[0], f"in {len(at)} functions together: {pair[0]}; {pair[1]}"))
    for path in sorted(glob.glob("crates/*/proofs/**/Answers.antt", recursive=True)):
        k = len(re.findall(r"^pub \S+ : goal\.", open(path).read(), re.M))
        found.append((8, path, f"{k} answers"))
    return found


wanted = int(sys.argv[1]) if len(sys.argv) > 1 else None
count = defaultdict(int)
answers = 0
for point, place, what in places():
    count[point] += 1
    if point == 8:
        answers += int(what.split()[0])
    if wanted == point:
        print(f"{place}: {what}")
print("places: " + ", ".join(f"point {p}: {count[p]}" for p in sorted(count)) + f"; answers in all: {answers}")
