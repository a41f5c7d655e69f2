#!/usr/bin/env python3
"""Prints the places that docs/DESIGN-PASS.md counts, a list for each point.

Usage: places.py [FOLDER]    (FOLDER holds crates/; this repository if left out)

It reads the sources as text: a line here is a place to look at, no verdict.
"""
import collections
import os
import re
import sys

ROOT = sys.argv[1] if len(sys.argv) > 1 else os.path.join(os.path.dirname(os.path.abspath(__file__)), "..")
CODE = r"crates/[a-z_]+/src/.*\.rt"
PROOFS = r"crates/[a-z_]+/proofs/.*\.antt"


def files(pattern):
    found = []
    for folder, _, names in os.walk(os.path.join(ROOT, "crates")):
        for name in names:
            path = os.path.relpath(os.path.join(folder, name), ROOT)
            if re.fullmatch(pattern, path):
                found.append(path)
    return sorted(found)


def text_of(path):
    with open(os.path.join(ROOT, path), encoding="utf-8") as f:
        return f.read()


def lines(pattern, but=None):
    """Lines of the sources that match, comments left out."""
    hits = []
    for path in files(CODE):
        for n, line in enumerate(text_of(path).split("\n"), 1):
            code = line.split("//")[0]
            if re.search(pattern, code) and not (but and re.search(but, code)):
                hits.append(f"{path}:{n}: {line.strip()}")
    return hits


HEAD = re.compile(r"^( *)(?:pub(?:\([a-z]+\))? )?(?:const )?fn (\w+)", re.M)


def functions():
    """Each function with code: path, line, name, parameters, clauses, body."""
    for path in files(CODE):
        text = text_of(path)
        for m in HEAD.finditer(text):
            indent = m.group(1)
            rest = text[m.start():]
            close = re.search(r"^" + indent + r"\}|;$|\{\}$", rest, re.M)
            whole = rest[:close.end()] if close else rest
            opened = re.search(r"(?:^" + indent + r"\{| \{)$", whole, re.M)
            head, body = (whole[:opened.start()], whole[opened.end():]) if opened else (whole, "")
            inside = re.search(r"\((.*?)\)(?: ->|\s*$|\s+where|\s+requires|\s+ensures)", head[m.end() - m.start():], re.S)
            params = re.split(r",\s*(?![^<(\[]*[>)\]])", inside.group(1)) if inside else []
            params = [re.sub(r"\s+", " ", p).strip() for p in params if p.strip()]
            clauses = re.findall(r"^ +(?:requires|ensures) (?:\w+ )?\{ (.*) \}$", head, re.M)
            yield path, text.count("\n", 0, m.start()) + 1, m.group(2), params, clauses, body


def twins():
    """Functions whose bodies are alike but for names, types and numbers."""
    shapes = collections.defaultdict(list)
    for path, n, name, _, _, body in functions():
        shape = re.sub(r"//.*", "", body)
        shape = re.sub(r"[A-Za-z_]\w*|\d[\d_]*|\"[^\"]*\"", "x", shape)
        shape = re.sub(r"\s+", "", shape).rstrip("}")
        if len(shape) > 6:
            shapes[shape].append(f"{path}:{n}: {name}")
    return ["  ~  ".join(same) for same in shapes.values() if len(same) > 1]


def repeated():
    """Clauses in the contracts of three or more functions, and pairs of parameters of three or more."""
    clauses, pairs = collections.defaultdict(list), collections.defaultdict(list)
    for path, _, name, params, own, _ in functions():
        where = f"{path.split('/')[1]}::{name}"
        for clause in own:
            clauses[clause].append(where)
        params = [re.sub(r"'\w+ ", "", p) for p in params if "self" not in p and "fmt::" not in p]
        for i, a in enumerate(params):
            for b in params[i + 1:]:
                pairs[f"{a}, {b}"].append(where)
    rows = [f"clause {c}: {', '.join(w)}" for c, w in clauses.items() if len(w) > 2]
    return rows + [f"parameters {p}: {', '.join(w)}" for p, w in pairs.items() if len(w) > 2]


def answers():
    return [f"{path}: {text_of(path).count(chr(10))} lines" for path in files(PROOFS)]


def show(title, rows):
    print(f"== {title}: {len(rows)}")
    for row in rows:
        print(f"   {row}")


show("1a enums", lines(r"^\s*(pub )?enum "))
show("1b flags among fields and parameters", lines(r"\b\w+: bool"))
show("1c cases and comparisons by number", lines(r"^\s*[0-9][0-9_.=]* =>|== [0-9]+\b"))
show("2 functions alike but for names, types and numbers", twins())
show("2 structs", lines(r"^\s*(pub )?struct "))
show("3 loops", lines(r"^\s*(while|loop|for)\b.*\{$"))
show("4 impls of std's traits", lines(r"^impl.* for (?!Row)", r"impl.*(Semigroup|Monoid|Book) for"))
show("4 conversions by hand", lines(r"fn \w*(number|plain|_of_number|from_|into_|to_)\w*\(", r"fn (from|try_from)\("))
show("5 repeated clauses and parameters", repeated())
show("6 buffers, lengths, places", lines(r"^\s*(pub(\(crate\))? )?\w+: (Vec<|&'a \[|usize,)|\b(copy_within|count: usize)\b"))
show("7 switches", lines(r"\bmatch .*\{$"))
show("8 proof files", answers())
