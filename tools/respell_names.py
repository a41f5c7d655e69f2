#!/usr/bin/env python3
"""Respells the repository's own definitions and lemmas: types and statements in upper camel case,
all other words in snake case. Run once, at the top of a checkout, after the toolchain's port.py.

Names are collected from the signatures of specs/ and proofs/, so names of the library and names
that the checker generates stay. A lemma that would get its definition's name ends in `_lem`, and
an entry of an event that would get its key's name ends in `_entry`. Only ghost text, comments and
the pages of docs/ are touched: string literals of the sources stay.
"""
import collections
import pathlib
import re

ROOT = pathlib.Path(".")
TOKEN = re.compile(r"[^\s(){}\[\],;.:|«»`\"]+")
STRING = re.compile(r'"(?:[^"\\\n]|\\.)*"')
SIGNATURE = re.compile(r"^\s*(?:pub |abbrev |unfoldable |pattern )*([^\s(){}:;,=.]+(?: [^\s(){}:;,=.]+)*) (?:\{[^}]*\} )?: ")
LOCAL = re.compile(r"\blet ([^\s(){}:;,=.]+) (?::|=)")
BINDER = re.compile(r"[({]([^\s(){}:;,=.]+(?: [^\s(){}:;,=.]+)*) : ")
LAMBDA = re.compile(r"λ ([^\s(){}:;,=.]+(?: [^\s(){}:;,=.]+)*)\.")
TYPE = re.compile(r"^\s*(?:pub )?(?:record|data) ([^\s(){}:;,=.]+)")
GENERATED = re.compile(r": (?:goal|given|need)\.")
LIBRARY = re.compile(r"^(?:ghost )?use (?:Rattle\.std|denote|mathlib|Prim|lib|native)[^{]*\{(.*)\}")

# lemmas and fields that would fall together with a definition
LEMMAS = """event-departs event-minute event-number event-vault events-in events-of events-to
fittings-read level-read section-read stop-minute stop-number stop-vault stops-in stops-of""".split()
ENTRIES = "arrival-event departure-event".split()
# what port.py respelled already, and falls together with a definition: file name, old, new
IN_FILE = [("Walked.antt", "to_end", "to_end_lem")]


def antt_files():
    return sorted(p for folder in ("specs", "proofs") for p in ROOT.glob(f"crates/*/{folder}/**/*.antt"))


def own_names(files):
    own, library = set(), set()
    for path in files:
        for line in path.read_text().splitlines():
            found = LIBRARY.match(line)
            if found:
                library.update(name for part in found.group(1).split(",") for name in part.strip().split(" as "))
            if line.strip().startswith("--") or GENERATED.search(line):
                continue
            found = SIGNATURE.match(line)
            if found:
                own.update(found.group(1).split())
            found = TYPE.match(line)
            if found:
                own.add(found.group(1))
            own.update(LOCAL.findall(line))
            own.update(name for form in (BINDER, LAMBDA) for names in form.findall(line) for name in names.split())
            if line.startswith(("use Rattle.", "ghost use Rattle.")) and not LIBRARY.match(line):
                own.update(re.findall(r" as ([^\s{},;]+)", line))
    return own - library


def snake(name):
    return re.sub(r"(?<=[a-z0-9])(?=[A-Z])", "_", name).replace("-", "_").lower()


def respelled(name):
    if name in LEMMAS:
        return snake(name) + "_lem"
    if name in ENTRIES:
        return snake(name) + "_entry"
    if name[0].isupper():
        return "".join(part[:1].upper() + part[1:] for part in name.split("-"))
    return snake(name)


def is_old(name):
    if name[0].isupper():
        return "-" in name
    return "-" in name.strip("-") or re.search(r"[a-z][A-Z]", name) is not None


def turn(text, names):
    return TOKEN.sub(lambda m: names.get(m.group(0), m.group(0)), text)


def generated_here(text):
    """Names that a proof file gives to goals: the checker chose them."""
    return {m.group(1) for m in re.finditer(r"^(?:abbrev )?(?:pub )?(\S+) : (?:goal|given|need)\.", text, re.M)}


def turn_source(text, names):
    """A source file without its string literals."""
    parts, end = [], 0
    for found in STRING.finditer(text):
        parts += [turn(text[end : found.start()], names), found.group(0)]
        end = found.end()
    return "".join(parts + [turn(text[end:], names)])


def turn_page(text, names):
    """A page of docs/: what stands between backticks."""
    return re.sub(r"`[^`\n]+`", lambda m: turn(m.group(0), names), text)


def main():
    files = antt_files()
    own = own_names(files)
    names = {name: respelled(name) for name in own if is_old(name)}
    together = collections.defaultdict(set)
    for name in own:
        together[names.get(name, name)].add(name)
    for new, old in sorted(together.items()):
        if len(old) > 1:
            print(f"fall together: {', '.join(sorted(old))} -> {new}")
    for path in files:
        text = path.read_text()
        for file, old, new in IN_FILE:
            if path.name == file:
                text = turn(text, {old: new})
        here = generated_here(text)
        path.write_text(turn(text, {k: v for k, v in names.items() if k not in here}))
    for path in sorted(ROOT.glob("crates/*/src/**/*.rt")):
        path.write_text(turn_source(path.read_text(), names))
    for path in sorted(ROOT.glob("docs/*.md")):
        path.write_text(turn_page(path.read_text(), names))
    print(f"{len(names)} names respelled")


if __name__ == "__main__":
    main()
