#!/usr/bin/env python3
"""Tries what the language refuses before any proof: misuse of readers.

Each tools/refused/*.edit has four lines: `file`, `old` (standing once in that file), `new`, and
`error`, the name that the checker gives to the refusal. The edit is applied to a copy of the
repository, and the checker has to refuse that copy with `error[NAME]`. The lister of the copy is
first checked as it is, with the libraries that it stands on.
"""
import pathlib
import shutil
import subprocess
import sys
import tempfile

ROOT = pathlib.Path(__file__).resolve().parent.parent


def read_edit(path):
    """The fields of an edit file, by name."""
    fields = {}
    for line in path.read_text().splitlines():
        name, _, value = line.partition(": ")
        fields[name] = value
    return fields


def check(copy, crate):
    """What `rt check` of a crate of the copy prints, and whether it passed."""
    done = subprocess.run(["rt", "check"], cwd=copy / "crates" / crate, capture_output=True, text=True)
    return done.stdout + done.stderr, done.returncode == 0


def try_edit(copy, path):
    """None if the edit is refused as it should be, else what went wrong."""
    edit = read_edit(path)
    target = copy / edit["file"]
    before = target.read_text()
    if before.count(edit["old"]) != 1:
        return "its old text does not stand once in " + edit["file"]
    target.write_text(before.replace(edit["old"], edit["new"]))
    try:
        printed, passed = check(copy, target.parts[len(copy.parts) + 1])
    finally:
        target.write_text(before)
    if passed:
        return "the checker takes it"
    if f"error[{edit['error']}]" not in printed:
        return f"it is refused, but not by error[{edit['error']}]:\n{printed[-3000:]}"
    return None


def main():
    with tempfile.TemporaryDirectory() as folder:
        copy = pathlib.Path(folder)
        shutil.copy(ROOT / "crates.txt", copy)
        shutil.copytree(ROOT / "crates", copy / "crates", ignore=shutil.ignore_patterns("out"))
        printed, passed = check(copy, "pages")
        if not passed:
            sys.exit("refusals: the lister itself is refused:\n" + printed[-3000:])
        edits = sorted((ROOT / "tools" / "refused").glob("*.edit"))
        for path in edits:
            wrong = try_edit(copy, path)
            if wrong:
                sys.exit(f"refusals: {path.name}: {wrong}")
    print(f"refusals: {len(edits)} misuses refused before any proof")


if __name__ == "__main__":
    main()
