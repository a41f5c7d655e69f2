#!/usr/bin/env python3
"""An independent reader of pages, used to work out what is expected of others.

    page_oracle.py list FILE   print the listing of a page, or its fault line
    page_oracle.py write       write examples/ and crates/damaged/stdin, stdout
    page_oracle.py check       make the same again and compare with the files

It shares no code with the reader it is used to judge. The pages themselves
are made by page_samples.py, which knows nothing of reading.
"""
import sys
from pathlib import Path

sys.dont_write_bytecode = True
import page_samples as samples  # noqa: E402

ROOT = Path(__file__).resolve().parent.parent
READ_LIMIT = 65536
NAMES_LIMIT, RUNS_LIMIT, EDITS_LIMIT = 64, 1024, 2048
SHORT, ABOVE_LIMIT, BAD_NAME, BAD_KIND, EXCESS = 1, 2, 3, 4, 5
ADD_SIZE = 14
REST_SIZE = {1: ADD_SIZE, 2: 2, 3: 10}  # bytes after the kind byte of an edit


# ---- the reader ----

class Fault(Exception):
    """The first fault of a page."""

    def __init__(self, kind, section, record, byte):
        super().__init__(f"fault page {kind} section {section} record {record} byte {byte}")


def number(page, at, size):
    """The number of `size` bytes at `at`, high byte first."""
    return int.from_bytes(page[at:at + size], "big")


def read_count(page, at, size, limit, section):
    """The count that begins at `at`."""
    if at + size > len(page):
        raise Fault(SHORT, section, 0, at)
    count = number(page, at, size)
    if count > limit:
        raise Fault(ABOVE_LIMIT, section, 0, at)
    return count


def read_name(page, at, record):
    """The bytes of the name whose length byte is at `at`."""
    if at >= len(page):
        raise Fault(SHORT, 1, record, at)
    length = page[at]
    if length < 1 or length > 24:
        raise Fault(BAD_NAME, 1, record, at)
    if at + 1 + length > len(page):
        raise Fault(SHORT, 1, record, at)
    name = page[at + 1:at + 1 + length]
    if any(byte < 33 or byte > 126 for byte in name):
        raise Fault(BAD_NAME, 1, record, at)
    return name


def run_line(page, at):
    """The line of the add whose 14 bytes begin at `at`."""
    run, from_name, to_name = number(page, at, 2), page[at + 2], page[at + 3]
    start, end = number(page, at + 4, 4), number(page, at + 8, 4)
    fittings = number(page, at + 12, 2)
    return f"{run} {from_name} {start} {to_name} {end} fit {fittings}"


def edit_line(page, at):
    """The line of the whole edit whose kind byte is at `at`."""
    if page[at] == 1:
        return "add " + run_line(page, at + 1)
    run = number(page, at + 1, 2)
    if page[at] == 2:
        return f"cancel {run}"
    return f"retime {run} {number(page, at + 3, 4)} {number(page, at + 7, 4)}"


def listing(page):
    """The lines of a good page; a Fault is raised for any other."""
    names = read_count(page, 0, 1, NAMES_LIMIT, 1)
    at = 1
    lines = [f"names {names}"]
    for index in range(names):
        name = read_name(page, at, index + 1)
        lines.append(f"{index} {name.decode('ascii')}")
        at += 1 + len(name)

    runs = read_count(page, at, 2, RUNS_LIMIT, 2)
    at += 2
    lines.append(f"runs {runs}")
    for index in range(runs):
        if at + ADD_SIZE > len(page):
            raise Fault(SHORT, 2, index + 1, at)
        lines.append(run_line(page, at))
        at += ADD_SIZE

    edits = read_count(page, at, 2, EDITS_LIMIT, 3)
    at += 2
    lines.append(f"edits {edits}")
    for index in range(edits):
        if at >= len(page):
            raise Fault(SHORT, 3, index + 1, at)
        if page[at] not in REST_SIZE:
            raise Fault(BAD_KIND, 3, index + 1, at)
        size = 1 + REST_SIZE[page[at]]
        if at + size > len(page):
            raise Fault(SHORT, 3, index + 1, at)
        lines.append(edit_line(page, at))
        at += size

    if at < len(page):
        raise Fault(EXCESS, 3, 0, at)
    lines.append(f"page of {len(page)} bytes: {names} names, {runs} runs, {edits} edits")
    return lines


def told(page):
    """What is told of a page: its lines, and the exit status 0 or 1."""
    try:
        return listing(page), 0
    except Fault as fault:
        return [str(fault)], 1


# ---- the files ----

def files():
    """Every file to be written: its path below the root, and its bytes."""
    made = {}
    for title, page in samples.examples().items():
        made[f"examples/{title}.page"] = page
        made[f"examples/{title}.expected"] = "".join(
            line + "\n" for line in told(page)[0]).encode("ascii")
    pages = samples.damaged()
    made["crates/damaged/stdin"] = "".join(page.hex() + "\n" for page in pages).encode("ascii")
    made["crates/damaged/stdout"] = "".join(
        told(page)[0][-1] + "\n" for page in pages).encode("ascii")
    return made


def differing(made):
    """The paths whose file on disk is missing or differs."""
    return [path for path, data in made.items()
            if not (ROOT / path).is_file() or (ROOT / path).read_bytes() != data]


def write(made):
    """Write every file."""
    for path, data in made.items():
        (ROOT / path).parent.mkdir(parents=True, exist_ok=True)
        (ROOT / path).write_bytes(data)


# ---- what was worked out by hand ----

HAND_WORKED_PAGES = """
                   > fault page 1 section 1 record 0 byte 0
41                 > fault page 2 section 1 record 0 byte 0
01                 > fault page 1 section 1 record 1 byte 1
0100               > fault page 3 section 1 record 1 byte 1
0118               > fault page 1 section 1 record 1 byte 1
0119               > fault page 3 section 1 record 1 byte 1
010320             > fault page 1 section 1 record 1 byte 1
010120             > fault page 3 section 1 record 1 byte 1
01017f00000000     > fault page 3 section 1 record 1 byte 1
01017e00000000     > page of 7 bytes: 1 names, 0 runs, 0 edits
0201610262         > fault page 1 section 1 record 2 byte 3
00                 > fault page 1 section 2 record 0 byte 1
00ff               > fault page 1 section 2 record 0 byte 1
000400             > fault page 1 section 2 record 1 byte 3
000401             > fault page 2 section 2 record 0 byte 1
000000             > fault page 1 section 3 record 0 byte 3
0000000000         > page of 5 bytes: 0 names, 0 runs, 0 edits
0000000000ff       > fault page 5 section 3 record 0 byte 5
0000000800         > fault page 1 section 3 record 1 byte 5
0000000801         > fault page 2 section 3 record 0 byte 3
0000000001         > fault page 1 section 3 record 1 byte 5
000000000100       > fault page 4 section 3 record 1 byte 5
000000000101       > fault page 1 section 3 record 1 byte 5
00000000010200     > fault page 1 section 3 record 1 byte 5
0000000001020009   > page of 8 bytes: 0 names, 0 runs, 1 edits
000000000102000900 > fault page 5 section 3 record 0 byte 8
0000000002020009   > fault page 1 section 3 record 2 byte 8
000000000202000904 > fault page 4 section 3 record 2 byte 8
"""
HAND_WORKED_EXAMPLES = """
five_runs         > page of 79 bytes: 2 names, 5 runs, 0 edits
all_edits         > page of 99 bytes: 3 names, 2 runs, 4 edits
no_records        > page of 5 bytes: 0 names, 0 runs, 0 edits
largest_numbers   > page of 79 bytes: 1 names, 2 runs, 4 edits
full_sections     > page of 35733 bytes: 64 names, 1024 runs, 2048 edits
short_count       > fault page 1 section 2 record 0 byte 1
short_name        > fault page 1 section 1 record 2 byte 3
short_run         > fault page 1 section 2 record 2 byte 21
short_edit        > fault page 1 section 3 record 1 byte 79
names_above_limit > fault page 2 section 1 record 0 byte 0
runs_above_limit  > fault page 2 section 2 record 0 byte 3
edits_above_limit > fault page 2 section 3 record 0 byte 77
name_length_zero  > fault page 3 section 1 record 2 byte 3
name_length_25    > fault page 3 section 1 record 1 byte 1
name_byte         > fault page 3 section 1 record 1 byte 1
edit_kind         > fault page 4 section 3 record 2 byte 82
excess            > fault page 5 section 3 record 0 byte 79
"""
# Two whole listings, with / between the lines.
FIVE_RUNS_AND_CANCEL = (
    "names 2/0 a/1 b/runs 5/1 0 100 1 160 fit 1/2 0 120 1 150 fit 2/3 1 150 0 200 fit 4/"
    "4 1 170 0 230 fit 1/5 0 200 0 260 fit 8/edits 1/cancel 2/"
    "page of 82 bytes: 2 names, 5 runs, 1 edits")
ALL_EDITS = (
    "names 3/0 north/1 !~/2 abcdefghijklmnopqrstuvwx/"
    "runs 2/258 3 84281096 4 151653132 fit 3342/7 2 900 0 800 fit 0/"
    "edits 4/retime 4370 320083222 387455258/cancel 6940/"
    "add 8482 35 623257384 36 690629420 fit 11566/cancel 0/"
    "page of 99 bytes: 3 names, 2 runs, 4 edits")


def expect(title, page, lines):
    """Stop unless the last lines told of the page are these."""
    if told(page)[0][-len(lines):] != lines:
        sys.exit(f"page oracle: {title}: told {told(page)[0]}, worked out by hand {lines}")


def self_test():
    """Try the reader on the damaged pages and examples worked out by hand."""
    damaged = samples.damaged()
    for row in HAND_WORKED_PAGES.strip("\n").split("\n"):
        digits, line = row.split(" > ")
        page = bytes.fromhex(digits.strip())
        expect("page " + digits.strip(), page, [line])
        if page not in damaged:
            sys.exit(f"page oracle: page {digits.strip()} is not among the damaged pages")
    pages = samples.examples()
    for row in HAND_WORKED_EXAMPLES.strip().split("\n"):
        title, line = row.split(" > ")
        expect(title.strip(), pages.pop(title.strip()), [line])
    if pages:
        sys.exit(f"page oracle: not worked out by hand: {list(pages)}")
    cancelled = samples.FIVE_RUNS[:77] + bytes.fromhex("0001 02 0002")
    expect("five runs and a cancel", cancelled, FIVE_RUNS_AND_CANCEL.split("/"))
    expect("all_edits", samples.ALL_EDITS, ALL_EDITS.split("/"))


def main(words):
    """Do what the command line asks; the exit status."""
    if len(words) == 2 and words[0] == "list":
        with open(words[1], "rb") as file:
            lines, status = told(file.read(READ_LIMIT))
        print("\n".join(lines))
        return status
    if words not in (["write"], ["check"]):
        print(__doc__, file=sys.stderr)
        return 2
    self_test()
    made = files()
    if words == ["write"]:
        write(made)
        return 0
    different = differing(made)
    for path in different:
        print(f"page oracle: {path} differs")
    if different:
        return 1
    print(f"page oracle: {len(samples.examples())} examples, {len(samples.damaged())} damaged pages,"
          " all as worked out")
    return 0


if __name__ == "__main__":
    sys.exit(main(sys.argv[1:]))
