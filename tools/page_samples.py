"""The example pages and the damaged pages, as bytes.

This only builds pages; what is to be told of them is worked out by
page_oracle.py. Everything here is fixed: the same pages come out each time.
"""

REST_SIZE = {1: 14, 2: 2, 3: 10}  # bytes after the kind byte of an edit


# ---- building pages ----

def count(value, size):
    """A number of `size` bytes, high byte first."""
    return value.to_bytes(size, "big")


def name(text):
    """A name record."""
    return bytes([len(text)]) + text


def add(run, from_name, to_name, start, end, fittings):
    """An add of 14 bytes."""
    return (count(run, 2) + bytes([from_name, to_name])
            + count(start, 4) + count(end, 4) + count(fittings, 2))


def cancel(run):
    """An edit of kind 2."""
    return b"\x02" + count(run, 2)


def retime(run, start, end):
    """An edit of kind 3."""
    return b"\x03" + count(run, 2) + count(start, 4) + count(end, 4)


def build(names, runs, edits):
    """A page of these records, with the right counts."""
    return (count(len(names), 1) + b"".join(names) + count(len(runs), 2) + b"".join(runs)
            + count(len(edits), 2) + b"".join(edits))


NO_RECORDS = bytes.fromhex("00 0000 0000")
FIVE_RUNS = bytes.fromhex(
    "02 0161 0162 0005"
    "0001 00 01 00000064 000000a0 0001   0002 00 01 00000078 00000096 0002"
    "0003 01 00 00000096 000000c8 0004   0004 01 00 000000aa 000000e6 0001"
    "0005 00 00 000000c8 00000104 0008   0000")
FIVE_RUNS_NO_COUNT = FIVE_RUNS[:-2]  # up to where the count of edits begins, byte 77
SMALL = build([name(b"a"), name(b"bc")],
              [add(1, 0, 1, 100, 160, 1), add(2, 1, 0, 300, 400, 2)],
              [b"\x01" + add(3, 0, 1, 500, 600, 4), cancel(1), retime(2, 310, 410)])
SMALL_COUNTS = ((0, 1), (6, 2), (36, 2))  # where each count of SMALL is, and its size
ALL_EDITS = build([name(b"north"), name(b"!~"), name(b"abcdefghijklmnopqrstuvwx")],
                  [add(0x0102, 3, 4, 0x05060708, 0x090A0B0C, 0x0D0E), add(7, 2, 0, 900, 800, 0)],
                  [retime(0x1112, 0x13141516, 0x1718191A), cancel(0x1B1C),
                   b"\x01" + add(0x2122, 35, 36, 0x25262728, 0x292A2B2C, 0x2D2E), cancel(0)])
LETTERS_65 = [name(bytes([33 + i])) for i in range(65)]


def largest_numbers():
    """Every field at its largest, and every field 0."""
    top, nothing = add(65535, 255, 255, 2**32 - 1, 2**32 - 1, 65535), add(0, 0, 0, 0, 0, 0)
    return build([name(b"~")], [top, nothing],
                 [b"\x01" + top, b"\x01" + nothing, cancel(65535), retime(65535, 2**32 - 1, 2**31)])


def full_sections():
    """Every count at its limit, every name of 24 bytes, all bytes 33 to 126 in names."""
    names = [name(bytes(33 + (24 * i + k) % 94 for k in range(24))) for i in range(64)]
    runs = [add(i + 1, i % 64, (i + 1) % 64, 10 * i, 10 * i + 7, i % 16) for i in range(1024)]
    kinds = [lambda i: cancel(i), lambda i: retime(i, i, i + 9),
             lambda i: b"\x01" + add(i, 1, 2, i, i + 5, 3)]
    return build(names, runs, [kinds[i % 3](i) for i in range(2048)])


def examples():
    """The example pages by name."""
    return {
        "five_runs": FIVE_RUNS, "all_edits": ALL_EDITS, "no_records": NO_RECORDS,
        "largest_numbers": largest_numbers(), "full_sections": full_sections(),
        "short_count": NO_RECORDS[:2],
        "short_name": b"\x02" + name(b"a") + b"\x03bc",
        "short_run": FIVE_RUNS[:34],
        "short_edit": FIVE_RUNS_NO_COUNT + count(1, 2) + retime(2, 120, 150)[:-1],
        "names_above_limit": build(LETTERS_65, [], []),
        "runs_above_limit": b"\x01" + name(b"a") + count(1025, 2) + FIVE_RUNS[7:21],
        "edits_above_limit": FIVE_RUNS_NO_COUNT + count(2049, 2) + cancel(2),
        "name_length_zero": build([name(b"a"), name(b"")], [], []),
        "name_length_25": build([name(b"a" * 25)], [], []),
        "name_byte": build([name(b"a b")], [], []),
        "edit_kind": FIVE_RUNS_NO_COUNT + count(2, 2) + cancel(2) + b"\x04\x00\x02",
        "excess": FIVE_RUNS + b"\x00",
    }


# ---- the damaged pages ----

def damaged_bytes():
    """Pages cut everywhere; SMALL with one byte replaced; bytes after; counts one off."""
    pages = []
    for base in (SMALL, NO_RECORDS, build([name(b"a")], [], []), build([], [], [cancel(9)]),
                 build([], [], [cancel(9), cancel(8)]), FIVE_RUNS):
        pages += [base[:n] for n in range(len(base) + 1)]
    for at, byte in enumerate(SMALL):
        for value in (0, 255, byte ^ 1):
            pages.append(SMALL[:at] + bytes([value]) + SMALL[at + 1:])
    for base in (SMALL, NO_RECORDS, FIVE_RUNS, build([], [], [cancel(9)])):
        for tail in (b"\x00", b"\xff", b"\x01", b"\x00\x00", cancel(1), retime(1, 2, 3), base):
            pages.append(base + tail)
    for at, size in SMALL_COUNTS:
        for step in (1, -1):
            value = int.from_bytes(SMALL[at:at + size], "big") + step
            pages.append(SMALL[:at] + count(value, size) + SMALL[at + size:])
    return pages


def damaged_names():
    """Names of wrong length, cut short, or of wrong bytes, and counts near the limit."""
    pages = []
    for before in (b"\x01", b"\x02" + name(b"a")):
        for length in (0, 1, 24, 25, 26, 255):
            pages.append(before + bytes([length]) + b"x" * length + bytes(4))
            for there in sorted({0, length // 2, max(length - 1, 0)}):
                pages.append(before + bytes([length]) + b"x" * there)
        for value in (32, 33, 126, 127, 0, 255):
            bad = bytes([value])
            for text in (bad, bad + b"yz", b"yz" + bad, bad + b"x" * 23, b"x" * 23 + bad):
                pages.append(before + name(text) + bytes(4))
            pages += [before + name(bad), before + b"\x03" + bad, before + b"\x03x" + bad,
                      before + b"\x19" + bad]
    for names in (63, 64, 65):
        for there in (0, 1, 63, 64, 65):
            start = bytes([names]) + b"".join(LETTERS_65[:there])
            pages += [start, start + bytes(4)]
    return pages + [b"\xff", b"\x40\x00", b"\x41\x00"]


def damaged_records():
    """Run counts near the limit and runs cut short; edit counts, kinds and edits cut short."""
    pages = []
    run = add(9, 0, 0, 10, 20, 1)
    for runs in (1023, 1024, 1025, 1280, 65535):
        for rest in (b"", run[:1], run[:13], run, run + run[:1], run + run):
            pages.append(b"\x00" + count(runs, 2) + rest)
    pages += [b"\x00\x04", b"\x00\x05", b"\x00\xff"]
    for edits in (2047, 2048, 2049, 2304, 65535):
        for rest in (b"", b"\x00", b"\x01", b"\x02", cancel(1), cancel(1) + b"\x04"):
            pages.append(bytes(3) + count(edits, 2) + rest)
    pages += [bytes(3) + b"\x08", bytes(3) + b"\x09", bytes(3) + b"\xff"]
    for before in (bytes(3) + count(1, 2), bytes(3) + count(2, 2) + cancel(9)):
        for kind in (0, 1, 2, 3, 4, 255):
            for there in range(REST_SIZE.get(kind, 2) + 2):
                pages.append(before + bytes([kind]) + bytes(there))
    return pages


def numbers_from(seed):
    """A fixed series of numbers of 0 to 32767."""
    state = seed
    while True:
        state = (state * 1103515245 + 12345) % 2**31
        yield state // 2**16


def changed(page, series):
    """The page with one byte replaced, deleted or inserted, or a stretch doubled."""
    way, at = next(series) % 4, next(series) % (len(page) + 1)
    value = next(series) % (256 if next(series) % 2 else 5)
    if way == 0:
        return page[:at] + bytes([value]) + page[at + 1:]
    if way == 1:
        return page[:at] + page[at + 1:]
    if way == 2:
        return page[:at] + bytes([value]) + page[at:]
    end = at + 1 + next(series) % 16
    return page[:end] + page[at:]


def damaged():
    """All the damaged pages, each once, in a fixed order; the last 300 by fixed chance."""
    pages = dict.fromkeys(damaged_bytes() + damaged_names() + damaged_records())
    bases = [SMALL, SMALL, FIVE_RUNS, ALL_EDITS, build([name(b"abc")], [], []),
             build([name(b"a")], [], [cancel(1), cancel(2), retime(3, 4, 5)])]
    series = numbers_from(20)
    wanted = len(pages) + 300
    while len(pages) < wanted:
        page = bases[next(series) % len(bases)]
        for _ in range(1 + next(series) % 3):
            page = changed(page, series)
        pages[page] = None
    return list(pages)
