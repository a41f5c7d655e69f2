#!/usr/bin/env bash
# Runs bin/pages on every page in examples/, by file name and on standard
# input, and compares what it prints and its exit status with the .expected
# file beside the page. It begins as a fresh checkout does: with nothing built.
set -euo pipefail

cd "$(dirname "${BASH_SOURCE[0]}")/.."
work=$(mktemp -d)
trap 'rm -rf "$work"' EXIT

if [[ ! -x bin/pages ]]; then
    echo "examples: bin/pages is not there"
    exit 1
fi

# a change of any crate that the lister stands on has to build it again
for crate in pages $(sed -n 's/^pages://p' crates.txt); do
    if ! grep -qE "^build pages( .*)? $crate( |\$)" bin/pages; then
        echo "examples: bin/pages does not name the crate $crate, which the lister stands on"
        exit 1
    fi
done

# the first call below has to build the program
rm -f crates/pages/out/pages

pages=0
differences=0

# compare PAGE EXPECTED HOW STATUS: judge the output in $work/out.
compare() {
    local wanted=0
    if grep -q '^fault page ' "$2"; then
        wanted=1
    fi
    if ! cmp -s "$work/out" "$2"; then
        echo "examples: $1 ($3): the output differs"
        diff -a "$2" "$work/out" | head -n 6 || true
        differences=$((differences + 1))
    fi
    if [[ $4 -ne $wanted ]]; then
        echo "examples: $1 ($3): exit status $4, expected $wanted"
        differences=$((differences + 1))
    fi
}

# try PAGE EXPECTED: run bin/pages on the page in both ways.
try() {
    local status
    if [[ ! -f $2 ]]; then
        echo "examples: $2 is not there"
        differences=$((differences + 1))
        return
    fi
    status=0
    bin/pages "$1" > "$work/out" || status=$?
    compare "$1" "$2" "by name" "$status"
    status=0
    bin/pages < "$1" > "$work/out" || status=$?
    compare "$1" "$2" "on standard input" "$status"
    pages=$((pages + 1))
}

for page in examples/*.page; do
    try "$page" "${page%.page}.expected"
done

# A page of 70,000 bytes: the five runs (79 bytes), then zero bytes.
size=$(wc -c < examples/five_runs.page)
{ cat examples/five_runs.page; head -c $((70000 - size)) /dev/zero; } > "$work/long.page"
echo "fault page 5 section 3 record 0 byte 79" > "$work/long.expected"
try "$work/long.page" "$work/long.expected"

: > "$work/empty.page"
echo "fault page 1 section 1 record 0 byte 0" > "$work/empty.expected"
try "$work/empty.page" "$work/empty.expected"

# An endless input: only its first 65,536 bytes are read, so the program ends.
status=0
timeout 60 bin/pages < /dev/zero > "$work/out" || status=$?
echo "fault page 5 section 3 record 0 byte 5" > "$work/endless.expected"
compare "/dev/zero" "$work/endless.expected" "on standard input" "$status"
pages=$((pages + 1))

if [[ $differences -ne 0 ]]; then
    echo "examples: $differences differences"
    exit 1
fi
echo "examples: $pages pages as expected"
