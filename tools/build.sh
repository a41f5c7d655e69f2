# For the scripts of bin/: `build PROGRAM CRATE..` proves and builds crates/PROGRAM/out/PROGRAM if it
# is not there or older than a file of the crates; `root` is the repository's folder.
root=$(cd "$(dirname "${BASH_SOURCE[0]}")/.." && pwd)

build() {
    local program=$1 log crate input=/dev/null
    local built=$root/crates/$program/out/$program
    shift
    for crate in "$@"; do
        [ -d "$root/crates/$crate" ] || { echo "$0: the crate $crate is not in the repository" >&2; exit 2; }
    done
    if [ -x "$built" ] && [ -z "$(find "$root/crates.txt" "${@/#/$root/crates/}" -name out -prune -o -newer "$built" -type f -print -quit)" ]; then
        return 0
    fi
    command -v rt >/dev/null || { echo "$0: the Rattle toolchain's command rt is not on the PATH" >&2; exit 2; }
    log=$(mktemp)
    # `rt run` proves, builds and runs the program: on its own example, which ends with status 0
    [ ! -f "$root/crates/$program/stdin" ] || input=$root/crates/$program/stdin
    if ! (cd "$root/crates/$program" && rt run) >"$log" 2>&1 <"$input" || [ ! -x "$built" ]; then
        cat "$log" >&2
        rm -f "$log"
        exit 2
    fi
    rm -f "$log"
    touch "$built"
}
