# Where the kit lies and where rt leaves what it builds: sourced at the top of the checkout. Today's kit is for x86-64; the programs that
# it links run under the machine's own loader and C library.
kit=$(dirname "$(dirname "$(readlink -f "$(command -v rt)")")")
tools=$kit/toolchain

# program NAME: the program of a crate, as `rt run` and `rt ci` leave it
program() { echo "crates/$1/out/$1"; }

# fresh FILE: it is there, and nothing of the crates but what rt makes is newer
fresh() { [ -e "$1" ] && [ -z "$(find crates crates.txt -regex 'crates/[^/]*/out' -prune -o -type f -newer "$1" -print -quit)" ]; }

# build_program NAME: proves and builds the program where that is to do. rt has no word for building alone, so it runs it too, on nothing.
# What rt says goes to standard output.
build_program() {
    fresh "$(program "$1")" && return 0
    (cd "crates/$1" && rt run 2>&1 >/dev/null </dev/null) && touch "$(program "$1")"
}
