# What examples/run, measure/stack and compare/ share, sourced at the top of the checkout: the device's archive, and C programs over it.
. tools/kit.sh
. tools/static.sh
work=target/device

say() { echo "device: $*"; }

# missing WHAT: a line, and where the variable CI is set an error
missing() {
    say "$1 is missing, so $2"
    [ -z "${CI:-}" ] || exit 1
}

# archive_sum: what the archive is made of, and the archive itself
archive_sum() {
    { rt version && find crates crates.txt -regex 'crates/[^/]*/out' -prune -o -type f -print0 | sort -z | xargs -0 cat && cat "$work/libkeystate.a"; } | sha256sum
}

# library: target/device/libkeystate.a, proved and compiled by the kit; not again from the same sources. `rt lib` proves anew each crate
# below for which it has kept nothing, so the gate has it made over the libraries that `rt ci` built just before (OVER_CI).
library() {
    mkdir -p "$work"
    [ ! -e "$work/libkeystate.a" ] || [ "$(archive_sum)" != "$(cat "$work/sum" 2>/dev/null)" ] || return 0
    if [ -n "${OVER_CI:-}" ]; then
        static_library device_c crates/device_c/src/lib.rt "$work/libkeystate.a"
    else
        (cd crates/device_c && rt lib) && cp crates/device_c/out/libdevice_c.a "$work/libkeystate.a"
    fi >"$work/log" 2>&1 || { tail -n 20 "$work/log"; exit 1; }
    archive_sum >"$work/sum"
}

# build_c SOURCE OUT [FLAG..]
build_c() {
    local source=$1 out=$2
    shift 2
    cc -std=c99 -Wall -Wextra -Werror -Iinclude "$@" "$source" "$work/libkeystate.a" -o "$out"
}
