# Builds the given Rust for timing, sourced: as compare/build.sh does, but as fast as rustc makes it for the processors that the kit
# compiles for. COMPARE_SRC says where the given Rust is (default ../shared/docs/src).
here=$top/compare
src=${COMPARE_SRC:-$top/../shared/docs/src}
work=$top/target/measure/rust
. "$here/build.sh"
crate() {
    local name=$1 kind=$2 file=$3 out=$4
    shift 4
    rustc --edition 2024 --crate-name "$name" --crate-type "$kind" "$file" -C opt-level=3 -C target-cpu=x86-64-v2 -C debug-assertions=off -C codegen-units=1 \
        --out-dir "$out" -L "$out" --cfg 'feature="alloc"' "$@" || die "$name does not compile"
}

# The given Rust and the oracle's library, once for the same sources.
need_rust() {
    local sources
    command -v rustc >/dev/null || die "rustc is missing, so nothing was timed"
    [ -d "$src/crates" ] || die "the given Rust is not at $src, so nothing was timed"
    mkdir -p "$work/bin"
    sources=$(find "$here" "$src" -type f -print0 | sort -z | xargs -0 cat | sha256sum)
    [ "$sources" != "$(cat "$work/built" 2>/dev/null)" ] || return 0
    stage "$src" "$work/tree"
    build_fixed "$work/bin"
    build_given "$work/tree" "$work/bin"
    build_oracle "$work/bin"
    echo "$sources" >"$work/built"
}
