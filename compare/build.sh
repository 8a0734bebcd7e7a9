# Stages the given Rust beside the stand-ins and compiles it: sourced by `run`.

# The 20 given files, relative to the crates folder. Written out, so that a missing or a
# new one is noticed.
given_files() {
    local events="config error event/delegation event/inception event/interaction event/mod
        event/rotation identifier member_set message_type seal threshold toad"
    local name
    for name in authority delegation error state verification; do echo "keri/src/$name.rs"; done
    for name in $events; do echo "keri-events/src/$name.rs"; done
    echo cesr/src/core/primitives/siger.rs
    echo cesr/src/crypto/verify.rs
}

# stage SRC TREE: copies of the given files, compared byte for byte, and the stand-ins.
stage() {
    local src=$1/crates tree=$2 file crate
    [ -d "$src" ] || die "no given Rust at $1 (pass its directory, or set COMPARE_SRC)"
    rm -rf "$tree"
    for file in $(given_files); do
        mkdir -p "$(dirname "$tree/$file")"
        cp "$src/$file" "$tree/$file" || die "$src/$file is missing"
        cmp "$src/$file" "$tree/$file" || die "the copy of $file differs"
    done
    [ "$(cd "$src" && find . -name '*.rs' | wc -l)" = "$(given_files | wc -l)" ] ||
        die "$src holds other files than the 20 that are known"
    for crate in cesr keri-events keri; do
        # A stand-in must never take the place of a given file.
        (cd "$here/standins/$crate" && find . -name '*.rs') | while read -r file; do
            [ ! -e "$tree/$crate/src/$file" ] || die "stand-in $crate/$file hides a given file"
            mkdir -p "$(dirname "$tree/$crate/src/$file")"
            cp "$here/standins/$crate/$file" "$tree/$crate/src/$file"
        done || exit 1
    done
    chmod -R u+w "$tree"
}

# crate NAME KIND FILE OUT [FLAG..]: one call of rustc.
crate() {
    local name=$1 kind=$2 file=$3 out=$4
    shift 4
    rustc --edition 2024 --crate-name "$name" --crate-type "$kind" "$file" \
        -C opt-level="${COMPARE_OPT:-2}" -C debug-assertions=on -C codegen-units=2 \
        --out-dir "$out" -L "$out" --cfg 'feature="alloc"' "$@" || die "$name does not compile"
}

# Parts that no fault changes.
build_fixed() {
    local out=$1 s=$here/standins
    crate thiserror proc-macro "$s/thiserror.rs" "$out"
    crate eq_and_parts proc-macro "$s/eq_and_parts.rs" "$out"
    crate ed25519_dalek rlib "$s/ed25519_dalek.rs" "$out"
    crate k256 rlib "$s/ecdsa.rs" "$out"
    crate p256 rlib "$s/ecdsa.rs" "$out"
}

# build_given TREE OUT [FIRST]: the staged crates, from FIRST on: a fault changes only that one
# and those that use it. Lints are the given project's own affair.
build_given() {
    local tree=$1 out=$2 first=${3:-cesr} e="--cap-lints allow"
    local error="--extern thiserror=$out/libthiserror.so"
    if [ "$first" = cesr ]; then
        crate cesr rlib "$tree/cesr/src/lib.rs" "$out" $e $error \
            --extern ed25519_dalek="$out/libed25519_dalek.rlib" \
            --extern k256="$out/libk256.rlib" --extern p256="$out/libp256.rlib"
    fi
    if [ "$first" != keri ]; then
        crate keri_events rlib "$tree/keri-events/src/lib.rs" "$out" $e $error \
            --extern cesr="$out/libcesr.rlib" --extern ed25519_dalek="$out/libed25519_dalek.rlib"
    fi
    crate keri rlib "$tree/keri/src/lib.rs" "$out" $e $error \
        --extern eq_and_parts="$out/libeq_and_parts.so" \
        --extern cesr="$out/libcesr.rlib" --extern keri_events="$out/libkeri_events.rlib"
}

# build_oracle OUT: the oracle's library and program.
build_oracle() {
    local out=$1
    crate oracle_lib rlib "$here/oracle/lib.rs" "$out" --extern cesr="$out/libcesr.rlib" \
        --extern keri_events="$out/libkeri_events.rlib" --extern keri="$out/libkeri.rlib"
    crate oracle bin "$here/oracle/main.rs" "$out" --extern oracle_lib="$out/liboracle_lib.rlib"
}

build_all() {
    local src=$1
    mkdir -p "$work/bin"
    stage "$src" "$work/tree"
    build_fixed "$work/bin"
    build_given "$work/tree" "$work/bin"
    build_oracle "$work/bin"
    crate generate bin "$here/generate/main.rs" "$work/bin" \
        --extern oracle_lib="$work/bin/liboracle_lib.rlib"
    crate script bin "$here/device/script.rs" "$work/bin" \
        --extern oracle_lib="$work/bin/liboracle_lib.rlib"
}

# The named cases, as Rust's own tests.
build_tests() {
    crate named bin "$here/oracle/named.rs" "$work/bin" --test \
        --extern oracle_lib="$work/bin/liboracle_lib.rlib"
}
