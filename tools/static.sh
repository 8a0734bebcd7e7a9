# What a script needs that calls the kit's compiler itself, sourced at the top of the checkout, after tools/kit.sh.

# static_library NAME ROOT OUT [FLAG..]: proves the crate NAME, whose root file is ROOT, and compiles it as a static library OUT, over the
# libraries in crates/*/out/rlib as they stand. It may use what crates.txt lists for device_c. --toolchain DIR: another than the kit's.
static_library() {
    local name=$1 root=$2 out=$3 dep words=()
    shift 3
    [[ " $* " == *" --toolchain "* ]] || words+=(--toolchain "$tools")
    for dep in $(sed -n 's/^device_c[^:]*: *//p' crates.txt | sed 's/#.*//'); do
        if [ -d "crates/$dep" ]; then words+=(--extern "$dep=crates/$dep/out/rlib/$dep.rlib"); else words+=(--extern "$dep=$kit/rlibs/$dep.rlib"); fi
    done
    # what those stand on is found there
    for dep in crates/*/out/rlib; do words+=(-L "dependency=$dep"); done
    "$kit/bin/rattle" build --crate-name "$name" "$root" --crate-type staticlib --extern "std=$kit/rlibs/std.rlib" "${words[@]}" \
        -L "dependency=$kit/rlibs" --antt-project "$kit/rattle/logic/antt-project.json" --logic-built "$kit/logic_built" --jobs 2 \
        -o "$out" "$@"
}

# keeping_toolchain DIR: a toolchain like the kit's, but for a compiler that leaves a copy of what it compiles, DIR/module.bc. Outside the
# checkout: rt takes no links there.
keeping_toolchain() {
    local tool
    mkdir "$1/bin"
    ln -s "$tools/lib" "$1/lib"
    for tool in "$tools"/bin/*; do ln -s "$tool" "$1/bin/"; done
    rm "$1/bin/clang"
    cat >"$1/bin/clang" <<TEXT
#!/bin/bash
for word in "\$@"; do case "\$word" in *.bc) cp "\$word" "$1/module.bc" ;; esac; done
exec "$tools/bin/clang" "\$@"
TEXT
    chmod +x "$1/bin/clang"
}

# compile_module MODULE OUT [FLAG..]: compiles an LLVM module with the flags that the kit gives its compiler: most turn off what compiles
# some right code wrongly.
compile_module() {
    local module=$1 out=$2
    shift 2
    "$tools/bin/clang" --target=x86_64-unknown-linux-gnu --no-default-config -march=x86-64 -ffunction-sections -fdata-sections -fPIC -O3 \
        -mllvm -no-trap-after-noreturn -mllvm -trap-unreachable -mllvm -no-x86-call-frame-opt -mllvm -disable-machine-licm \
        -mllvm -disable-postra-machine-licm -mllvm -sink-common-insts=false -Wno-override-module "$@" -c -x ir "$module" -o "$out"
}
