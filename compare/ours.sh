# Our programs beside the oracle: sourced by `run`.

# Where rt leaves a proved program.
command_of() { (cd "$top" && . tools/kit.sh && echo "$top/$(program "$1")"); }

# Proves and builds our programs, if that is still to do.
prove_ours() {
    (cd "$top" && . tools/kit.sh && build_program beside && { [ -z "$keyreport" ] || build_program keyreport; }) >"$work/prove.log" 2>&1 || {
        tail -n 20 "$work/prove.log" >&2
        die "our programs are not proved"
    }
}

# Without the Rust there are only the stored vectors, which rt replays; the gate does not go on without it.
or_say() {
    local what
    what=$(missing) || return 0
    [ -z "${CI:-}" ] || die "$what, so ours cannot be run beside it"
    echo "compare: $what; what is left are the stored vectors, which rt replays"
    exit 0
}

# all STREAMS SEED REQUESTS: every kind of comparison, side by side, each with a log of its own.
all() {
    local streams=$1 seed=$2 requests=$3 beside keyreport= jobs=() job failed=
    or_say
    mkdir -p "$work"
    [ ! -d "$top/crates/keyreport" ] || keyreport=$(command_of keyreport)
    prove_ours
    need
    beside=$(command_of beside)
    side() { check --streams "$streams" --seed "$seed" "${@:2}" >"$work/$1.log" 2>&1 & jobs+=("$1 $!"); }
    # beside's own lines stand in its output with states
    [ -z "$keyreport" ] || side lines "$keyreport"
    side states --states "$beside --states"
    side fold --fold --states "$beside --fold --states"
    check --streams 1 --records "$requests" --seed "$seed" --calls "$beside --calls" >"$work/calls.log" 2>&1 &
    jobs+=("calls $!")
    if has_cc; then
        (need_replay && device "$streams" "$seed") >"$work/device.log" 2>&1 &
        jobs+=("device $!")
    fi
    for job in "${jobs[@]}"; do
        if wait "${job#* }"; then
            echo "${job% *}: $(tail -n 1 "$work/${job% *}.log")"
        else
            failed=1
            echo "${job% *}: DIFFERENT"
            cat "$work/${job% *}.log"
        fi
    done
    [ -z "$failed" ] || die "ours and the Rust differ"
    grep -A 20 '^ 0:' "$work/states.log" | head -n 6
}

fast() { all 100 0 5000; }
long() { all 7600 1000 100000; }

# stdin and stdout of crates/beside, which rt replays without Rust: for each number the shortest lives that end
# in it, a stream of each style, direct calls.
stored() {
    local in=$top/crates/beside/stdin out=$top/crates/beside/stdout dir=$work/stored stream=$work/stored/one k n style
    need
    rm -rf "$dir" && mkdir -p "$dir"
    : >"$in"
    : >"$out"
    for k in $(seq 0 199); do seeded "$dir" "$k" 150; done
    for n in $(seq 0 38); do
        for k in 02468 13579; do
            "$bin/oracle" --life "$n" "$dir"/seed-*["$k"].in </dev/null >"$stream"
            # some numbers have no life here, or only a long one
            if [ -s "$stream" ] && [ "$(wc -c <"$stream")" -lt 6000 ]; then store s --states; fi
        done
    done
    for style in named $("$bin/generate" styles); do
        "$bin/generate" 7 10 "$style" | "$bin/oracle" --whole >"$stream" || die "the generator failed"
        store s --states
        store sf --states --fold
    done
    { cat "$here/named.requests" && "$bin/generate" 7 150 calls; } >"$dir/requests"
    printf '\0\0\0\1c' >>"$in"
    "$bin/oracle" --encode <"$dir/requests" >>"$in"
    "$bin/oracle" --calls <"$dir/requests" >>"$out"
    # document 01's example, with its cut end
    printf 'DR\0\0I' >"$stream"
    store ''
    counts <"$out"
    du -ch "$in" "$out"
}

# store LETTERS FLAG..: a stream into the stored input, behind a record with mark 0 that says how it is meant, and
# what the Rust says of it into the stored output. A cut end would end the input: only the last stream may have one.
store() {
    printf "\\0\\0\\0\\$(printf %o ${#1})%s" "$1" >>"$in"
    cat "$stream" >>"$in"
    "$bin/oracle" "${@:2}" <"$stream" >>"$out"
}
