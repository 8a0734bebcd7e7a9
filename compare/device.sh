# The device's archive beside the given Rust: sourced by `run`. The Rust's part writes calls with what it expects
# (device/script.rs), the C part makes them (device/replay.c). examples/kit.sh, which builds C over the archive, has names of
# its own, so it is sourced in a shell of its own.
faults_in_calls=21
replay=$top/target/device/replay

with_kit() { (cd "$top" && . examples/kit.sh && "$@"); }

# Without a C compiler the archive is not run; the gate does not go on without it.
has_cc() {
    command -v cc >/dev/null && return 0
    [ -z "${CI:-}" ] || die "no C compiler, so the archive cannot be run beside the Rust"
    echo "compare: no C compiler; the device's archive was not run"
    return 1
}

# Both replay programs: over the archive, and over the archive with faults.
need_replay() {
    need
    with_kit library || die "the archive is not built"
    rm -f "$replay"*
    with_kit build_c compare/device/replay.c target/device/replay -O2 || die "replay.c does not compile"
    with_kit build_c compare/device/replay.c target/device/replay-faulty -O2 -DFAULTY || die "faulty.h does not compile"
}

# device_calls STREAMS SEED: short inputs, document 01's named cases and seeded streams as one script
device_calls() {
    local dir=$work/device input k
    rm -rf "$dir" && mkdir -p "$dir"
    short_inputs "$dir"
    for input in "$dir"/*.in; do
        "$bin/script" "$(basename "$input")" <"$input" || return 1
    done
    for k in $(seq "$2" $(($2 + $1 - 1))); do
        "$bin/generate" "$k" 150 | "$bin/script" "seed $k" || return 1
    done
}

# device [STREAMS [SEED]]: first that a difference would be noticed, then that there is none
device() {
    device_faults && device_calls "${1:-100}" "${2:-0}" | "$replay"
}

# Shows that a difference is noticed, on a stream of each style: one expected bit turned, and one fault in the calls.
device_faults() {
    local dir=$work/device-faults k missed="" noticed=0
    rm -rf "$dir" && mkdir -p "$dir"
    for k in $(seq 0 9); do seeded "$dir" "$k" 60; done
    for k in $(seq 1 100); do
        "$bin/script" spoiled --spoil "$k" <"$dir/seed-$((k % 10)).in" >"$dir/script" || die "no script"
        notice "bit $k" "$replay"
    done
    for k in $(seq 0 9); do "$bin/script" "seed $k" <"$dir/seed-$k.in" || die "no script"; done >"$dir/script"
    "$replay-faulty" <"$dir/script" >"$dir/out" || {
        cat "$dir/out"
        die "there is a difference without a fault"
    }
    for k in $(seq "$faults_in_calls"); do
        FAULT=$k notice "fault $k" "$replay-faulty"
    done
    [ -z "$missed" ] || die "not noticed:$missed"
    echo "$noticed faults noticed: 100 expected bits turned, $faults_in_calls faults in the calls"
}

# notice NAME PROGRAM: replay ends with 1 at a difference, and with 2 if it cannot read the script
notice() {
    "$2" <"$dir/script" >"$dir/out"
    if [ $? = 1 ]; then noticed=$((noticed + 1)); else missed="$missed $1"; fi
}
