#!/usr/bin/env bash
# The gate: rt ci over every crate, then the other tests on what it built. Its last line is the verdict,
# rt ci's own 'N passed, 0 failed' where everything else passed too.
set -u
cd "$(dirname "$0")/.." || exit 2
log=$(mktemp) || exit 2
rust_log=$(mktemp) || exit 2
trap 'rm -f "$log" "$rust_log"' EXIT
parts='' failed=0
. tools/programs.sh
. tests/steps.sh

# Runs one part, and keeps how long it took and whether it passed.
part() { # NAME COMMAND..
    local name=$1 began took status
    shift
    began=$(date +%s)
    "$@"
    status=$?
    took=$(($(date +%s) - began))
    local word=passed
    [ "$status" -eq 0 ] || { word=FAILED failed=$((failed + 1)); }
    parts+=$(printf '%-22s %3d min %02d s   %s' "$name" $((took / 60)) $((took % 60)) "$word")$'\n'
}

# Everything that rt ci prints but its verdict, which is kept for the end. An edit that never reached the prover (rt calls it bad) fails
# nothing there, and fails here.
prove() {
    rt ci 2>&1 | tee "$log" | grep -vE '^[0-9]+ passed, [0-9]+ failed$'
    [ "${PIPESTATUS[0]}" -eq 0 ] || return 1
    ! grep -qE '^rt: ok.*, [1-9][0-9]* bad' "$log" || { echo 'edits are bad: see their lines above'; return 1; }
    # The program that it proved and ran is what the parts below try.
    [ -x crates/replay/out/replay ] || build_replay
}

# The Rust packages, built for the parts after this one, and their own tests, in the profile that builds quickest.
rust_tests() {
    local package printed
    build_others || return 1
    for package in second differential; do
        printed=$(package_tests "$package") || { echo "$printed"; return 1; }
        echo "$package: $printed"
    done
}

# What rust_tests, which runs beside the proofs, printed, and whether it passed.
rust_told() {
    local status
    wait "$rust_job"
    status=$?
    cat "$rust_log"
    return "$status"
}

recordings() {
    python3 -m unittest --quiet tests/*_test.py && tools/recordings.py check "$replay" "$second"
}

# One seed, so that a gate that passed passes again; make soak takes others.
compare() {
    "$differential" compare --seed 1 --count 2000 --keep build/differences "$replay" "$second"
}

tools/install.sh python3 cc $to_run $to_link || exit 2

# With a stand-in the parts can be tried, but the verdict is not the proved program's or library's.
[ -z "${REPLAY:-}${THINNAROM_LIBRARY:-}" ] || part 'stand-in' false
# A slip in a text is found before anything is proved.
python3 tests/repository.py >"$log" 2>&1 || { cat "$log"; echo '0 passed, 1 failed'; exit 1; }

# The lowest crates stand on one another and leave a processor free: the Rust packages, which need no proof, take it.
rust_tests >"$rust_log" 2>&1 &
rust_job=$!
part 'proofs and edits' prove
part 'second program' rust_told
part 'recordings' recordings
part 'program' python3 tests/program.py "$replay" "$second" "$differential"
part 'differential' compare
part 'embedding in C' tests/embedding.sh
part 'embedding in Rust' tests/embedding_rust.sh
part 'repository' python3 tests/repository.py "$log"

verdict=$(tail -n 1 "$log")
printf '\n%s' "$parts"
if [ "$failed" -eq 0 ]; then
    echo "$verdict"
else
    echo "$(sed -n 's/^\([0-9]*\) passed, .*/\1/p' <<<"$verdict" | grep . || echo 0) passed, $failed failed"
    exit 1
fi
