#!/usr/bin/env bash
# The tests: `rt ci` proves every listed crate, tries every must-fail edit, runs every program and compares what it writes
# (target/gate.log); then what each edit showed; then all that is made of the proved crates (tests/check). The last line is
# 'N passed, 0 failed' only if all of that went well, and no edit was one that could not be tried.
set -euo pipefail
cd "$(dirname "$0")"

log=$(mktemp)
trap 'rm -f "$log"' EXIT

# Runs a command whose last line says how many passed: sets `passed`, and ends the tests if one failed or it was not run to its end.
count_passed() {
    "$@" | tee "$log"
    passed=$(tail -n 1 "$log" | sed -n 's/^\([0-9][0-9]*\) passed, 0 failed$/\1/p')
    [ -n "$passed" ]
}

count_passed rt ci
proofs=$passed
mkdir -p target
cp "$log" target/gate.log
if grep '^rt: ok.*, [0-9][0-9]* bad' "$log"; then exit 1; fi
grep -q '^rt: ok' "$log"
tests/refusals target/gate.log
count_passed make -s check
echo "$((proofs + 1 + passed)) passed, 0 failed"
