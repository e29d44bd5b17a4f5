#!/usr/bin/env bash
# Proves and builds the program, runs it on each example, and compares what it prints and its exit
# status with what is wanted. Then it runs it on words and files that are refused.
set -u
top=$(cd "$(dirname "$0")/.." && pwd)
cd "$top/crates/grd" || exit 1
rt run >/dev/null 2>&1 || true
program=out/grd
failed=0
printed=$(mktemp)
warned=$(mktemp)
trap 'rm -f "$printed" "$warned"' EXIT

# check WANTED-STATUS WANTED-OUTPUT WANTED-ERROR-LINE WORD..
check() {
    local wanted=$1 output=$2 line=$3 status
    shift 3
    "$program" "$@" >"$printed" 2>"$warned"
    status=$?
    if [ "$status" = "$wanted" ] && cmp -s "$printed" "$output" && [ "$(cat "$warned")" = "$line" ]; then
        echo "ok: $*"
    else
        echo "FAILED (status $status, wanted $wanted): $*"
        failed=1
    fi
}

# check_costs FILES: what `wcd` prints with its plans cut off, where several plans are optimal
check_costs() {
    local files=$1
    "$program" wcd --domain "$files/domain.pddl" --problem "$files/problem.pddl" --goals "$files/goals.txt" >"$printed" 2>"$warned"
    if [ "$?" = 0 ] && sed 's/ (.*//' "$printed" | cmp -s - "$files/expected_costs.txt" && [ ! -s "$warned" ]; then
        echo "ok: costs and wcd of $files"
    else
        echo "FAILED: costs and wcd of $files"
        failed=1
    fi
}

# check_files WANTED-ERROR-LINE DOMAIN PROBLEM
check_files() {
    check 1 /dev/null "$1" cost --domain "$2" --problem "$3" --goals "$fork/goals.txt"
}

fork=../../examples/fork
keep=../../examples/keep
loose=../../examples/loose
rooms=../../examples/rooms
refused=../../examples/refused
logistics=../../examples/logistics
campus=../../examples/campus
lights=../../examples/lights
tower=../../examples/tower
for files in "$fork" "$keep" "$loose" "$logistics" "$campus" "$lights" "$tower"; do
    check 0 "$files/expected.txt" "" cost --domain "$files/domain.pddl" --problem "$files/problem.pddl" --goals "$files/goals.txt"
done
on_fork=(--domain "$fork/domain.pddl" --problem "$fork/problem.pddl")
check 0 "$fork/expected_wcd.txt" "" wcd "${on_fork[@]}" --goals "$fork/two_goals.txt"
check 0 "$fork/expected_wcd.txt" "" wcd --max-states=5 "${on_fork[@]}" "--goals=$fork/two_goals.txt"
for files in "$logistics" "$campus" "$lights" "$tower"; do
    check 0 "$files/expected_wcd.txt" "" wcd --domain "$files/domain.pddl" --problem "$files/problem.pddl" --goals "$files/goals.txt"
done
for files in grid blocks gripper; do
    check_costs "../../examples/$files"
done
for files in "$keep" "$rooms" "$lights" "$tower"; do
    check 0 "$files/expected_show.txt" "" show --domain "$files/domain.pddl" --problem "$files/problem.pddl"
done

check_files "grd: domain: empty" /dev/null "$fork/problem.pddl"
check_files "grd: domain: byte 0: unclosed" "$refused/unclosed.pddl" "$fork/problem.pddl"
check_files "grd: domain: byte 38: unsupported numeric effect" "$refused/numeric_effect.pddl" "$fork/problem.pddl"
check_files "grd: problem: byte 0: unclosed" "$refused/unknown_type.pddl" "$refused/unclosed.pddl"
check_files "grd: domain: byte 59: unknown type" "$refused/unknown_type.pddl" "$keep/problem.pddl"
check_files "grd: domain: byte 65: wrong count" "$refused/one_term.pddl" "$fork/problem.pddl"
check_files "grd: problem: byte 29: other domain" "$fork/domain.pddl" "$keep/problem.pddl"
check 1 /dev/null "grd: 3136 atoms, limit 3072" cost --domain "$refused/many_atoms.pddl" --problem "$fork/problem.pddl" --goals "$refused/at_start.txt"
check 1 /dev/null "grd: 3200 atoms, limit 3072" cost --domain "$refused/many_complements.pddl" --problem "$fork/problem.pddl" --goals "$refused/at_start.txt"
check 1 /dev/null "grd: goals: line 3: unknown atom" wcd "${on_fork[@]}" --goals "$fork/unknown_atom.txt"
check 1 /dev/null "grd: problem: byte 0: unclosed" show --domain "$rooms/domain.pddl" --problem "$refused/unclosed.pddl"
check 2 /dev/null "grd: usage: no command"
check 2 /dev/null "grd: usage: missing --problem" cost --domain "$fork/domain.pddl"
check 2 /dev/null "grd: usage: missing --problem" show --domain "$rooms/domain.pddl"
check 2 /dev/null "grd: usage: word 2" wcd --help
check 2 /dev/null "grd: usage: number --max-states" cost "${on_fork[@]}" --goals "$fork/goals.txt" --max-states 0
check 4 /dev/null "grd: limit: more than 1 states near goal 1" cost "${on_fork[@]}" --goals "$fork/goals.txt" --max-states 1
check 5 /dev/null "grd: domain: read failed" cost --domain "$fork/missing.pddl" --problem "$fork/problem.pddl" --goals "$fork/goals.txt"
exit $failed
