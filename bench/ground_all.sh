#!/usr/bin/env bash
# Times the grounding of up to a million typed instances by the built program, and shows the most memory
# that was held: `cost` is asked for a goal that holds at the start, so that next to nothing is searched.
# grid: cells in a square, and one action of two cells; few instances are not blocked.
# triples: one action of three objects of any type; no instance is blocked.
# apart: the same, where two of the objects differ and an atom must be false; few instances are blocked.
set -eu
top=$(cd "$(dirname "$0")/.." && pwd)
cd "$top/crates/grd"
rt run >/dev/null 2>&1 || true
program=$PWD/out/grd
work=$(mktemp -d)
trap 'rm -rf "$work"' EXIT
cat > "$work/run.py" <<'END'
import resource, subprocess, sys, time

start = time.time()
done = subprocess.run(sys.argv[2:], capture_output=True, text=True)
taken = time.time() - start
held = resource.getrusage(resource.RUSAGE_CHILDREN).ru_maxrss
if done.returncode != 0 or "goal 1 cost 0\n" not in done.stdout:
    sys.exit(f"status {done.returncode}: {done.stderr}{done.stdout[:200]}")
print(f"{sys.argv[1]}  {taken:6.2f} s  {held // 1024:5} MiB", flush=True)
END
cat > "$work/make.py" <<'END'
import sys

kind, size, work = sys.argv[1], int(sys.argv[2]), sys.argv[3]


def grid(n):
    """n rows of n cells: n ** 4 instances."""
    cells = [(r, c) for r in range(n) for c in range(n)]
    links = [
        f"(connected c{r}-{c} c{r + y}-{c + x})"
        for r, c in cells
        for y, x in ((-1, 0), (1, 0), (0, -1), (0, 1))
        if 0 <= r + y < n and 0 <= c + x < n
    ]
    domain = """(define (domain made) (:types cell)
(:predicates (at ?a - cell) (connected ?a ?b - cell))
(:action move :parameters (?a ?b - cell) :precondition (and (at ?a) (connected ?a ?b))
:effect (and (at ?b) (not (at ?a)))))"""
    objects = " ".join(f"c{r}-{c}" for r, c in cells) + " - cell"
    return n**4, domain, objects, "(at c0-0) " + " ".join(links), "(at c0-0)"


def triples(n):
    """n objects: n ** 3 instances."""
    domain = """(define (domain made) (:predicates (done) (seen ?x))
(:action look :parameters (?x ?y ?z) :effect (seen ?x)))"""
    return n**3, domain, " ".join(f"o{i}" for i in range(n)), "(done)", "(done)"


def apart(n):
    """n objects: n ** 3 instances, and n complements."""
    domain = """(define (domain made) (:predicates (done) (seen ?x))
(:action look :parameters (?x ?y ?z) :precondition (and (not (= ?x ?y)) (not (seen ?x)))
:effect (seen ?x)))"""
    return n**3, domain, " ".join(f"o{i}" for i in range(n)), "(done)", "(done)"


instances, domain, objects, init, goal = {"grid": grid, "triples": triples, "apart": apart}[kind](size)
texts = {
    "domain": domain,
    "problem": f"(define (problem made) (:domain made) (:objects {objects}) (:init {init}))",
    "goals": goal,
}
for name, text in texts.items():
    with open(f"{work}/{name}", "w") as file:
        file.write(text + "\n")
print(f"{kind} {size}: {instances} instances")
END
for task in "grid 10" "grid 20" "grid 31" "triples 50" "triples 101" "apart 50" "apart 101"; do
    # Two words: the kind of task and its size.
    title=$(python3 "$work/make.py" $task "$work")
    python3 "$work/run.py" "$title" "$program" cost --domain "$work/domain" --problem "$work/problem" --goals "$work/goals"
done
