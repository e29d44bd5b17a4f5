#!/usr/bin/env bash
# Times `cost` and `wcd` on made tasks of growing size, whose numbers of states are known:
# a chain of places, switches that are turned on in any order, and a grid of cells.
# `cost` is asked for the goal that is as far away as any state is. All states are near this goal, and the
# pass that finds it expands nearly all of them. That no plan is shorter takes as many again for the switches,
# and none for the chain and the grid, whose start has the cost as its level. `wcd` is asked for this goal
# and one more.
# Each line: the task, its states and actions, then for each command the seconds, and the
# microseconds for each state, and for `cost` the most memory that it had, in MiB. That number is never
# below what the measuring Python had itself, some 15 MiB, so it tells of the larger tasks alone.
set -eu
top=$(cd "$(dirname "$0")/.." && pwd)
cd "$top/crates/grd"
rt run >/dev/null 2>&1 || true
program=$PWD/out/grd
work=$(mktemp -d)
trap 'rm -rf "$work"' EXIT
python3 - "$program" "$work" <<'END'
import os, subprocess, sys, time

program, work = sys.argv[1:]


def action(name, needs, adds, deletes):
    effect = "".join(f" ({p})" for p in adds) + "".join(f" (not ({p}))" for p in deletes)
    return f"(:action {name} :parameters () :precondition (and {needs}) :effect (and{effect}))"


def move(name, start, end):
    return action(name, f"({start})", [end], [start])


def chain(n):
    """n places in a row: n states."""
    places = [f"at{i}" for i in range(n)]
    moves = [move(f"go{i}", places[i], places[i + 1]) for i in range(n - 1)]
    return n, places, moves, ["at0"], [[places[-1]], [places[-1]]], n - 1


def switches(n):
    """n switches, each of which can be turned on: 2 ** n states."""
    lamps = [f"on{i}" for i in range(n)]
    turns = [action(f"turn{i}", "", [lamp], []) for i, lamp in enumerate(lamps)]
    return 2**n, lamps, turns, [], [lamps, lamps[:1]], n


def grid(n):
    """One walker on n rows of n cells: n * n states."""
    def cell(r, c):
        return f"c{r}-{c}"

    cells = [cell(r, c) for r in range(n) for c in range(n)]
    moves = [
        move(f"from-{cell(r, c)}-to-{cell(r + y, c + x)}", cell(r, c), cell(r + y, c + x))
        for r in range(n) for c in range(n)
        for y, x in ((-1, 0), (1, 0), (0, -1), (0, 1))
        if 0 <= r + y < n and 0 <= c + x < n
    ]
    return n * n, cells, moves, [cells[0]], [[cells[-1]], [cells[n - 1]]], 2 * (n - 1)


def atoms(names):
    return " ".join(f"({name})" for name in names)


def write(name, text):
    with open(f"{work}/{name}", "w") as file:
        file.write(text)


def measured(command, goals, want):
    """The seconds of a run, and its most memory in MiB."""
    write("goals", "".join(atoms(goal) + "\n" for goal in goals))
    words = [f"--{role}={work}/{role}" for role in ("domain", "problem", "goals")]
    with open(f"{work}/printed", "w+") as printed:
        start = time.time()
        run = subprocess.Popen([program, command, *words, "--max-states=200000"], stdout=printed, stderr=printed)
        _, status, usage = os.wait4(run.pid, 0)
        taken = time.time() - start
        run.returncode = os.waitstatus_to_exitcode(status)
        printed.seek(0)
        text = printed.read()
    if run.returncode != 0 or want not in text:
        sys.exit(f"{command}: status {run.returncode}: {text[:200]}")
    return taken, usage.ru_maxrss / 1024


print("task          states  actions   cost s  µs/state  cost MiB    wcd s  µs/state")
for make, sizes in ((chain, (100, 300, 1000, 3000)), (switches, (8, 11, 14, 17)), (grid, (10, 20, 30, 45))):
    for size in sizes:
        states, names, actions, start, goals, far = make(size)
        write("domain", f"(define (domain made) (:predicates {atoms(names)})\n" + "\n".join(actions) + ")\n")
        write("problem", f"(define (problem made) (:domain made) (:init {atoms(start)}) (:goal (and <hypothesis>)))\n")
        cost, memory = measured("cost", goals[:1], f"goal 1 cost {far} ")
        wcd, _ = measured("wcd", goals, "\nprefix")
        line = f"{make.__name__ + ' ' + str(size):12}  {states:6}  {len(actions):7}"
        print(f"{line}  {cost:7.3f}  {cost / states * 1e6:8.1f}  {memory:8.1f}  {wcd:7.3f}  {wcd / states * 1e6:8.1f}", flush=True)
END
