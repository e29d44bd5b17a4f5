#!/usr/bin/env bash
# Files of up to 2^20 bytes that a stranger might hand in, to see what they cost: each is made, given to the built
# program, and told with its seconds, its most memory in MiB, whether it is within 2 seconds and 1 GiB, and the line
# that the program ends with. A run is cut off behind 60 seconds or 8 GiB. It ends with 1 where an input is not
# within these, or there is no program.
#     bench/hostile.sh [NAME ..]     all inputs, or those of these names
set -eu
top=$(cd "$(dirname "$0")/.." && pwd)
cd "$top/crates/grd"
rt run >/dev/null 2>&1 || true
program=$PWD/out/grd
[ -x "$program" ] || { echo "there is no $program" >&2; exit 1; }
work=$(mktemp -d)
trap 'rm -rf "$work"' EXIT
python3 - "$program" "$work" "$@" <<'END'
import os, resource, subprocess, sys, time

program, work, *wanted = sys.argv[1:]
MOST = 1 << 20
SECONDS, MIB = 2, 1024
PROBLEM = "(define (problem p) (:domain d) (:init))"


def filled(front, piece, back):
    """The front, as many pieces as there is room for, each made of its number, and the back."""
    out, size, k = [front], len(front) + len(back), 0
    while size + len(piece(k)) <= MOST:
        out.append(piece(k))
        size += len(out[-1])
        k += 1
    return "".join(out) + back


def either_of_many():
    """A parameter list whose many variables share one long `either`."""
    names = " ".join(f"?{i:x}" for i in range(85_000))
    types = filled("(either", lambda k: f" t{k % 9}", ")")[: MOST - len(names) - 80].rsplit(" ", 1)[0] + ")"
    return f"(define (domain d) (:predicates (p {names} - {types})))", PROBLEM


def two_long_eithers():
    """A term of one long `either` in a place of another."""
    def list_of(first):
        return "(either " + " ".join(f"t{first + k}" for k in range(40_000)) + ")"

    types = " ".join(f"t{k}" for k in range(40_000))
    action = f"(:action a :parameters (?x - {list_of(0)}) :precondition (p ?x) :effect (p ?x))"
    return f"(define (domain d) (:types {types}) (:predicates (p ?y - {list_of(0)})) {action})"[:MOST], PROBLEM


def constants_of_one_type():
    """Many short constants before one long name of a type."""
    constants = " ".join(f"c{k}" for k in range(60_000))
    name = "t" + "x" * (MOST - len(constants) - 70)
    return f"(define (domain d) (:constants {constants} - {name}))", PROBLEM


def chain_into_a_cycle():
    """Types one below the other, of which the last is below the first."""
    count = 60_000
    links = "".join(f" t{k} - t{(k + 1) % count}" for k in range(count))
    return f"(define (domain d) (:types{links}))", PROBLEM


def chain_with_a_cycle_at_its_end():
    """Types one below the other, of which the last two are each below the other."""
    count = 60_000
    links = "".join(f" t{k} - t{min(k + 1, count - 2)}" for k in range(count - 1))
    return f"(define (domain d) (:types{links} t{count - 1} - t{count - 2}))".replace(
        f" t{count - 2} - t{count - 2}", f" t{count - 2} - t{count - 1}"), PROBLEM


def late_cycle():
    """Types that all lie below a long cycle."""
    ring = "".join(f" r{k} - r{(k + 1) % 20_000}" for k in range(20_000))
    return filled("(define (domain d) (:types", lambda k: f" s{k} - r{k % 20_000}", ring + "))"), PROBLEM


def predicates_of_many_objects():
    """Predicates of eight places over 1,024 objects."""
    objects = " ".join(f"o{k}" for k in range(1024))
    text = filled("(define (domain d) (:predicates", lambda k: f" (p{k:x} ?a ?b ?c ?d ?e ?f ?g ?h)", "))")
    return text, f"(define (problem p) (:domain d) (:objects {objects}) (:init))"


def many_brackets():
    return "(" * MOST, PROBLEM


def empty_lists():
    return filled("(define (domain d) (:predicates", lambda k: " ()", "))"), PROBLEM


def one_long_word():
    return "(define (domain " + "d" * (MOST - 18) + "))", PROBLEM


def one_long_comment():
    return "(define (domain d)) ;" + "x" * (MOST - 21), PROBLEM


def actions_of_one_name():
    return filled("(define (domain d)", lambda k: " (:action a)", ")"), PROBLEM


def atoms_at_the_start():
    """Initial atoms of one predicate, over and over."""
    return "(define (domain d) (:predicates (p)))", filled(
        "(define (problem p) (:domain d) (:init", lambda k: " (p)", "))"
    )


def names_that_differ_at_the_end():
    """Predicates whose long names differ in their last bytes alone."""
    return filled("(define (domain d) (:predicates", lambda k: " (" + "p" * 200 + f"{k})", "))"), PROBLEM


INPUTS = [
    either_of_many, two_long_eithers, constants_of_one_type, chain_into_a_cycle,
    chain_with_a_cycle_at_its_end, late_cycle,
    predicates_of_many_objects, many_brackets, empty_lists, one_long_word, one_long_comment,
    actions_of_one_name, atoms_at_the_start, names_that_differ_at_the_end,
]


def limits():
    resource.setrlimit(resource.RLIMIT_AS, (8 << 30, 8 << 30))


def is_within(name, make):
    """Gives the input to the program, tells what it cost, and whether it is within the seconds and the memory."""
    domain, problem = make()
    for file, text in (("d", domain), ("p", problem), ("g", "(p)\n")):
        with open(os.path.join(work, file), "w") as it:
            it.write(text)
    words = [program, "cost", "--domain", "d", "--problem", "p", "--goals", "g"]
    start = time.time()
    ran = subprocess.Popen(words, cwd=work, stdout=subprocess.DEVNULL, stderr=subprocess.PIPE, preexec_fn=limits)
    while ran.poll() is None and time.time() - start < 60:
        time.sleep(0.01)
    taken = time.time() - start
    if ran.poll() is None:
        ran.kill()
    line = ran.stderr.read().decode(errors="replace").strip()
    held = resource.getrusage(resource.RUSAGE_CHILDREN).ru_maxrss // 1024
    within = taken <= SECONDS and held <= MIB
    told = "within" if within else "PAST"
    print(f"{name:30} {taken:6.2f} s  {held:6} MiB  {told:6}  {line[:90] or ran.returncode}", flush=True)
    return within


are_within = True
for make in INPUTS:
    if not wanted or make.__name__ in wanted:
        # each in a process of its own, so that the most memory is that of this run
        child = os.fork()
        if child == 0:
            os._exit(0 if is_within(make.__name__, make) else 1)
        are_within = os.waitpid(child, 0)[1] == 0 and are_within
sys.exit(0 if are_within else 1)
END
