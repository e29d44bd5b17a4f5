#!/bin/sh
# Times the check of a problem of 2^20 bytes: tens of thousands of initial atoms over 1,000 objects of
# five types, one below the other. Shows the most memory that was held.
# A program is made in a folder of its own: it builds the texts, with the word `read` it reads them
# too, and with `check` it also checks what it read. The differences of the runs are what each takes.
set -eu
top=$(cd "$(dirname "$0")/.." && pwd)
work=$(mktemp -d)
trap 'rm -rf "$work"' EXIT
mkdir -p "$work/crates/type_time/src"
for crate in grd_base pddl_lexer pddl_reader type_check; do
    mkdir "$work/crates/$crate"
    cp -r "$top/crates/$crate/src" "$top/crates/$crate/specs" "$top/crates/$crate/proofs" "$work/crates/$crate"
done
grep -E '^(grd_base|pddl_lexer|pddl_reader|type_check):' "$top/crates.txt" > "$work/crates.txt"
echo 'type_time: pddl_reader type_check anyhow' >> "$work/crates.txt"
cat > "$work/crates/type_time/src/main.rt" <<'END'
// Builds a domain and a problem of 2^20 bytes, and reads and checks them where a word says so.
#![tactic(auto)]

use anyhow::{Result, ensure};
use pddl_reader::{read_domain, read_problem};
use std::alloc::Global;
use std::env;
use std::fmt;
use std::fmt::Write;
use type_check::check;

const DOMAIN: &str = "(define (domain d)\n\
(:types t4 - t3 t3 - t2 t2 - t1 t1 - t0)\n\
(:predicates (near ?x - t0 ?y - (either t2 t1)))\n\
(:action move :parameters (?x - t0 ?y - t2)\n\
:precondition (near ?x ?y) :effect (not (near ?x ?y))))\n";

const MOST: usize = 1 << 20;

// 1,000 objects, with each type in turn.
fn add_objects(text: &mut String) -> fmt::Result {
    for k in 0..1000u32 {
        write!(text, " o{} - t{}", 1000 + k, k % 5)?;
    }
    Ok(())
}

// Atoms up to the length.
fn add_atoms(text: &mut String) -> fmt::Result {
    for k in 0..MOST as u32 {
        if text.len() + 40 > MOST {
            break;
        }
        write!(text, "(near o{} o{})", 1000 + k % 1000, 1001 + k / 4 % 200 * 5 + k % 4)?;
    }
    Ok(())
}

fn problem_text(alloc: Global) -> Result<String> {
    let mut text = String::new(alloc);
    text.push_str("(define (problem p) (:domain d) (:objects")?;
    add_objects(&mut text)?;
    text.push_str(") (:init")?;
    add_atoms(&mut text)?;
    text.push_str("))")?;
    Ok(text)
}

fn main(rt: HostRuntime) -> Result<()> {
    let alloc = rt.alloc();
    let text = problem_text(alloc)?;
    ensure!(text.len() <= MOST, "the text is too long");
    let words = env::args(&rt)?;
    if words.len() <= 1 {
        return Ok(());
    }
    let domain = read_domain(alloc, DOMAIN.as_bytes())?;
    let problem = read_problem(alloc, text.as_bytes())?;
    if words.len() > 2 {
        let typed = check(alloc, &domain, &problem)?;
        println!(rt; "{} bytes, {} objects, {} atoms", text.len(), typed.objects.len(), typed.init.len())?;
    }
    Ok(())
}
END
cd "$work/crates/type_time"
rt run >/dev/null
program=$(find out -maxdepth 1 -type f -perm -u+x | head -1)
for words in "" "read" "read check"; do
    python3 - "$program" $words <<'END'
import resource, subprocess, sys, time
start = time.time()
subprocess.run(sys.argv[1:], check=True)
taken = time.time() - start
held = resource.getrusage(resource.RUSAGE_CHILDREN).ru_maxrss
print(" and ".join(sys.argv[2:]) or "texts alone", f"{taken:.3f} s, {held} KiB")
END
done
