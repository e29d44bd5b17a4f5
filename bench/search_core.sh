#!/bin/sh
# Times `within` over 200,000 states of 64 words, and shows the most memory that was held.
# A program is made in a folder of its own: it makes the states of a binary tree, and with a word it
# also asks for a done state that is not there, so that every state is found, expanded and has a row;
# with a second word the limit is one state less. The difference to the run without words is what the
# search takes.
set -eu
top=$(cd "$(dirname "$0")/.." && pwd)
work=$(mktemp -d)
trap 'rm -rf "$work"' EXIT
for crate in grd_base search_core; do
    mkdir -p "$work/crates/$crate"
    cp -r "$top/crates/$crate/src" "$top/crates/$crate/specs" "$top/crates/$crate/proofs" "$work/crates/$crate"
done
mkdir -p "$work/crates/search_time/src" "$work/crates/search_time/specs" "$work/crates/search_time/proofs/number"
cat > "$work/crates.txt" <<'END'
grd_base: thiserror
search_core: grd_base indexmap thiserror
search_time: grd_base search_core anyhow
END
cd "$work/crates/search_time"
cat > specs/Lib.antt <<'END'
pub mod Trees
END
cat > specs/Trees.antt <<'END'
-- A binary tree of listed states.
use Rattle.std.specs.Prelude.{◌≡◌, ℕ, zero, suc, ◌+◌, ◌*◌, ◌%◌, ◌^◌, List, ◌++◌, map, Some, Bool, true, false, if◌then◌else◌, slice_get}
use Rattle.std.specs.Option.{option_to_list}
use Rattle.std.proofs.Common.{ap, arith, sym, subst, refl, ◌∙◌}
use Rattle.std.proofs.lemmas.Map.Lookups.{exact_bytes}
use Rattle.std.specs.Ordering.{nat_cmp}
use Rattle.std.specs.Cmp.Lexicographic.{slice_cmp}
use Rattle.std.specs.declared.cmp.Ordering.TheVariants.{Equal}
use Rattle.grd_base.specs.declared.bits.Bits.{Bits}
use Rattle.grd_base.specs.declared.ids.ActionId.{ActionId}
use Rattle.grd_base.specs.declared.limits.Bound.{Bound}
use Rattle.grd_base.specs.declared.limits.Bound.TheVariants.{Steps}
use Rattle.grd_base.specs.Sets.{Set}
use Rattle.grd_base.specs.Bits.{members}
use Rattle.search_core.specs.Spaces.{Successors, IsAdmissible, IsDoneWithin}

-- the number that the first k words spell, one bit a word
unfoldable pub number_below : ℕ → Set → ℕ
number_below zero s = 0
number_below (suc k) s = (number_below k s * 2 + (if s (64 * k) then 1 else 0)) % 1048576

pub number_next : (k n bit : ℕ) (b : Bool) (s : Set) → n ≡ number_below k s → b ≡ s (64 * k) → bit ≡ (if b then 1 else 0) → (n * 2 + bit) % 1048576 ≡ number_below (suc k) s
unfolding number_below
number_next k n bit b s same read is = cc

-- the step to the state at a place of the list, if there is one
abbrev pub steps_to : List (Bits 64) → ℕ → List (ActionId × Bits 64)
steps_to states k = map (λ t. (record { 0 = k }, t)) (option_to_list (slice_get states k))

-- the two states below the one with this number
abbrev pub below : List (Bits 64) → ℕ → List (ActionId × Bits 64)
below states n = steps_to states (n * 2 + 1) ++ steps_to states (n * 2 + 2)

pub same_bits : (x y : Bits 64) → slice_cmp nat_cmp x.words y.words ≡ Equal → x ≡ y
same_bits x y e = ap (λ ws. record { words = ws }) (exact_bytes _ _ e)

pub zero_admissible : (next : Successors (Bits 64)) (s : Bits 64) (bound : Bound) → bound ≡ Steps 0 → IsAdmissible next (λ _. false) (Some 0) s bound
zero_admissible next s bound is =
    let P : Bound → Type 0 = λ b. IsAdmissible next (λ _. false) (Some 0) s b in
    subst P (sym is) (record { above_level = omega arith; below_steps = λ n d. omega arith })
END
cat > src/main.rt <<'END'
// Makes the states of a binary tree, and searches it where a word is given.
#![tactic(auto)]

ghost use Rattle.std.specs.Prelude.{◌≡◌, ◌<◌, ◌++◌, if◌then◌else◌, OnOk};
ghost use Rattle.grd_base.specs.Bits.{members};
ghost use Rattle.search_time.specs.Trees.{number_below, steps_to};

use anyhow::{Result, bail};
use grd_base::{ActionId, Bits, Bound, OutOfMemory};
use search_core::{Floor, Space, WithinAnswer, within};
use std::alloc::{AllocError, Global};
use std::env;

const STATES: u32 = 200_000;

#[derive(Drop)]
struct Tree {
    states: Vec<Bits<64>>,
}

fn bit(is_one: bool) -> usize
    ensures { result ≡ (if is_one then 1 else 0) }
{
    if is_one { 1 } else { 0 }
}

fn number(s: &Bits<64>) -> usize
    ensures value { result ≡ number_below 18 (members s.now) }
    ensures small { result < 1048576 }
{
    let mut n = 0;
    for k in 0..18 {
        n = (n * 2 + bit(s.contains(64 * k))) % 1_048_576;
    }
    n
}

fn push_step(
    states: &[Bits<64>],
    k: usize,
    steps: &mut Vec<(ActionId, Bits<64>)>,
) -> Result<(), AllocError>
    requires { k < 4194304 }
    ensures { OnOk result (steps.new.items ≡ steps.old.items ++ steps_to states.now k) }
{
    if let Some(state) = states.get(k) {
        steps.push((ActionId(k as u32), *state))?;
    }
    Ok(())
}

impl Space for Tree {
    type State = Bits<64>;

    ghost use Rattle.std.specs.Prelude.{Some, false};
    ghost use Rattle.grd_base.specs.Bits.{members};
    ghost use Rattle.search_time.specs.Trees.{number_below, below, same_bits};

    ghost next = { λ tree s. below tree.states.items (number_below 18 (members s)) };

    ghost is_done = { λ _ _. false };

    ghost level = { λ _ _. Some 0 };

    ghost same = { same_bits };

    fn done(&self, _s: &Bits<64>) -> bool {
        false
    }

    fn successors(
        &self,
        alloc: Global,
        s: &Bits<64>,
    ) -> Result<Vec<(ActionId, Bits<64>)>, OutOfMemory> {
        let n = number(s);
        let mut steps = Vec::new(alloc);
        push_step(&self.states, n * 2 + 1, &mut steps)?;
        push_step(&self.states, n * 2 + 2, &mut steps)?;
        Ok(steps)
    }
}

#[derive(Drop)]
struct ZeroFloor;

impl Floor<Tree> for ZeroFloor {
    type Mark = ();

    type Why = ();

    ghost use Rattle.std.specs.Prelude.{◌≡◌};
    ghost use Rattle.grd_base.specs.Bits.{members};
    ghost use Rattle.grd_base.specs.declared.limits.Bound.TheVariants.{Steps};
    ghost use Rattle.search_time.specs.Trees.{number_below, below, zero_admissible};

    ghost shows = { λ _ _ _ _ bound. bound ≡ Steps 0 };

    ghost proves = { λ _ _ _ _ bound. bound ≡ Steps 0 };

    ghost admissible = { λ _ tree s _ bound is. zero_admissible (λ s. below tree.states.items (number_below 18 (members s))) s bound is };

    fn at_least(
        &self,
        _alloc: Global,
        _space: &Tree,
        _s: &Bits<64>,
    ) -> Result<(Bound, ()), OutOfMemory> {
        Ok((Bound::Steps(0), ()))
    }

    fn why(
        &self,
        _alloc: Global,
        _space: &Tree,
        _s: &Bits<64>,
        _mark: &(),
    ) -> Result<(), OutOfMemory> {
        Ok(())
    }
}

// The first words spell the number in 18 bits, the highest first, and each word has some bit.
fn state(n: u32) -> Bits<64> {
    let mut s = Bits::new();
    for k in 0..18 {
        if (n >> (17 - k)) & 1 == 1 {
            s.insert(64 * k);
        }
    }
    for k in 0..64 {
        s.insert(64 * k + 7);
    }
    s
}

fn make_tree(alloc: Global) -> Result<Tree, AllocError> {
    let mut states = Vec::new(alloc);
    for n in 0..STATES {
        states.push(state(n))?;
    }
    Ok(Tree { states })
}

fn main(rt: HostRuntime) -> Result<()> {
    let alloc = rt.alloc();
    let tree = make_tree(alloc)?;
    let words = env::args(&rt)?;
    if words.len() > 1 {
        let limit = if words.len() > 2 { STATES - 1 } else { STATES };
        match within(alloc, &tree, &ZeroFloor, state(0), STATES, limit) {
            Ok(WithinAnswer::Never(rows)) => println!(rt; "never, {} rows", rows.len())?,
            Ok(_) => bail!("another answer"),
            Err(fault) => println!(rt; "{fault}")?,
        }
    }
    Ok(())
}
END
cat > proofs/number/Invariants.antt <<'END'
use Rattle.std.proofs.Common.{◌≡◌, ◌<◌}
use Rattle.grd_base.specs.Bits.{members}
use Rattle.search_time.specs.Trees.{number_below}
use Rattle.search_time.proofs.number.Given as goal

abbrev pub invariant-loop-k : goal.invariant-loop-k
invariant-loop-k l = record { value : l.n ≡ number_below l.k (members l.s); small : l.n < 1048576 }
END
cat > proofs/number/Answers.antt <<'END'
use Rattle.std.proofs.Common.{refl, arith, add-one}
use Rattle.search_time.specs.Trees.{number_below, number_next}
use Rattle.search_time.proofs.number.Goals as goal

pub loop-k-init : goal.loop-k-init
unfolding number_below
loop-k-init c = record { value = refl; small = omega arith }

pub loop-k-preserved : goal.loop-k-preserved
loop-k-preserved c = record {
  value = rw add-one (number_next _ _ _ c.contains.result _ c.loop-k.invariant.value c.contains.ensures c.bit.ensures);
  small = omega arith;
}
END
mkdir proofs/push_step
cat > proofs/push_step/Answers.antt <<'END'
use Rattle.std.proofs.Common.{sym}
use Rattle.std.proofs.lemmas.List.{append-nil}
use Rattle.std.proofs.lemmas.Option.{slice_get_past}
use Rattle.search_time.proofs.push_step.Goals as goal

pub returns-in_default : goal.returns-in_default
returns-in_default c = rw (slice_get_past c.args.states.now c.args.k c.in_default.ensures.lookup.3) (sym (append-nil c.args.steps.now.items))
END
rt run >/dev/null
program=$(find out -maxdepth 1 -type f -perm -u+x | head -1)
python3 - "$program" <<'END'
import os, subprocess, sys, time

STATES = 200_000


def run(*words):
    """The seconds of the run of the program, the most KiB that it held, and what it printed."""
    start = time.time()
    child = subprocess.Popen([sys.argv[1], *words], stdout=subprocess.PIPE, text=True)
    said = child.stdout.read().strip()
    _, status, usage = os.wait4(child.pid, 0)
    if status != 0:
        sys.exit(f"status {status}: {said}")
    return time.time() - start, usage.ru_maxrss, said


alone = min(run() for _ in range(3))
print(f"states alone: {alone[0]:.3f} s, {alone[1]} KiB")
for words in (["never"], ["never", "many"]):
    taken, held, said = min(run(*words) for _ in range(3))
    time_each = (taken - alone[0]) / STATES * 1e6
    held_each = (held - alone[1]) * 1024 / STATES
    print(f"{said}: {taken:.3f} s, {held} KiB; a state {time_each:.2f} µs, {held_each:.0f} bytes")
END
