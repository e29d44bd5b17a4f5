#!/bin/sh
# Times the reading of a text of 2^20 bytes, and shows the most memory that was held.
# A program is made in a folder of its own: it builds the text, and with the word `read` it also
# takes the tokens and the tree. The difference of the two runs is what reading takes.
set -eu
top=$(cd "$(dirname "$0")/.." && pwd)
work=$(mktemp -d)
trap 'rm -rf "$work"' EXIT
mkdir -p "$work/crates/lexer_time/src"
for crate in grd_base pddl_lexer; do
    mkdir "$work/crates/$crate"
    cp -r "$top/crates/$crate/src" "$top/crates/$crate/specs" "$top/crates/$crate/proofs" "$work/crates/$crate"
done
cat > "$work/crates.txt" <<'END'
grd_base: thiserror
pddl_lexer: grd_base thiserror
lexer_time: pddl_lexer anyhow
END
cat > "$work/crates/lexer_time/src/main.rt" <<'END'
// Builds a text of 2^20 bytes, and reads it where a word is given.
#![tactic(auto)]

use anyhow::{Result, ensure};
use pddl_lexer::{tokens, tree};
use std::alloc::{AllocError, Global};
use std::env;

fn text(alloc: Global, part: &[u8]) -> Result<Vec<u8>, AllocError> {
    let mut text = Vec::new(alloc);
    text.extend_from_slice(b"(")?;
    for _ in 0..part_count(part) {
        text.extend_from_slice(part)?;
    }
    text.extend_from_slice(b")")?;
    Ok(text)
}

fn part_count(part: &[u8]) -> usize {
    if part.is_empty() { 0 } else { ((1 << 20) - 2) / part.len() }
}

fn main(rt: HostRuntime) -> Result<()> {
    let alloc = rt.alloc();
    let text = text(alloc, b"(ab (c d) ef)")?;
    ensure!(text.len() <= 1 << 20, "the text is too long");
    if env::args(&rt)?.len() > 1 {
        let found = tokens(alloc, &text)?;
        let tree = tree(alloc, &text, &found)?;
        println!(rt; "{} bytes, {} tokens, {} lists", text.len(), found.len(), tree.items.len())?;
    }
    Ok(())
}
END
cd "$work/crates/lexer_time"
rt run >/dev/null
program=$(find out -maxdepth 1 -type f -perm -u+x | head -1)
for words in "" "read"; do
    python3 - "$program" $words <<'END'
import resource, subprocess, sys, time
start = time.time()
subprocess.run(sys.argv[1:], check=True)
taken = time.time() - start
held = resource.getrusage(resource.RUSAGE_CHILDREN).ru_maxrss
print(" ".join(sys.argv[2:]) or "text alone", f"{taken:.3f} s, {held} KiB")
END
done
