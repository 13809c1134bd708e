#!/usr/bin/env bash
# Tells how long a million unions of sets of 256 bits take in a built program, as the mean of a
# thousand times. It proves and builds par_bits and the program in a new folder, which takes a minute.
cd "$(dirname "$0")/.." || exit 1
folder=$(mktemp -d)
trap 'rm -rf "$folder"' EXIT
mkdir -p "$folder/crates/unions/src"
cp -r crates/par_bits "$folder/crates"
cp HANDLES "$folder"
printf 'par_bits:\nunions: par_bits\n' > "$folder/crates.txt"
cat > "$folder/crates/unions/src/main.rt" <<'END'
//! A thousand million unions.
#![tactic(auto)]

use par_bits::Bits;
use std::io::Error;

const ROUNDS: u32 = 1_000_000_000;

// A call of its own, since a second union with the same set changes nothing and would be left out.
#[inline(never)]
fn joined(one: &Bits<4>, other: &Bits<4>) -> Bits<4> {
    one.union(other)
}

fn main(rt: HostRuntime) -> Result<(), Error> {
    let mut one: Bits<4> = Bits::empty().with(0);
    let mut other = Bits::empty().with(255);
    for _ in 0..ROUNDS {
        let both = joined(&one, &other);
        one = other;
        other = both;
    }
    println!(rt; "{} members", other.count())?;
    Ok(())
}
END
cd "$folder/crates/unions" || exit 1
rt run > run.log 2>&1 || { cat run.log; exit 1; }
begun=$EPOCHREALTIME
./out/unions || exit 1
ended=$EPOCHREALTIME
awk -v begun="$begun" -v ended="$ended" 'BEGIN {
  printf "a million unions take %.3f milliseconds\n", ended - begun
}'
