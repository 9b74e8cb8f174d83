#!/usr/bin/env bash
# A table of types: how long it takes to give numbers to types of 1 to 256 names. In one form each type is a list of the one before,
# some 25,000, 50,000 and 100,000 of them; in the other, with a tenth as many, types have no part in common but names. By hand; no
# test rests on it. The program is proved and built in a copy of the crates that it stands on, which takes a minute.
#
#     bench/types.sh
#
# The exit status is that of rt run, 0 where the program is proved and has run, or 2 where there is an argument.
set -euo pipefail
if [ $# -gt 0 ]; then
    case $1 in
        -h | --help) sed -n '2,/^[^#]/s/^# \{0,1\}//p' "$0" && exit ;;
    esac
    echo "bench/types.sh: $1: it takes no arguments, but for --help" >&2
    exit 2
fi
here=$(cd "$(dirname "$0")/.." && pwd)
folder=$(mktemp -d)
trap 'rm -rf "$folder"' EXIT
mkdir -p "$folder/crates/types_bench/src"
for name in texts leaves open_types type_table; do
    tar -C "$here" --exclude=out -cf - "crates/$name" | tar -C "$folder" -xf -
    grep "^$name:" "$here/crates.txt" >>"$folder/crates.txt"
done
echo "types_bench: type_table open_types leaves texts anyhow" >>"$folder/crates.txt"
cp "$here/HANDLES" "$folder"
cd "$folder/crates/types_bench"
cat >src/main.rt <<'PROGRAM'
//! Gives numbers to types, and says how long that took.
#![tactic(auto)]

ghost use Rattle.std.specs.Prelude.{IfOk};
ghost use Rattle.open_types.specs.Open.{open_view, IsClosed};

use open_types::{ClosedType, Leaf, ListHead, MapHead, OpenType, ThroughHead};
use std::alloc::{AllocError, Global};
use std::time::Instant;
use texts::List;
use type_table::Types;

/// The type with one more name around it, of which the number tells.
fn wrapped(alloc: Global, of: OpenType, number: u64) -> Result<OpenType, AllocError>
    requires { IsClosed (open_view of) }
    ensures { IfOk result (λ t. IsClosed (open_view t)) }
{
    let place = (number % 1000) as usize;
    let of = Box::new(alloc, of)?;
    match number % 4 {
        0 => Ok(OpenType::Items(ListHead::Vec, of)),
        1 => Ok(OpenType::Option(of)),
        2 => Ok(OpenType::Through(ThroughHead::Box, of)),
        _ => {
            let key = OpenType::Named(place, List::new(alloc));
            Ok(OpenType::Map(MapHead::HashMap, Box::new(alloc, key)?, of))
        }
    }
}

/// A type of so many names. In a shared one each name is a list, but for the last, which the number tells.
fn made(alloc: Global, number: u64, names: u64, shared: bool) -> Result<OpenType, AllocError>
    ensures { IfOk result (λ t. IsClosed (open_view t)) }
{
    let mut ty = OpenType::Named((number % 1000) as usize, List::new(alloc));
    let mut row = number.wrapping_mul(257).wrapping_add(names);
    for _ in 1..names {
        row = row.wrapping_mul(6364136223846793005).wrapping_add(1442695040888963407);
        ty = wrapped(alloc, ty, if shared { 0 } else { row >> 33 })?;
    }
    Ok(ty)
}

/// So many times the types of 1 to 256 names.
fn run(rt: &HostRuntime, times: u64, shared: bool) -> anyhow::Result<()> {
    let alloc = rt.alloc();
    let mut types = Types::new(alloc);
    let mut millis = 0u128;
    for number in 0..times {
        let mut list = Vec::new(alloc);
        for names in 1..257 {
            list.push(ClosedType::new(made(alloc, number, names, shared)?))?;
        }
        let begin = Instant::now(rt)?;
        for ty in &list {
            types.intern(ty)?;
        }
        millis = millis.saturating_add(begin.elapsed(rt)?.as_micros());
    }
    let form = if shared { "shared parts" } else { "parts of their own" };
    println!(rt; "{times} times 256 types, {form}: {} numbers, {} ms", types.len(), millis / 1000)?;
    Ok(())
}

fn main(rt: HostRuntime) -> anyhow::Result<()> {
    run(&rt, 100, true)?;
    run(&rt, 200, true)?;
    run(&rt, 400, true)?;
    run(&rt, 10, false)?;
    run(&rt, 20, false)?;
    run(&rt, 40, false)?;
    Ok(())
}
PROGRAM
mkdir -p proofs/made
echo >proofs/Lib.antt
cat >proofs/made/Invariants.antt <<'PROOF'
use Rattle.open_types.specs.Open.{open_view, IsClosed}
use Rattle.types_bench.proofs.made.Given as goal

abbrev pub invariant-loop : goal.invariant-loop
invariant-loop l = IsClosed (open_view l.ty)
PROOF
rt run
