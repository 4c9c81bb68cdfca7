#!/usr/bin/env bash
# How long `check_tree` takes on a chain of 1,000 variables, the deepest one at depth 999.
#
# usage: bench/check_tree.sh
# Proves and builds a program over `dcop_base` and `pseudotree` in a folder of its own, beside copies
# of these and of those below them with what they have proved. Two problems, each of tables with one cell on two
# variables: 999 tables on neighbours in the chain, and 4,000,000 on all pairs in turn. Prints the
# best of five calls for each.
set -eu
. "$(dirname "$0")/common.sh"
copy_crates $(with_those_below pseudotree)
echo 'tree_bench: dcop_base pseudotree' >> "$folder/crates.txt"
cd "$folder"
mkdir -p crates/tree_bench/src crates/tree_bench/proofs/chain
cat > crates/tree_bench/src/main.rt <<'RT'
//! How long `check_tree` takes on a chain of 1,000 variables.
#![tactic(auto)]

ghost use Rattle.std.specs.Prelude.{◌≡◌, ℕ, ◌<◌, Some, IfSome, length};
ghost use Rattle.pseudotree.specs.Fault.{parent_at};

use dcop_base::{CellList, Problem, SizeList, Table, TableList, VarId, VarList};
use pseudotree::check_tree;
use std::alloc::Global;
use std::io;
use std::rt::Clock;
use std::time::Instant;

/// A table of one cell on two variables of size 1.
fn tie(alloc: Global, one: u32, other: u32) -> Option<Table> {
    let scope = vec![in alloc; VarId(one), VarId(other)].ok()?;
    let sizes = vec![in alloc; 1, 1].ok()?;
    let cells = vec![in alloc; 0].ok()?;
    Table::new(
        VarList::from_vec(scope),
        SizeList::from_vec(sizes),
        CellList::from_vec(cells),
    )
    .ok()
}

/// The problem of so many tables: on pairs at distance 1, then at distance 2, and so on.
fn problem_of(alloc: Global, count: u32) -> Option<Problem> {
    let mut tables = Vec::new(alloc);
    for index in 0..count {
        let one = index % 1_000;
        let other = (one + 1 + index / 1_000 % 999) % 1_000;
        tables.push(tie(alloc, one, other)?).ok()?;
    }
    let sizes = vec![in alloc; 1; 1_000].ok()?;
    Problem::new(
        alloc,
        SizeList::from_vec(sizes),
        TableList::from_vec(tables),
    )
    .ok()
}

/// The parents of the chain: each variable is below the one before it.
fn chain(alloc: Global) -> Option<Vec<Option<VarId>>>
    ensures sized { IfSome result (λ parents. length parents.items ≡ 1000) }
    ensures known { IfSome result (λ parents.
        (v u : ℕ) → parent_at parents.items v ≡ Some u → u < 1000) }
{
    let mut parents = Vec::new(alloc);
    for index in 0..1_000 {
        parents
            .push(if index > 0 {
                Some(VarId(index - 1))
            } else {
                None
            })
            .ok()?;
    }
    Some(parents)
}

/// The least number of microseconds of five calls, for a problem of so many tables.
fn least_time<R: Clock>(rt: &R, alloc: Global, count: u32) -> Option<u128> {
    let problem = problem_of(alloc, count)?;
    let parents = chain(alloc)?;
    if problem.sizes.as_slice().len() != 1_000 {
        return None;
    }
    let mut least = u128::MAX;
    for _turn in 0..5 {
        let begin = Instant::now(rt).ok()?;
        let tree = check_tree(alloc, &problem, parents.as_slice());
        least = least.min(begin.elapsed(rt).ok()?.as_micros());
        tree.ok()?;
    }
    Some(least)
}

fn main(rt: HostRuntime) -> io::Result<()> {
    for count in [999, 4_000_000] {
        match least_time(&rt, rt.alloc(), count) {
            Some(time) => println!(rt; "{count} tables: {time} us")?,
            None => println!(rt; "{count} tables: no tree")?,
        }
    }
    Ok(())
}
RT
cat > crates/tree_bench/proofs/chain/Invariants.antt <<'ANTT'
use Rattle.std.proofs.Common.{◌≡◌, ℕ, ◌<◌, Some, length}
use Rattle.pseudotree.specs.Fault.{parent_at}
use Rattle.tree_bench.proofs.chain.Given as goal

abbrev pub invariant-loop-index : goal.invariant-loop-index
invariant-loop-index l = (length l.parents.items ≡ l.index) × ((v u : ℕ) → parent_at l.parents.items v ≡ Some u → u < 1000)
ANTT
make_crate tree_bench run
grep ' tables: ' told
