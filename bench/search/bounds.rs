//! Bounds by mini-buckets.

use crate::costs::target;
use crate::problem::Table;
use std::cmp::Reverse;

/// The tables of a depth, the bounds that came to it, and what it sends to lower depths.
pub struct Bucket {
    pub came: Vec<usize>,
    pub sent: Vec<usize>,
    /// What is sent without variables.
    pub fixed: u64,
}

pub struct Bounds {
    pub buckets: Vec<Bucket>,
    /// All tables that are sent.
    pub tables: Vec<Table>,
    /// Cells that are kept, and of all joined tables.
    pub kept: u64,
    pub joined: u64,
    /// Whether no bucket was parted and no bound replaced.
    pub exact: bool,
}

fn cells_of(scope: &[usize], sizes: &[usize]) -> u64 {
    scope.iter().fold(1, |cells: u64, var| cells.saturating_mul(sizes[*var] as u64))
}

fn union(one: &[usize], other: &[usize]) -> Vec<usize> {
    let mut all = [one, other].concat();
    all.sort_unstable();
    all.dedup();
    all
}

/// Parts the tables with these scopes into groups of at most so many cells: by falling cells, and among equals by the sum of their
/// variables' places, each into the first group that has room.
fn groups_of(scopes: &[&[usize]], sizes: &[usize], limit: u64) -> Vec<(Vec<usize>, Vec<usize>)> {
    let mut order: Vec<usize> = (0..scopes.len()).collect();
    order.sort_by_key(|at| (Reverse(cells_of(scopes[*at], sizes)), scopes[*at].iter().sum::<usize>()));
    let mut groups: Vec<(Vec<usize>, Vec<usize>)> = Vec::new();
    for at in order {
        let fits = groups.iter_mut().find_map(|(members, scope)| {
            let joined = union(scope, scopes[at]);
            (cells_of(&joined, sizes) <= limit).then_some((members, scope, joined))
        });
        match fits {
            Some((members, scope, joined)) => {
                members.push(at);
                *scope = joined;
            }
            None => groups.push((vec![at], scopes[at].to_vec())),
        }
    }
    groups
}

/// How many cells the bounds keep, counted from scopes.
fn kept_cells(depths: &[Vec<Table>], sizes: &[usize], limit: u64) -> u64 {
    let mut came: Vec<Vec<Vec<usize>>> = vec![Vec::new(); sizes.len()];
    let mut kept = 0u64;
    for p in (0..sizes.len()).rev() {
        let here = std::mem::take(&mut came[p]);
        let scopes: Vec<&[usize]> =
            depths[p].iter().map(|table| &table.scope[..]).chain(here.iter().map(|scope| &scope[..])).collect();
        kept = kept.saturating_add(1);
        for (_, mut scope) in groups_of(&scopes, sizes, limit) {
            scope.pop();
            if let Some(&last) = scope.last() {
                kept = kept.saturating_add(cells_of(&scope, sizes));
                came[last].push(scope);
            }
        }
    }
    kept
}

/// The greatest power of two, up to this one, whose kept cells fit; if none does, 1.
pub fn fitting_limit(depths: &[Vec<Table>], sizes: &[usize], cells: u64, most: u64) -> u64 {
    let mut limit = most;
    while limit > 1 && kept_cells(depths, sizes, limit) > cells {
        limit /= 2;
    }
    limit
}

/// Joins tables whose last variable is the scope's last one.
fn join(members: &[&Table], scope: &[usize], sizes: &[usize]) -> Vec<u64> {
    let size = sizes[scope[scope.len() - 1]];
    let before = &scope[..scope.len() - 1];
    let rows = cells_of(before, sizes) as usize;
    let mut cells = vec![0; rows * size];
    for member in members {
        // How far a table's row moves where a variable's value rises by one and all behind it begin anew.
        let mut steps = Vec::with_capacity(before.len());
        let (mut step, mut back) = (size, 0);
        for var in before.iter().rev() {
            let own = if member.scope.contains(var) { step } else { 0 };
            steps.push((sizes[*var], own.wrapping_sub(back)));
            back += own * (sizes[*var] - 1);
            if own > 0 {
                step *= sizes[*var];
            }
        }
        let mut values = vec![0; before.len()];
        let mut from = 0usize;
        for row in cells.chunks_exact_mut(size) {
            for (cell, more) in row.iter_mut().zip(&member.cells[from..from + size]) {
                *cell += more;
            }
            for (value, (size, step)) in values.iter_mut().zip(&steps) {
                *value += 1;
                if *value < *size {
                    from = from.wrapping_add(*step);
                    break;
                }
                *value = 0;
            }
        }
    }
    cells
}

/// Projects joined tables by their last variable, which is shared among them before.
fn project(joined: &[Vec<u64>], size: usize, shares: bool, round: usize) -> Vec<Vec<u64>> {
    let mut shifts = vec![vec![0u64; size]; joined.len()];
    if joined.len() > 1 && shares {
        for (cells, least) in joined.iter().zip(&mut shifts) {
            least.fill(u64::MAX);
            for row in cells.chunks_exact(size) {
                least.iter_mut().zip(row).for_each(|(low, cell)| *low = (*low).min(*cell));
            }
        }
        let sums: Vec<u64> = (0..size).map(|value| shifts.iter().map(|least| least[value]).sum()).collect();
        for (at, least) in shifts.iter_mut().enumerate() {
            for (low, sum) in least.iter_mut().zip(&sums) {
                *low = target(*sum, joined.len(), at, round).wrapping_sub(*low);
            }
        }
    }
    let least_of = |row: &[u64], shifts: &[u64]| {
        row.iter().zip(shifts).fold(u64::MAX, |low, (cell, shift)| low.min(cell.wrapping_add(*shift)))
    };
    let cells = joined.iter().zip(&shifts).map(|(cells, shifts)| cells.chunks_exact(size).map(|row| least_of(row, shifts)).collect());
    cells.collect()
}

/// Makes the bounds of all depths, from the last one on.
pub fn make(depths: &[Vec<Table>], sizes: &[usize], cells: u64, limit: u64, shares: bool) -> Bounds {
    let mut buckets: Vec<Bucket> = sizes.iter().map(|_| Bucket { came: vec![], sent: vec![], fixed: 0 }).collect();
    let mut bounds = Bounds { buckets: vec![], tables: vec![], kept: 0, joined: 0, exact: true };
    for p in (0..sizes.len()).rev() {
        let here: Vec<&Table> = depths[p].iter().chain(buckets[p].came.iter().map(|at| &bounds.tables[*at])).collect();
        let scopes: Vec<&[usize]> = here.iter().map(|table| &table.scope[..]).collect();
        let groups = groups_of(&scopes, sizes, limit);
        let joined: Vec<Vec<u64>> = groups
            .iter()
            .map(|(members, scope)| join(&members.iter().map(|at| here[*at]).collect::<Vec<_>>(), scope, sizes))
            .collect();
        bounds.joined += joined.iter().map(|cells| cells.len() as u64).sum::<u64>();
        bounds.exact &= groups.len() < 2;
        let projected = project(&joined, sizes[p], shares, p);
        let sent = groups.into_iter().zip(projected).map(|((_, mut scope), cells)| {
            scope.pop();
            Table { scope, cells }
        });
        let (constant, mut sent): (Vec<Table>, Vec<Table>) = sent.partition(|table| table.scope.is_empty());
        buckets[p].fixed = constant.iter().map(|table| table.cells[0]).sum();
        // Each bucket keeps a cell for what has no variables; where the others do not fit, the largest are replaced.
        sent.sort_by_key(|table| table.cells.len());
        let room = cells - bounds.kept - (p as u64 + 1);
        while sent.iter().map(|table| table.cells.len() as u64).sum::<u64>() > room {
            buckets[p].fixed += sent.pop().map_or(0, |table| table.least());
            bounds.exact = false;
        }
        bounds.kept += 1;
        for table in sent {
            bounds.kept += table.cells.len() as u64;
            buckets[table.scope[table.scope.len() - 1]].came.push(bounds.tables.len());
            buckets[p].sent.push(bounds.tables.len());
            bounds.tables.push(table);
        }
    }
    bounds.buckets = buckets;
    bounds
}
