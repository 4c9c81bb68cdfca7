//! Scaled costs, shared among tables.

use crate::problem::{MOST_SUM, Table};

/// The greatest power of two up to `most` under which the sum of the greatest cells stays within the limit.
pub fn scale_of(whole: u64, most: u64) -> u64 {
    let mut scale = 1;
    while scale < most && whole <= MOST_SUM / (2 * scale) {
        scale *= 2;
    }
    scale
}

/// A table over places in rising order, each cell scaled. `places` are those of its variables.
pub fn in_order(table: &Table, places: &[usize], sizes: &[usize], scale: u64) -> Table {
    let mut scope: Vec<usize> = table.scope.iter().map(|var| places[*var]).collect();
    let old: Vec<usize> = scope.clone();
    scope.sort_unstable();
    // How far apart the cells of two neighbouring values of each of the new scope's variables lie.
    let steps: Vec<usize> = scope
        .iter()
        .map(|var| old.iter().rev().take_while(|other| *other != var).map(|other| sizes[*other]).product())
        .collect();
    let mut cells = Vec::with_capacity(table.cells.len());
    let mut values = vec![0; scope.len()];
    for _ in 0..table.cells.len() {
        let at: usize = values.iter().zip(&steps).map(|(value, step)| value * step).sum();
        cells.push(table.cells[at] * scale);
        for (value, var) in values.iter_mut().zip(&scope).rev() {
            *value += 1;
            if *value < sizes[*var] {
                break;
            }
            *value = 0;
        }
    }
    Table { scope, cells }
}

/// What a variable's least cells are to be in each of `count` tables, where they sum to `sum`. From round to round the
/// remainder goes to others.
pub fn target(sum: u64, count: usize, at: usize, round: usize) -> u64 {
    let (share, rest) = (sum / count as u64, (sum % count as u64) as usize);
    share + u64::from((at + round) % count < rest)
}

/// Shares a variable among the tables that name it.
fn share(tables: &mut [Table], naming: &[usize], var: usize, sizes: &[usize], round: usize, least: &mut Vec<u64>) {
    let size = sizes[var];
    least.clear();
    least.resize(size * naming.len(), u64::MAX);
    let step_of = |table: &Table| table.scope.iter().rev().take_while(|other| **other != var).map(|other| sizes[*other]).product();
    for (at, table) in naming.iter().enumerate() {
        let (table, least) = (&tables[*table], &mut least[at * size..][..size]);
        let step: usize = step_of(table);
        for block in table.cells.chunks_exact(size * step) {
            for (low, row) in least.iter_mut().zip(block.chunks_exact(step)) {
                *low = row.iter().fold(*low, |low, cell| low.min(*cell));
            }
        }
    }
    let sums: Vec<u64> = (0..size).map(|value| least.iter().skip(value).step_by(size).sum()).collect();
    for (at, table) in naming.iter().enumerate() {
        let least = &least[at * size..][..size];
        let table = &mut tables[*table];
        let step: usize = step_of(table);
        let shifts: Vec<u64> =
            sums.iter().zip(least).map(|(sum, low)| target(*sum, naming.len(), at, round).wrapping_sub(*low)).collect();
        if shifts.iter().all(|shift| *shift == 0) {
            continue;
        }
        for block in table.cells.chunks_exact_mut(size * step) {
            for (shift, row) in shifts.iter().zip(block.chunks_exact_mut(step)) {
                row.iter_mut().for_each(|cell| *cell = cell.wrapping_add(*shift));
            }
        }
    }
}

/// Shares all variables, round by round; how many rounds there were.
pub fn share_all(tables: &mut [Table], sizes: &[usize], most_rounds: usize, enough: u64) -> usize {
    let mut naming = vec![Vec::new(); sizes.len()];
    for (at, table) in tables.iter().enumerate() {
        table.scope.iter().for_each(|var| naming[*var].push(at));
    }
    let mut low: u64 = tables.iter().map(Table::least).sum();
    let mut least = Vec::new();
    for round in 0..most_rounds {
        for var in 0..sizes.len() {
            if naming[var].len() > 1 {
                share(tables, &naming[var], var, sizes, round, &mut least);
            }
        }
        if round % 8 == 7 {
            let now = tables.iter().map(Table::least).sum();
            if now < low + enough {
                return round + 1;
            }
            low = now;
        }
    }
    most_rounds
}
