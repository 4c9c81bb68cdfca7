//! Depth-first branch and bound.

use crate::bounds::Bounds;
use crate::problem::Table;

/// What is known of the best assignment.
pub struct Known {
    /// A sum that is to be gone below.
    pub best: Option<u64>,
    /// An assignment that costs so much, by places; without one none was found.
    pub values: Option<Vec<usize>>,
    pub nodes: u64,
}

pub struct Limits {
    pub scale: u64,
    pub error: u64,
    pub budget: u64,
}

pub struct Ended {
    pub spent: bool,
    pub lower: u64,
}

/// A table, where its row for given values of earlier variables is looked up.
struct Looked<'a> {
    cells: &'a [u64],
    steps: Vec<(usize, usize)>,
}

impl<'a> Looked<'a> {
    /// A table whose cells for the values of the variable `own`, its last one, are looked up as a row.
    fn new(table: &'a Table, sizes: &[usize], own: Option<usize>) -> Self {
        let mut steps = Vec::new();
        let mut step = 1;
        for var in table.scope.iter().rev() {
            if Some(*var) != own {
                steps.push((*var, step));
            }
            step *= sizes[*var];
        }
        Looked { cells: &table.cells, steps }
    }

    fn row(&self, values: &[usize]) -> usize {
        self.steps.iter().map(|(var, step)| values[*var] * step).sum()
    }
}

/// What is looked up at a depth: what comes to f, and what goes from it.
struct Depth<'a> {
    more: Vec<Looked<'a>>,
    less: Vec<Looked<'a>>,
    fixed: u64,
    size: usize,
    /// Where the depth's estimates and the order of its values are kept.
    at: usize,
}

struct Search<'a> {
    depths: Vec<Depth<'a>>,
    limits: &'a Limits,
    known: &'a mut Known,
    /// An estimate of at least so much is passed over.
    bar: u64,
    values: Vec<usize>,
    estimates: Vec<u64>,
    order: Vec<usize>,
    low: u64,
    spent: bool,
}

impl Search<'_> {
    fn set_bar(&mut self) {
        self.bar = match self.known.best {
            None => u64::MAX,
            Some(best) if best <= self.limits.error => 0,
            Some(best) => {
                let most = u128::from(best - 1 - self.limits.error) * u128::from(self.limits.scale);
                u64::try_from(most + 1).unwrap_or(u64::MAX)
            }
        };
    }

    fn descend(&mut self, p: usize, f: u64) {
        if p == self.depths.len() {
            self.low = self.low.min(f);
            self.known.best = Some(f / self.limits.scale);
            self.known.values = Some(self.values.clone());
            self.set_bar();
            return;
        }
        let depth = &self.depths[p];
        let (at, size) = (depth.at, depth.size);
        let less: u64 = depth.less.iter().map(|table| table.cells[table.row(&self.values)]).sum();
        let estimates = &mut self.estimates[at..at + size];
        estimates.fill(f - depth.fixed - less);
        for table in &depth.more {
            let from = table.row(&self.values);
            for (estimate, cell) in estimates.iter_mut().zip(&table.cells[from..from + size]) {
                *estimate += cell;
            }
        }
        let order = &mut self.order[at..at + size];
        // The estimates rise along the order; sorted by insertion, for there are few.
        for next in 0..size {
            let estimate = estimates[next];
            let mut place = next;
            while place > 0 && estimates[order[place - 1]] > estimate {
                order[place] = order[place - 1];
                place -= 1;
            }
            order[place] = next;
        }
        for next in at..at + size {
            let value = self.order[next];
            let estimate = self.estimates[at + value];
            let passed = estimate >= self.bar;
            if passed || self.spent || (self.known.best.is_some() && self.known.nodes >= self.limits.budget) {
                self.spent |= !passed;
                self.low = self.low.min(estimate);
                return;
            }
            self.known.nodes += 1;
            self.values[p] = value;
            self.descend(p + 1, estimate);
        }
    }
}

/// Searches until it has ended or the budget is reached.
pub fn search(depths: &[Vec<Table>], bounds: &Bounds, sizes: &[usize], limits: &Limits, known: &mut Known) -> Ended {
    let mut at = 0;
    let mut looked = Vec::new();
    for (p, bucket) in bounds.buckets.iter().enumerate() {
        let came = bucket.came.iter().map(|at| &bounds.tables[*at]);
        let more = depths[p].iter().chain(came).map(|table| Looked::new(table, sizes, Some(p))).collect();
        let less = bucket.sent.iter().map(|at| Looked::new(&bounds.tables[*at], sizes, None)).collect();
        looked.push(Depth { more, less, fixed: bucket.fixed, size: sizes[p], at });
        at += sizes[p];
    }
    let first = bounds.buckets.iter().map(|bucket| bucket.fixed).sum();
    let values = vec![0; sizes.len()];
    let (estimates, order) = (vec![0; at], vec![0; at]);
    let mut search = Search { depths: looked, limits, known, bar: 0, values, estimates, order, low: u64::MAX, spent: false };
    search.set_bar();
    search.descend(0, first);
    Ended { spent: search.spent, lower: search.low.div_ceil(limits.scale) }
}
