//! Problems: what both formats of text are read as, and how an assignment's sum is added up.

/// The limits of a problem.
pub const MOST_VARIABLES: usize = 1000;
pub const MOST_VALUES: u64 = 1024;
pub const MOST_COST: u64 = 1 << 50;
pub const MOST_CELLS: u64 = 1 << 22;
pub const MOST_SUM: u64 = 1 << 62;

/// Costs for each choice of values of some variables; the last variable moves fastest.
#[derive(Clone)]
pub struct Table {
    pub scope: Vec<usize>,
    pub cells: Vec<u64>,
}

impl Table {
    pub fn greatest(&self) -> u64 {
        self.cells.iter().copied().max().unwrap_or(0)
    }

    pub fn least(&self) -> u64 {
        self.cells.iter().copied().min().unwrap_or(0)
    }

    /// The cell at these values of all variables.
    pub fn at(&self, sizes: &[usize], values: &[usize]) -> u64 {
        self.cells[self.scope.iter().fold(0, |at, &var| at * sizes[var] + values[var])]
    }
}

pub struct Problem {
    pub greatest_wanted: bool,
    pub names: Vec<String>,
    pub sizes: Vec<usize>,
    pub value_names: Vec<Option<Vec<String>>>,
    pub tables: Vec<Table>,
}

impl Problem {
    /// The sum of the greatest cells.
    pub fn whole(&self) -> u64 {
        self.tables.iter().map(Table::greatest).sum()
    }

    pub fn cost(&self, values: &[usize]) -> u64 {
        self.tables.iter().map(|table| table.at(&self.sizes, values)).sum()
    }

    /// The tables whose least sum is sought: for the greatest sum what each cell falls short of its table's greatest one.
    pub fn solved_tables(&self) -> Vec<Table> {
        let mut tables = self.tables.clone();
        if self.greatest_wanted {
            for table in &mut tables {
                let greatest = table.greatest();
                table.cells.iter_mut().for_each(|cell| *cell = greatest - *cell);
            }
        }
        tables
    }
}
