//! The problems on which ADOPT is played, and a problem as numbers.

use super::plain::{Problem, Table, Tree};

/// What stands for no variable among the numbers of a problem.
const NO_VARIABLE: u32 = u32::MAX;

/// A problem and its tree as numbers: each table's variables and the end of its cells, and parents.
pub struct Numbers {
    pub sizes: Vec<u16>,
    pub firsts: Vec<u32>,
    pub seconds: Vec<u32>,
    pub ends: Vec<usize>,
    pub cells: Vec<u64>,
    pub parents: Vec<u32>,
}

impl Numbers {
    pub fn new(problem: &Problem) -> Numbers {
        let mut ends = Vec::new();
        let mut cells = Vec::new();
        for table in &problem.tables {
            cells.extend_from_slice(&table.cells);
            ends.push(cells.len());
        }
        let parents = Tree::new(problem).parents;
        Numbers {
            sizes: problem.sizes.clone(),
            firsts: problem.tables.iter().map(|table| table.scope[0]).collect(),
            seconds: problem.tables.iter().map(|table| table.scope.get(1).copied().unwrap_or(NO_VARIABLE)).collect(),
            ends,
            cells,
            parents: parents.iter().map(|parent| parent.unwrap_or(NO_VARIABLE)).collect(),
        }
    }
}

/// SplitMix64.
pub struct Random(pub u64);

impl Random {
    pub fn word(&mut self) -> u64 {
        self.0 = self.0.wrapping_add(0x9E37_79B9_7F4A_7C15);
        let mut z = self.0;
        z = (z ^ (z >> 30)).wrapping_mul(0xBF58_476D_1CE4_E5B9);
        z = (z ^ (z >> 27)).wrapping_mul(0x94D0_49BB_1331_11EB);
        z ^ (z >> 31)
    }

    pub fn table(&mut self, scope: &[u32], size: u16, top: u64) -> Table {
        let count = usize::from(size).pow(scope.len() as u32);
        let cells = (0..count).map(|_| self.word() % (top + 1)).collect();
        Table { scope: scope.to_vec(), sizes: vec![size; scope.len()], cells }
    }
}

/// The problem of the generator: each variable has tables with so many lower ones.
pub fn random_problem(seed: u64, vars: u32, size: u16, degree: u32, top: u64) -> Problem {
    let mut random = Random(seed);
    let mut problem = Problem { sizes: vec![size; vars as usize], tables: Vec::new() };
    for var in 1..vars {
        for _ in 0..var.min(degree) {
            let partner = (random.word() % u64::from(var)) as u32;
            problem.tables.push(random.table(&[partner, var], size, top));
        }
    }
    problem
}

/// Reads a problem text of version 1 that is right.
pub fn read(text: &str) -> Problem {
    let mut problem = Problem::default();
    let mut names = Vec::new();
    for line in text.lines() {
        let words: Vec<&str> = line.split('#').next().unwrap_or("").split_whitespace().collect();
        match words.as_slice() {
            ["var", name, size] => {
                names.push(name.to_string());
                problem.sizes.push(size.parse().expect("a size"));
            }
            ["table", rest @ ..] => {
                let colon = rest.iter().position(|word| *word == ":").expect("a colon");
                let var = |word: &&str| names.iter().position(|name| name == word).expect("a name") as u32;
                let scope: Vec<u32> = rest[..colon].iter().map(var).collect();
                let sizes = scope.iter().map(|var| problem.sizes[*var as usize]).collect();
                let cells = rest[colon + 1..].iter().map(|word| word.parse().expect("a cell")).collect();
                problem.tables.push(Table { scope, sizes, cells });
            }
            _ => {}
        }
    }
    problem
}
