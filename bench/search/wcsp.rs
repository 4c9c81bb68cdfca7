//! WCSP text.

use crate::problem::{MOST_CELLS, MOST_COST, MOST_SUM, MOST_VALUES, MOST_VARIABLES, Problem, Table};
use crate::text::{TextFault, number_of};

struct Words<'a> {
    left: std::vec::IntoIter<(usize, &'a [u8])>,
    over: usize,
}

impl<'a> Words<'a> {
    fn of(text: &'a [u8]) -> Self {
        let mut all = Vec::new();
        let lines: Vec<&[u8]> = text.split(|byte| *byte == b'\n').collect();
        for (at, line) in lines.iter().enumerate() {
            let words = line.split(|byte| b" \t\r".contains(byte)).filter(|word| !word.is_empty());
            all.extend(words.map(|word| (at + 1, word)));
        }
        Words { left: all.into_iter(), over: lines.len() }
    }

    fn word(&mut self) -> Result<(usize, &'a [u8]), TextFault> {
        self.left.next().ok_or(fault(self.over, 2))
    }

    fn number(&mut self) -> Result<(usize, u64), TextFault> {
        let (line, word) = self.word()?;
        Ok((line, number_of(word).ok_or(fault(line, 1))?))
    }
}

const fn fault(line: usize, kind: u8) -> TextFault {
    TextFault { line, kind, problem: None }
}

const fn limit(line: usize, problem: u8) -> TextFault {
    TextFault { line, kind: 7, problem: Some(problem) }
}

/// A function with its cells as they stand in the text, and the line of its arity.
fn function(words: &mut Words, sizes: &[usize], cells_left: &mut u64) -> Result<(usize, Table), TextFault> {
    let (line, arity) = words.number()?;
    if arity > 4 {
        return Err(fault(line, 5));
    }
    let mut scope = Vec::new();
    for _ in 0..arity {
        let (at, var) = words.number()?;
        if var >= sizes.len() as u64 || scope.contains(&(var as usize)) {
            return Err(fault(at, 3));
        }
        scope.push(var as usize);
    }
    let whole = if arity == 0 { vec![0] } else { scope.clone() };
    let count: u64 = whole.iter().map(|var| sizes[*var] as u64).product();
    *cells_left = cells_left.checked_sub(count).ok_or(limit(line, 9))?;
    let (_, default) = words.number()?;
    let (_, tuples) = words.number()?;
    let mut cells = vec![default; count as usize];
    for _ in 0..tuples {
        let mut place = 0;
        for var in &scope {
            let (at, value) = words.number()?;
            if value >= sizes[*var] as u64 {
                return Err(fault(at, 4));
            }
            place = place * sizes[*var] + value as usize;
        }
        let (_, cost) = words.number()?;
        if arity == 0 { cells.fill(cost) } else { cells[place] = cost }
    }
    Ok((line, Table { scope: whole, cells }))
}

/// Reads a text to its last word; the first fault is told.
pub fn read(text: &[u8]) -> Result<Problem, TextFault> {
    let mut words = Words::of(text);
    words.word()?;
    let (line, count) = words.number()?;
    if count == 0 || count > MOST_VARIABLES as u64 {
        return Err(limit(line, if count == 0 { 1 } else { 10 }));
    }
    words.number()?;
    let (_, functions) = words.number()?;
    let (_, top) = words.number()?;
    let mut sizes = Vec::new();
    for _ in 0..count {
        let (line, size) = words.number()?;
        if size == 0 || size > MOST_VALUES {
            return Err(limit(line, 2));
        }
        sizes.push(size as usize);
    }
    let (mut lines, mut tables, mut left) = (Vec::new(), Vec::new(), MOST_CELLS);
    for _ in 0..functions {
        let (line, table) = function(&mut words, &sizes, &mut left)?;
        lines.push(line);
        tables.push(table);
    }
    let soft = |table: &Table| u128::from(table.cells.iter().copied().filter(|cell| *cell < top).max().unwrap_or(0));
    let hard = tables.iter().map(soft).sum::<u128>() + 1;
    let mut whole = 0;
    for (line, table) in lines.iter().zip(&mut tables) {
        for cell in &mut table.cells {
            let cost = if *cell < top { u128::from(*cell) } else { hard };
            if cost > u128::from(MOST_COST) {
                return Err(limit(*line, 7));
            }
            *cell = cost as u64;
        }
        whole += table.greatest();
        if whole > MOST_SUM {
            return Err(limit(*line, 8));
        }
    }
    if let Some((line, _)) = words.left.next() {
        return Err(fault(line, 8));
    }
    let names = (0..count).map(|var| format!("v{var}")).collect();
    let value_names = vec![None; sizes.len()];
    Ok(Problem { greatest_wanted: false, names, sizes, value_names, tables })
}
