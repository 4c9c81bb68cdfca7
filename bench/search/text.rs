//! Problem text.

use crate::problem::{MOST_CELLS, MOST_COST, MOST_SUM, MOST_VALUES, MOST_VARIABLES, Problem, Table};
use std::collections::HashMap;

/// The first fault of a text: its line, its kind, and for kind 7 which of the limits it breaks.
pub struct TextFault {
    pub line: usize,
    pub kind: u8,
    pub problem: Option<u8>,
}

/// A number is 1 to 19 digits.
pub fn number_of(word: &[u8]) -> Option<u64> {
    if word.is_empty() || word.len() > 19 || !word.iter().all(u8::is_ascii_digit) {
        return None;
    }
    Some(word.iter().fold(0, |number, digit| number * 10 + u64::from(digit - b'0')))
}

fn is_name(word: &[u8]) -> bool {
    let first = word.first().is_some_and(|byte| byte.is_ascii_alphabetic() || *byte == b'_');
    first && word.len() <= 32 && word.iter().all(|byte| byte.is_ascii_alphanumeric() || b"_-.".contains(byte))
}

fn words_of(line: &[u8]) -> Vec<&[u8]> {
    let line = line.strip_suffix(b"\r").unwrap_or(line);
    let line = line.split(|byte| *byte == b'#').next().unwrap_or(line);
    line.split(|byte| b" \t".contains(byte)).filter(|word| !word.is_empty()).collect()
}

/// A fault within a line.
type Told = (u8, Option<u8>);

const fn limit(problem: u8) -> Told {
    (7, Some(problem))
}

struct Reader {
    version: u8,
    problem: Problem,
    numbers: HashMap<Vec<u8>, usize>,
    cells: u64,
    whole: u64,
}

impl Reader {
    fn variable(&mut self, words: &[&[u8]]) -> Result<(), Told> {
        let named = self.version == 2 && words.get(2) == Some(&&b":"[..]);
        if (!named && words.len() != 3) || !is_name(words[1]) || (named && !words[3..].iter().all(|word| is_name(word))) {
            return Err((2, None));
        }
        let twice = named && (3..words.len()).any(|at| words[3..at].contains(&words[at]));
        if self.numbers.contains_key(words[1]) || twice {
            return Err((5, None));
        }
        let size = if named { (words.len() - 3) as u64 } else { number_of(words[2]).ok_or((3, None))? };
        if self.problem.sizes.len() == MOST_VARIABLES {
            return Err(limit(10));
        }
        if size == 0 || size > MOST_VALUES {
            return Err(limit(2));
        }
        let own = |word: &&[u8]| String::from_utf8_lossy(word).into_owned();
        self.numbers.insert(words[1].to_vec(), self.problem.sizes.len());
        self.problem.names.push(own(&words[1]));
        self.problem.sizes.push(size as usize);
        self.problem.value_names.push(named.then(|| words[3..].iter().map(own).collect()));
        Ok(())
    }

    fn table(&mut self, words: &[&[u8]]) -> Result<(), Told> {
        let colon = words.iter().position(|word| *word == b":").ok_or((2, None))?;
        let most = if self.version == 2 { 4 } else { 2 };
        if colon < 2 || colon - 1 > most {
            return Err(limit(3));
        }
        let known = |word: &&[u8]| self.numbers.get(*word).copied().ok_or((4, None));
        let scope = words[1..colon].iter().map(known).collect::<Result<Vec<usize>, Told>>()?;
        if (1..scope.len()).any(|at| scope[..at].contains(&scope[at])) {
            return Err(limit(5));
        }
        let costs = words[colon + 1..].iter().map(|word| number_of(word).ok_or((3, None)));
        let cells = costs.collect::<Result<Vec<u64>, Told>>()?;
        if cells.len() as u64 != scope.iter().map(|var| self.problem.sizes[*var] as u64).product() {
            return Err(limit(6));
        }
        if cells.iter().any(|cost| *cost > MOST_COST) {
            return Err(limit(7));
        }
        self.cells += cells.len() as u64;
        if self.cells > MOST_CELLS {
            return Err(limit(9));
        }
        let table = Table { scope, cells };
        self.whole += table.greatest();
        if self.whole > MOST_SUM {
            return Err(limit(8));
        }
        self.problem.tables.push(table);
        Ok(())
    }

    /// Reads a line behind the first one with words, which is the line with words of this number; whether it is the end.
    fn line(&mut self, number: usize, words: &[&[u8]]) -> Result<bool, Told> {
        match words[0] {
            b"var" if words.len() > 1 => self.variable(words).map(|()| false),
            b"table" => self.table(words).map(|()| false),
            b"end" if words.len() > 1 => Err((2, None)),
            b"end" if self.problem.sizes.is_empty() => Err(limit(1)),
            b"end" => Ok(true),
            b"goal" if self.version == 2 && number == 2 && words.len() == 2 && [&b"min"[..], b"max"].contains(&words[1]) => {
                self.problem.greatest_wanted = words[1] == b"max";
                Ok(false)
            }
            _ => Err((2, None)),
        }
    }
}

/// Reads a text to its last line; the first fault is told.
pub fn read(text: &[u8]) -> Result<Problem, TextFault> {
    let problem =
        Problem { greatest_wanted: false, names: vec![], sizes: vec![], value_names: vec![], tables: vec![] };
    let mut reader = Reader { version: 0, problem, numbers: HashMap::new(), cells: 0, whole: 0 };
    let (mut seen, mut ended) = (0, false);
    for (line, words) in text.split(|byte| *byte == b'\n').map(words_of).enumerate() {
        if words.is_empty() {
            continue;
        }
        seen += 1;
        let told = if ended {
            Err((8, None))
        } else if seen == 1 {
            reader.version = if words == [&b"dcop"[..], b"1"] { 1 } else { 2 };
            if reader.version == 1 || words == [&b"dcop"[..], b"2"] { Ok(false) } else { Err((1, None)) }
        } else {
            reader.line(seen, &words)
        };
        match told {
            Ok(last) => ended = last,
            Err((kind, problem)) => return Err(TextFault { line: line + 1, kind, problem }),
        }
    }
    if !ended {
        let breaks = text.iter().filter(|byte| **byte == b'\n').count();
        return Err(TextFault { line: breaks + 1, kind: 6, problem: None });
    }
    Ok(reader.problem)
}
