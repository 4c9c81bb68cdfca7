//! The words of the program.

use crate::text::number_of;

pub struct Words {
    pub error: u64,
    pub budget: u64,
    pub cells: u64,
    pub better: Option<u64>,
    pub wcsp: bool,
}

pub struct WordFault {
    pub place: usize,
    pub kind: u8,
}

const OPTIONS: [(&str, u64, u64); 5] = [
    ("--error", 0, 1 << 62),
    ("--budget", 1, 1_000_000_000_000),
    ("--cells", 1024, 268_435_456),
    ("--better", 0, 1 << 62),
    ("--format", 0, 0),
];

/// Reads pairs of an option and its value; the first fault is told.
pub fn read(words: &[String]) -> Result<Words, WordFault> {
    let mut given: [Option<u64>; 5] = [None; 5];
    for (at, pair) in words.chunks(2).enumerate() {
        let place = 2 * at + 1;
        let fault = |place, kind| Err(WordFault { place, kind });
        let Some(option) = OPTIONS.iter().position(|(name, ..)| *name == pair[0]) else { return fault(place, 3) };
        if given[option].is_some() {
            return fault(place, 5);
        }
        let Some(value) = pair.get(1) else { return fault(place, 4) };
        let (name, least, most) = OPTIONS[option];
        given[option] = Some(if name == "--format" {
            match value.as_str() {
                "dcop" => 0,
                "wcsp" => 1,
                _ => return fault(place + 1, 8),
            }
        } else {
            let Some(number) = number_of(value.as_bytes()) else { return fault(place + 1, 6) };
            if number < least || number > most {
                return fault(place + 1, 7);
            }
            number
        });
    }
    Ok(Words {
        error: given[0].unwrap_or(0),
        budget: given[1].unwrap_or(100_000_000),
        cells: given[2].unwrap_or(16_777_216),
        better: given[3],
        wcsp: given[4] == Some(1),
    })
}
