//! Plays ADOPT by plain and sparing agents, as `program.rt.txt` does by ours.
//!
//! `plays timetable|random TIMES TIMETABLE` plays so often on the problem text of the path, or on a problem of the
//! generator, and prints how many messages were delivered, and each agent's value, bounds and threshold.
//! `plays numbers TIMETABLE` prints both problems as constants of `program.rt.txt`.

use plain::play;
use problems::{Numbers, random_problem, read};
use std::hint::black_box;

#[allow(dead_code)]
mod plain;
#[allow(dead_code)]
mod problems;

fn constant<T: std::fmt::Debug>(name: &str, kind: &str, numbers: &[T]) {
    println!("pub const {name}: [{kind}; {}] = {numbers:?};", numbers.len());
}

fn tell_numbers(name: &str, numbers: &Numbers) {
    constant(&format!("{name}_SIZES"), "u16", &numbers.sizes);
    constant(&format!("{name}_FIRSTS"), "u32", &numbers.firsts);
    constant(&format!("{name}_SECONDS"), "u32", &numbers.seconds);
    constant(&format!("{name}_ENDS"), "usize", &numbers.ends);
    constant(&format!("{name}_CELLS"), "u64", &numbers.cells);
    constant(&format!("{name}_PARENTS"), "u32", &numbers.parents);
}

fn main() {
    let words: Vec<String> = std::env::args().collect();
    let timetable = read(&std::fs::read_to_string(words.last().expect("a path")).expect("the timetable"));
    let random = random_problem(1, 20, 4, 2, 100);
    if words[1] == "numbers" {
        println!("//! Two problems as numbers.\n");
        tell_numbers("TIMETABLE", &Numbers::new(&timetable));
        tell_numbers("RANDOM", &Numbers::new(&random));
        return;
    }
    let (problem, budget) = if words[1] == "random" { (random, 100_000) } else { (timetable, 1_000_000) };
    let times: u32 = words[2].parse().expect("a number");
    for _ in 1..times {
        black_box(play(black_box(&problem), true, 0, budget, |_, _| ()));
    }
    let played = play(&problem, true, 0, budget, |_, _| ());
    println!("{}", played.deliveries);
    for agent in &played.agents {
        let (lower, upper) = agent.bounds();
        println!("{}\n{}\n{}\n{}", agent.value(), lower, upper.unwrap_or(u64::MAX), agent.threshold());
    }
}
