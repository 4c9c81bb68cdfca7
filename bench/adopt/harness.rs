//! Times `bench_agent` and `bench_play` of `lib.rt.txt` against the plain agent of `plain.rs`, in one run.
//!
//! `harness TIMETABLE` takes the path of a problem text whose tables have one or two variables.

use plain::{Agent, Context, Letter, Message, Parcel, Played, Problem, Tree, play};
use problems::{Numbers, Random, random_problem, read};
use std::hint::black_box;
use std::time::Instant;

mod plain;
mod problems;

unsafe extern "C" {
    fn bench_play(
        sizes: *const u16, sizes_len: usize, firsts: *const u32, firsts_len: usize, seconds: *const u32, seconds_len: usize,
        ends: *const usize, ends_len: usize, cells: *const u64, cells_len: usize, parents: *const u32, parents_len: usize,
        error: u64, budget: u64, times: u32, out: *mut u64, out_len: usize,
    ) -> bool;
    fn bench_agent(
        sizes: *const u16, sizes_len: usize, firsts: *const u32, firsts_len: usize, seconds: *const u32, seconds_len: usize,
        ends: *const usize, ends_len: usize, cells: *const u64, cells_len: usize, parents: *const u32, parents_len: usize,
        me: u32, letters: *const u64, letters_len: usize, times: u32, marked: bool, out: *mut u64, out_len: usize,
    ) -> bool;
}

const RUNS: usize = 15;

/// What stands for no amount among the numbers of letters.
const NO_AMOUNT: u64 = u64::MAX;

impl Numbers {
    /// Plays ADOPT so often, and writes the deliveries and the end of each agent.
    fn play(&self, error: u64, budget: u64, times: u32, out: &mut [u64]) -> bool {
        // The slices are this function's own, and do not overlap.
        unsafe {
            bench_play(
                self.sizes.as_ptr(), self.sizes.len(), self.firsts.as_ptr(), self.firsts.len(),
                self.seconds.as_ptr(), self.seconds.len(), self.ends.as_ptr(), self.ends.len(),
                self.cells.as_ptr(), self.cells.len(), self.parents.as_ptr(), self.parents.len(),
                error, budget, times, out.as_mut_ptr(), out.len(),
            )
        }
    }

    /// Gives an agent these batches so often, and writes the number and the mark of what it sent.
    fn react(&self, me: u32, letters: &[u64], times: u32, marked: bool, out: &mut [u64]) -> bool {
        // The slices are this function's own, and do not overlap.
        unsafe {
            bench_agent(
                self.sizes.as_ptr(), self.sizes.len(), self.firsts.as_ptr(), self.firsts.len(),
                self.seconds.as_ptr(), self.seconds.len(), self.ends.as_ptr(), self.ends.len(),
                self.cells.as_ptr(), self.cells.len(), self.parents.as_ptr(), self.parents.len(),
                me, letters.as_ptr(), letters.len(), times, marked, out.as_mut_ptr(), out.len(),
            )
        }
    }
}

/// A chain of four variables, the last of which has eight children; all have 16 values, and the
/// children have tables with the chain too.
fn fan(seed: u64) -> Problem {
    let mut random = Random(seed);
    let mut pairs = vec![[0, 1], [1, 2], [0, 2], [2, 3], [0, 3]];
    for child in 4..12 {
        pairs.extend([[child % 3, child], [3, child]]);
    }
    let tables = pairs.iter().map(|pair| random.table(pair, 16, 100)).collect();
    Problem { sizes: vec![16; 12], tables }
}

const FAN_AGENT: u32 = 3;

/// The batches as numbers, 13 for each letter: whether it is the first of a batch, the sender, the
/// kind, an amount, an upper bound, and up to four pairs.
fn numbers_of(batches: &[Vec<Letter>]) -> Vec<u64> {
    let mut numbers = Vec::new();
    for batch in batches {
        for (k, letter) in batch.iter().enumerate() {
            let (kind, amount, upper, context): (u64, u64, Option<u64>, &[(u32, u16)]) = match &letter.message {
                Message::Value(value) => (0, u64::from(*value), None, &[]),
                Message::Cost { context, lower, upper } => (1, *lower, *upper, context),
                Message::Threshold { amount, context } => (2, *amount, None, context),
                Message::Terminate { context } => (3, 0, None, context),
            };
            numbers.extend([u64::from(k == 0), u64::from(letter.from), kind, amount, upper.unwrap_or(NO_AMOUNT)]);
            for k in 0..4 {
                let pair = context.get(k).map(|pair| [u64::from(pair.0), u64::from(pair.1)]);
                numbers.extend(pair.unwrap_or([NO_AMOUNT; 2]));
            }
        }
    }
    numbers
}

fn mix(mark: u64, word: u64) -> u64 {
    (mark ^ word).wrapping_mul(0x0100_0000_01B3)
}

fn mark_of_context(mark: u64, context: &Context) -> u64 {
    context.iter().fold(mark, |mark, pair| mix(mix(mark, u64::from(pair.0)), u64::from(pair.1)))
}

fn mark_of(mark: u64, parcel: &Parcel) -> u64 {
    let mark = mix(mark, u64::from(parcel.to));
    match &parcel.message {
        Message::Value(value) => mix(mix(mark, 1), u64::from(*value)),
        Message::Cost { context, lower, upper } => {
            mix(mix(mark_of_context(mix(mark, 2), context), *lower), upper.unwrap_or(NO_AMOUNT))
        }
        Message::Threshold { amount, context } => mix(mark_of_context(mix(mark, 3), context), *amount),
        Message::Terminate { context } => mark_of_context(mix(mark, 4), context),
    }
}

/// The best of some runs of each, in seconds; they run in turn.
fn best<const N: usize>(mut runs: [&mut dyn FnMut(); N]) -> [f64; N] {
    let mut best = [f64::INFINITY; N];
    for _ in 0..RUNS {
        for (run, best) in runs.iter_mut().zip(&mut best) {
            let begin = Instant::now();
            run();
            *best = best.min(begin.elapsed().as_secs_f64());
        }
    }
    best
}

/// Stops with an error where the two differ.
fn check(what: &str, ours: &[u64], plain: &[u64]) {
    if ours != plain {
        eprintln!("{what}: the agents differ: ours {ours:?}, plain {plain:?}");
        std::process::exit(1);
    }
}

/// What the plain agent sends for these batches after its start: how many messages, and their mark.
fn react_plain(agent: &Agent, batches: &[Vec<Letter>], marked: bool) -> [u64; 2] {
    let mut agent = agent.clone();
    let mut sent = 0;
    let mut mark = 0;
    let mut see = |out: Vec<Parcel>| {
        sent += out.len() as u64;
        if marked {
            mark = out.iter().fold(mark, mark_of);
        }
    };
    see(agent.start());
    for batch in batches {
        see(agent.react(batch));
    }
    [sent, mark]
}

/// Prints rates, and the ratios of the plain times to ours.
fn tell(unit: &str, count: f64, our_time: f64, [plain, sparing]: [f64; 2]) {
    println!("  {:.0} {unit} a second, plain {:.0}, ratio {:.2}; plain and sparing {:.0}, ratio {:.2}",
        count / our_time, count / plain, plain / our_time, count / sparing, sparing / our_time);
}

/// Times one agent on these batches.
fn time_agent(what: &str, problem: &Problem, batches: &[Vec<Letter>]) {
    let numbers = Numbers::new(problem);
    let letters = numbers_of(batches);
    let [agent, sparing] = [false, true].map(|sparing| Agent::new(problem, &Tree::new(problem), FAN_AGENT, 0, sparing));
    let mut ours = [0; 2];
    let told = numbers.react(FAN_AGENT, &letters, 1, true, &mut ours);
    if !told {
        eprintln!("{what}: the batches were refused");
        std::process::exit(1);
    }
    for agent in [&agent, &sparing] {
        check(what, &ours, &react_plain(agent, batches, true));
    }
    let times = 40;
    let react = |times| assert!(numbers.react(FAN_AGENT, black_box(&letters), times, false, &mut [0; 2]));
    let plainly = |agent| for _ in 0..times {
        black_box(react_plain(black_box(agent), black_box(batches), false));
    };
    let [reading, with_reading, plain, spared] =
        best([&mut || react(0), &mut || react(times), &mut || plainly(&agent), &mut || plainly(&sparing)]);
    let count = f64::from(times) * (batches.len() + 1) as f64;
    let messages = batches.iter().map(Vec::len).sum::<usize>() as f64 / batches.len() as f64;
    println!("one agent with 8 children and 16 values, {what} ({} batches of {messages:.1} messages):", batches.len());
    tell("activations", count, with_reading - reading, [plain, spared]);
}

/// The first batches that the agent of the fan takes in a run of the plain agents.
fn recorded(problem: &Problem) -> Vec<Vec<Letter>> {
    let mut batches = Vec::new();
    play(problem, false, 0, 100_000, |me, batch| {
        if me == FAN_AGENT && batches.len() < 500 {
            batches.push(batch.to_vec());
        }
    });
    batches
}

/// Batches of one message: VALUE from the parent, and then COST from a child in the context that
/// this gives, in turn. The bounds of a child rise and meet.
fn alternating(seed: u64) -> Vec<Vec<Letter>> {
    let mut random = Random(seed);
    let mut known = vec![(0, 0), (1, 0), (2, 0), (FAN_AGENT, 0)];
    let mut batches = vec![vec![Letter { from: 0, message: Message::Value(0) }]];
    for turn in 0..500 {
        let value = (turn / 16 % 16) as u16;
        known[2].1 = value;
        known[3].1 = (turn % 16) as u16;
        batches.push(vec![Letter { from: 2, message: Message::Value(value) }]);
        let lower = random.word() % 100;
        let upper = (random.word() % 2 == 0).then_some(lower + random.word() % 100);
        let message = Message::Cost { context: known.clone(), lower, upper };
        batches.push(vec![Letter { from: 4 + turn % 8, message }]);
    }
    batches
}

/// How many messages were delivered, and each agent's value, bounds and threshold.
fn end_of(played: &Played) -> Vec<u64> {
    let mut end = vec![played.deliveries];
    for agent in &played.agents {
        let (lower, upper) = agent.bounds();
        end.extend([agent.value() as u64, lower, upper.unwrap_or(NO_AMOUNT), agent.threshold()]);
    }
    end
}

/// Times ADOPT on a problem.
fn time_play(what: &str, problem: &Problem, budget: u64, times: u32) {
    let numbers = Numbers::new(problem);
    let mut ours = vec![0; 1 + 4 * problem.sizes.len()];
    if !numbers.play(0, budget, 1, &mut ours) {
        eprintln!("{what}: the problem was refused");
        std::process::exit(1);
    }
    let [played, spared] = [false, true].map(|sparing| play(problem, sparing, 0, budget, |_, _| ()));
    check(what, &ours, &end_of(&played));
    check(what, &ours, &end_of(&spared));
    let mut ours = || assert!(numbers.play(0, black_box(budget), times, &mut ours));
    let plainly = |sparing| for _ in 0..times {
        black_box(play(black_box(problem), sparing, 0, black_box(budget), |_, _| ()));
    };
    let [our_time, plain, spared] = best([&mut ours, &mut || plainly(false), &mut || plainly(true)]);
    let ended = if played.agents.iter().all(Agent::has_ended) { "all ended" } else { "budget spent" };
    let count = f64::from(times) * played.deliveries as f64;
    println!("{what} ({} deliveries, {ended}):", played.deliveries);
    tell("deliveries", count, our_time, [plain, spared]);
    let ratio = spared / our_time;
    let met = if ratio >= 1.0 { "met" } else { "missed" };
    println!("{:<64} ratio {ratio:5.2}, goal at least 1.0: {met}", format!("ADOPT on {what} beside sparing agents"));
}

fn main() {
    let path = std::env::args().nth(1).expect("usage: harness TIMETABLE");
    let timetable = read(&std::fs::read_to_string(path).expect("the timetable"));
    let fan = fan(1);
    time_agent("its batches of a run", &fan, &recorded(&fan));
    time_agent("VALUE and COST in turn", &fan, &alternating(2));
    time_play("timetable", &timetable, 1_000_000, 20);
    time_play("20 variables of size 4, degree 2", &random_problem(1, 20, 4, 2, 100), 100_000, 1);
}
