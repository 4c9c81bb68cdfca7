//! `dcop_search` written plainly, for comparison: one program, no proofs.
//!
//! `plain WORDS < FILE` takes the words of `dcop_search` and prints an answer of the same form, a refusal included: costs are
//! shared among tables, mini-buckets make bounds, and a depth-first branch and bound ends with the best assignment or is spent.
//! With the environment's SEARCH_TIMES set, it writes a line of counts and seconds for each part to standard error.

mod bounds;
mod costs;
mod order;
mod problem;
mod search;
mod text;
mod wcsp;
mod words;

use problem::{Problem, Table};
use search::{Known, Limits};
use std::fmt::Write as _;
use std::io::{Read, Write};
use std::time::Instant;
use words::Words;

/// What the stages and the sharing of costs are like.
struct Measures {
    /// For each stage the greatest joined table and the most nodes, which are at most a quarter of what is left of the budget;
    /// the last stage has all that is left.
    stages: Vec<(u64, u64)>,
    rounds: usize,
    scale: u64,
    shares: bool,
}

impl Measures {
    /// The usual ones, or those of the environment, as `SEARCH_STAGES="12:10000 16:1000000 20:0"`.
    fn new() -> Self {
        let set = |name: &str, usual: &str| std::env::var(name).unwrap_or(usual.to_string());
        let number = |text: &str| text.parse().expect("a number");
        let stage = |text: &str| {
            let (bits, nodes) = text.split_once(':').expect("bits and nodes");
            (1u64 << number(bits), number(nodes))
        };
        Measures {
            stages: set("SEARCH_STAGES", "12:10000 16:1000000 20:0").split(' ').map(stage).collect(),
            rounds: number(&set("SEARCH_ROUNDS", "100")) as usize,
            scale: number(&set("SEARCH_SCALE", "64")),
            shares: set("SEARCH_SHARES", "1") == "1",
        }
    }
}

struct Answer {
    ended: bool,
    values: Option<Vec<usize>>,
    nodes: u64,
    lower: u64,
}

/// Says how long a part took.
struct Clock {
    begin: Instant,
    told: bool,
}

impl Clock {
    fn tell(&mut self, part: &str, counts: &str) {
        if self.told {
            eprintln!("{part} {:.6} {counts}", self.begin.elapsed().as_secs_f64());
        }
        self.begin = Instant::now();
    }
}

/// The tables over places by their depths, and the sum of what has no variables, which is 0.
fn by_depth(tables: Vec<Table>, count: usize) -> Vec<Vec<Table>> {
    let mut depths: Vec<Vec<Table>> = (0..count).map(|_| Vec::new()).collect();
    for table in tables {
        depths[table.scope[table.scope.len() - 1]].push(table);
    }
    depths
}

fn solve(problem: &Problem, words: &Words, clock: &mut Clock) -> Answer {
    let measures = Measures::new();
    let tables = problem.solved_tables();
    let whole: u64 = tables.iter().map(Table::greatest).sum();
    let mut search_order = order::min_fill(problem.sizes.len(), &tables);
    search_order.reverse();
    clock.tell("order", "");
    let mut places = vec![0; search_order.len()];
    search_order.iter().enumerate().for_each(|(place, var)| places[*var] = place);
    let sizes: Vec<usize> = search_order.iter().map(|var| problem.sizes[*var]).collect();
    let scale = costs::scale_of(whole, measures.scale);
    let mut tables: Vec<Table> = tables.iter().map(|table| costs::in_order(table, &places, &sizes, scale)).collect();
    let rounds = costs::share_all(&mut tables, &sizes, measures.rounds, scale);
    let low: u64 = tables.iter().map(Table::least).sum();
    clock.tell("share", &format!("rounds {rounds} low {}", low.div_ceil(scale)));
    let depths = by_depth(tables, sizes.len());

    let turned = |better: u64| if problem.greatest_wanted { problem.whole().saturating_sub(better) } else { better };
    let mut known = Known { best: words.better.map(turned), values: None, nodes: 0 };
    let mut answer = Answer { ended: false, values: None, nodes: 0, lower: 0 };
    let mut before = 0;
    for (at, (most, nodes)) in measures.stages.iter().enumerate() {
        let last = at + 1 == measures.stages.len();
        let limit = bounds::fitting_limit(&depths, &sizes, words.cells, *most);
        if limit == before && !last {
            continue;
        }
        before = limit;
        let bounds = bounds::make(&depths, &sizes, words.cells, limit, measures.shares);
        let first: u64 = bounds.buckets.iter().map(|bucket| bucket.fixed).sum();
        clock.tell("bounds", &format!("limit {limit} joined {} kept {} low {}", bounds.joined, bounds.kept, first.div_ceil(scale)));
        let begun = known.nodes;
        let budget = if last { words.budget } else { begun + (*nodes).min((words.budget - begun) / 4) };
        let ended = search::search(&depths, &bounds, &sizes, &Limits { scale, error: words.error, budget }, &mut known);
        clock.tell("search", &format!("nodes {} best {:?} lower {}", known.nodes - begun, known.best, ended.lower));
        answer.lower = answer.lower.max(ended.lower);
        answer.ended = !ended.spent;
        if answer.ended || known.nodes >= words.budget {
            break;
        }
    }
    answer.nodes = known.nodes;
    answer.values = known.values.map(|values| places.iter().map(|place| values[*place]).collect());
    answer
}

/// The answer's text and exit status.
fn text_of(problem: &Problem, words: &Words, answer: &Answer) -> (String, i32) {
    let cost = answer.values.as_ref().map(|values| problem.cost(values));
    let (status, code) = match (answer.ended, cost) {
        (false, _) => ("spent", 1),
        (true, Some(_)) => ("solved", 0),
        (true, None) => ("none", 10),
    };
    let mut text = format!("status {status}\nmethod search\n");
    if problem.greatest_wanted {
        text += "goal max\n";
    }
    write!(text, "error {}\nnodes {}\n", words.error, answer.nodes).unwrap();
    let (lower, upper) =
        if problem.greatest_wanted { (cost, Some(problem.whole() - answer.lower)) } else { (Some(answer.lower), cost) };
    for (name, number) in [("cost", cost), ("lower", lower), ("upper", upper)] {
        if let Some(number) = number {
            writeln!(text, "{name} {number}").unwrap();
        }
    }
    for (var, value) in answer.values.iter().flatten().enumerate() {
        let value = problem.value_names[var].as_ref().map_or(value.to_string(), |names| names[*value].clone());
        writeln!(text, "value {} {value}", problem.names[var]).unwrap();
    }
    (text + "end\n", code)
}

/// What is printed, and the exit status.
fn run(clock: &mut Clock) -> (String, i32) {
    let given: Vec<String> = std::env::args().skip(1).collect();
    let words = match words::read(&given) {
        Ok(words) => words,
        Err(fault) => return (format!("refused words at {} kind {}\n", fault.place, fault.kind), 2),
    };
    let most = 1 << 28;
    let mut text = Vec::new();
    if std::io::stdin().take(most + 1).read_to_end(&mut text).is_err() {
        return ("refused read\n".to_string(), 5);
    }
    if text.len() as u64 > most {
        return ("refused text line 0 kind 9\n".to_string(), 3);
    }
    let read = if words.wcsp { wcsp::read(&text) } else { text::read(&text) };
    clock.tell("read", "");
    match read {
        Ok(problem) => {
            let answer = solve(&problem, &words, clock);
            text_of(&problem, &words, &answer)
        }
        Err(fault) => {
            let format = if words.wcsp { "wcsp" } else { "text" };
            let limit = fault.problem.map_or(String::new(), |number| format!(" problem {number}"));
            (format!("refused {format} line {} kind {}{limit}\n", fault.line, fault.kind), 3)
        }
    }
}

fn main() {
    let mut clock = Clock { begin: Instant::now(), told: std::env::var_os("SEARCH_TIMES").is_some() };
    let (text, code) = run(&mut clock);
    let mut out = std::io::stdout();
    let written = out.write_all(text.as_bytes()).and_then(|()| out.flush());
    std::process::exit(if written.is_ok() { code } else { 6 });
}
