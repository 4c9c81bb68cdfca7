//! ADOPT written plainly, for comparison: the same agent and the same rounds, without proofs.
//!
//! Each VALUE and COST sets the costs and forgets entries anew, as the agent is defined. A sparing
//! agent does so only where what it knows has changed; that gives the same.

use std::collections::VecDeque;

const CAP: u64 = 1 << 62;

/// The most messages of one sender that an activation of a round takes.
const MOST_TAKEN: usize = 64;

/// What is known of the values of some variables, by ascending variables.
pub type Context = Vec<(u32, u16)>;

fn value_in(context: &[(u32, u16)], var: u32) -> Option<u16> {
    context.iter().find(|pair| pair.0 == var).map(|pair| pair.1)
}

/// Gives the variable this value, and answers whether that changed anything.
fn set(context: &mut Context, var: u32, value: u16) -> bool {
    match context.binary_search_by_key(&var, |pair| pair.0) {
        Ok(at) => std::mem::replace(&mut context[at].1, value) != value,
        Err(at) => {
            context.insert(at, (var, value));
            true
        }
    }
}

fn is_part_of(context: &[(u32, u16)], other: &[(u32, u16)]) -> bool {
    context.iter().all(|pair| value_in(other, pair.0) == Some(pair.1))
}

fn is_compatible(context: &[(u32, u16)], other: &[(u32, u16)]) -> bool {
    context.iter().all(|pair| value_in(other, pair.0).is_none_or(|value| value == pair.1))
}

/// The lesser of two upper bounds; `None` is the largest.
fn lesser(one: Option<u64>, other: Option<u64>) -> Option<u64> {
    match (one, other) {
        (Some(one), Some(other)) => Some(one.min(other)),
        (one, other) => one.or(other),
    }
}

fn at_most(amount: u64, bound: Option<u64>) -> u64 {
    bound.map_or(amount, |bound| amount.min(bound))
}

#[derive(Clone, Debug)]
pub struct Table {
    pub scope: Vec<u32>,
    pub sizes: Vec<u16>,
    pub cells: Vec<u64>,
}

#[derive(Clone, Debug, Default)]
pub struct Problem {
    pub sizes: Vec<u16>,
    pub tables: Vec<Table>,
}

#[derive(Clone, Debug, PartialEq)]
pub enum Message {
    Value(u16),
    Cost { context: Context, lower: u64, upper: Option<u64> },
    Threshold { amount: u64, context: Context },
    Terminate { context: Context },
}

/// A message with its sender.
#[derive(Clone, Debug)]
pub struct Letter {
    pub from: u32,
    pub message: Message,
}

/// A message with its receiver.
#[derive(Clone, Debug, PartialEq)]
pub struct Parcel {
    pub to: u32,
    pub message: Message,
}

/// What a neighbour is to an agent.
#[derive(Clone, Debug)]
struct Neighbour {
    var: u32,
    /// Its size, where it stands above.
    higher: Option<u16>,
    /// Its place among the children.
    child: Option<usize>,
    is_parent: bool,
}

#[derive(Clone, Debug)]
pub struct Agent {
    me: u32,
    size: usize,
    error: u64,
    sparing: bool,
    path: Vec<(u32, u16)>,
    neighbours: Vec<Neighbour>,
    tables: Vec<Table>,
    width: usize,
    known: Context,
    /// The cost of each own value by the tables that count.
    costs: Vec<u64>,
    /// Whether all higher neighbours are known.
    whole: bool,
    // For each own value and child, in this order.
    lower: Vec<u64>,
    upper: Vec<Option<u64>>,
    share: Vec<u64>,
    contexts: Vec<Context>,
    value: usize,
    threshold: u64,
    last: u64,
    told: bool,
    ended: bool,
}

impl Agent {
    pub fn new(problem: &Problem, tree: &Tree, me: u32, error: u64, sparing: bool) -> Agent {
        let path: Vec<(u32, u16)> =
            tree.paths[me as usize].iter().map(|var| (*var, problem.sizes[*var as usize])).collect();
        let children: Vec<u32> = tree.children(me).collect();
        let neighbours = tree.neighbours[me as usize].iter().map(|var| Neighbour {
            var: *var,
            higher: value_in(&path, *var),
            child: children.iter().position(|child| child == var),
            is_parent: path.last().is_some_and(|parent| parent.0 == *var),
        });
        let size = usize::from(problem.sizes[me as usize]);
        let width = children.len();
        let mut agent = Agent {
            me,
            size,
            error,
            sparing,
            neighbours: neighbours.collect(),
            path,
            tables: problem.tables.iter().filter(|table| table.scope.contains(&me)).cloned().collect(),
            width,
            known: Context::new(),
            costs: vec![0; size],
            whole: false,
            lower: vec![0; size * width],
            upper: vec![None; size * width],
            share: vec![0; size * width],
            contexts: vec![Context::new(); size * width],
            value: 0,
            threshold: 0,
            last: 0,
            told: false,
            ended: false,
        };
        agent.set_costs();
        agent
    }

    pub fn has_ended(&self) -> bool {
        self.ended
    }

    pub fn value(&self) -> usize {
        self.value
    }

    pub fn threshold(&self) -> u64 {
        self.threshold
    }

    fn row(&self, d: usize) -> std::ops::Range<usize> {
        d * self.width..(d + 1) * self.width
    }

    fn lower_of(&self, d: usize) -> u64 {
        self.lower[self.row(d)].iter().fold(self.costs[d], |sum, bound| (sum + bound).min(CAP))
    }

    fn upper_sum(&self, d: usize, own: u64) -> Option<u64> {
        self.upper[self.row(d)].iter().try_fold(own, |sum, bound| Some((sum + (*bound)?).min(CAP)))
    }

    fn upper_of(&self, d: usize) -> Option<u64> {
        if self.whole { self.upper_sum(d, self.costs[d]) } else { None }
    }

    /// The lowest value of least LB(d), and LB.
    fn best_lower(&self) -> (usize, u64) {
        let mut best = (0, self.lower_of(0));
        for d in 1..self.size {
            let bound = self.lower_of(d);
            if bound < best.1 {
                best = (d, bound);
            }
        }
        best
    }

    /// The lowest value of least UB(d), and UB.
    fn best_upper(&self) -> (usize, Option<u64>) {
        let mut best = (0, self.upper_of(0));
        for d in 1..self.size {
            let bound = self.upper_of(d);
            if bound.is_some_and(|bound| best.1.is_none_or(|least| bound < least)) {
                best = (d, bound);
            }
        }
        best
    }

    /// LB and UB.
    pub fn bounds(&self) -> (u64, Option<u64>) {
        (self.best_lower().1, self.best_upper().1)
    }

    fn restore(&mut self) {
        let (lower, upper) = self.bounds();
        let least = if self.path.is_empty() { (lower + self.error).min(CAP) } else { self.threshold.max(lower) };
        self.threshold = at_most(least, upper);
    }

    fn set_costs(&mut self) {
        let Agent { me, path, known, costs, tables, neighbours, .. } = self;
        costs.fill(0);
        for table in tables {
            // The place of the cell at own value 0, and how far apart those of two own values are.
            let (mut place, mut stride) = (0, 0);
            let counts = table.scope.iter().zip(&table.sizes).all(|(var, size)| {
                place *= usize::from(*size);
                stride *= usize::from(*size);
                if var == me {
                    stride = 1;
                    return true;
                }
                match value_in(known, *var) {
                    Some(value) if value_in(path, *var).is_some() => {
                        place += usize::from(value);
                        true
                    }
                    _ => false,
                }
            });
            if counts {
                for (cost, cell) in costs.iter_mut().zip(table.cells[place..].iter().step_by(stride)) {
                    *cost = (*cost + cell).min(CAP);
                }
            }
        }
        self.whole = neighbours.iter().all(|near| near.higher.is_none() || value_in(known, near.var).is_some());
    }

    /// What follows from what is known: the costs, and which entries still rest on it.
    fn reset(&mut self) {
        self.set_costs();
        for at in 0..self.contexts.len() {
            if !is_part_of(&self.contexts[at], &self.known) {
                self.lower[at] = 0;
                self.upper[at] = None;
                self.share[at] = 0;
                self.contexts[at].clear();
            }
        }
        self.restore();
    }

    fn move_on(&mut self, changed: bool) {
        if changed || !self.sparing {
            self.reset();
        } else {
            self.restore();
        }
    }

    fn neighbour(&self, var: u32) -> Option<&Neighbour> {
        self.neighbours.iter().find(|near| near.var == var)
    }

    /// Whether this names only variables of the path, with values below their sizes.
    fn fits<'a>(&self, mut pairs: impl Iterator<Item = &'a (u32, u16)>) -> bool {
        pairs.all(|pair| value_in(&self.path, pair.0).is_some_and(|size| pair.1 < size))
    }

    fn takes_from_parent(&self, from: u32, context: &Context) -> bool {
        !self.told && self.path.last().is_some_and(|parent| parent.0 == from) && self.fits(context.iter())
    }

    fn take_value(&mut self, from: u32, value: u16) {
        let size = self.neighbour(from).and_then(|near| near.higher);
        if !self.told && size.is_some_and(|size| value < size) {
            let changed = set(&mut self.known, from, value);
            self.move_on(changed);
        }
    }

    fn take_threshold(&mut self, from: u32, amount: u64, context: &Context) {
        if self.takes_from_parent(from, context) {
            self.last = amount;
            if is_compatible(context, &self.known) {
                self.threshold = amount;
                self.restore();
            }
        }
    }

    fn take_end(&mut self, from: u32, context: &Context) {
        if self.takes_from_parent(from, context) {
            self.known.clone_from(context);
            self.told = true;
            self.threshold = self.last;
            self.reset();
        }
    }

    fn take_cost(&mut self, from: u32, context: &Context, lower: u64, upper: Option<u64>) {
        let Some(child) = self.neighbour(from).and_then(|near| near.child) else {
            return;
        };
        let Some(d) = value_in(context, self.me).map(usize::from) else {
            return;
        };
        let rest: Context = context.iter().filter(|pair| pair.0 != self.me).copied().collect();
        if d >= self.size || !self.fits(rest.iter()) {
            return;
        }
        if !self.told {
            self.learn(&rest);
        }
        if is_part_of(&rest, &self.known) {
            self.store(d * self.width + child, &rest, lower, upper);
        }
    }

    fn learn(&mut self, rest: &Context) {
        let mut changed = false;
        for (var, value) in rest {
            if self.neighbour(*var).is_none() || value_in(&self.known, *var).is_none() {
                changed |= set(&mut self.known, *var, *value);
            }
        }
        self.move_on(changed);
    }

    fn store(&mut self, at: usize, rest: &Context, lower: u64, upper: Option<u64>) {
        let lower = self.lower[at].max(lower);
        let upper = lesser(self.upper[at], upper);
        if upper.is_some_and(|upper| upper < lower) {
            return;
        }
        self.lower[at] = lower;
        self.upper[at] = upper;
        self.share[at] = at_most(self.share[at].max(lower), upper);
        for (var, value) in rest {
            set(&mut self.contexts[at], *var, *value);
        }
        self.restore();
    }

    fn handle(&mut self, letter: &Letter) {
        match &letter.message {
            Message::Value(value) => self.take_value(letter.from, *value),
            Message::Cost { context, lower, upper } => self.take_cost(letter.from, context, *lower, *upper),
            Message::Threshold { amount, context } => self.take_threshold(letter.from, *amount, context),
            Message::Terminate { context } => self.take_end(letter.from, context),
        }
    }

    fn choose(&mut self) {
        let (best, upper) = self.best_upper();
        if upper == Some(self.threshold) {
            self.value = best;
        } else if self.lower_of(self.value) > self.threshold {
            self.value = self.best_lower().0;
        }
    }

    fn allot(&mut self) {
        let most = self.upper_sum(self.value, 0);
        let goal = u128::from(at_most(self.threshold.saturating_sub(self.costs[self.value]), most));
        let row = self.row(self.value);
        let sum: u128 = self.share[row.clone()].iter().map(|share| u128::from(*share)).sum();
        if sum < goal {
            let mut lack = (goal - sum) as u64;
            for at in row {
                let most = self.share[at] + lack;
                self.share[at] = at_most(most, self.upper[at]);
                lack = most - self.share[at];
            }
        } else if goal < sum {
            let mut excess = sum - goal;
            for at in row {
                let old = self.share[at];
                let least = u128::from(old).saturating_sub(excess) as u64;
                self.share[at] = least.max(self.lower[at]);
                excess -= u128::from(old) - u128::from(self.share[at]);
            }
        }
    }

    fn back_track(&mut self) -> Vec<Parcel> {
        self.restore();
        self.choose();
        self.allot();
        let (lower, upper) = self.bounds();
        self.ended = upper == Some(self.threshold) && (self.path.is_empty() || self.told);
        let mut out = Vec::new();
        for near in &self.neighbours {
            let mut send = |message| out.push(Parcel { to: near.var, message });
            if near.higher.is_none() {
                send(Message::Value(self.value as u16));
            }
            if let Some(child) = near.child {
                let amount = self.share[self.value * self.width + child];
                send(Message::Threshold { amount, context: self.known.clone() });
                if self.ended {
                    let mut context = self.known.clone();
                    set(&mut context, self.me, self.value as u16);
                    send(Message::Terminate { context });
                }
            }
            if near.is_parent && !self.ended {
                send(Message::Cost { context: self.known.clone(), lower, upper });
            }
        }
        out
    }

    pub fn start(&mut self) -> Vec<Parcel> {
        self.value = self.best_lower().0;
        self.back_track()
    }

    pub fn react(&mut self, batch: &[Letter]) -> Vec<Parcel> {
        for letter in batch {
            self.handle(letter);
        }
        self.back_track()
    }
}

/// The depth-first tree of a problem.
#[derive(Clone, Debug)]
pub struct Tree {
    pub neighbours: Vec<Vec<u32>>,
    pub parents: Vec<Option<u32>>,
    pub paths: Vec<Vec<u32>>,
}

impl Tree {
    /// The tree from variable 0 that always goes to the lowest unvisited neighbour. The graph of
    /// the tables is connected.
    pub fn new(problem: &Problem) -> Tree {
        let count = problem.sizes.len();
        let mut neighbours = vec![Vec::new(); count];
        for table in &problem.tables {
            for one in &table.scope {
                neighbours[*one as usize].extend(table.scope.iter().filter(|other| *other != one));
            }
        }
        for near in &mut neighbours {
            near.sort_unstable();
            near.dedup();
        }
        let mut tree = Tree { neighbours, parents: vec![None; count], paths: vec![Vec::new(); count] };
        let mut path = vec![0];
        let mut visited = vec![false; count];
        visited[0] = true;
        while let Some(&me) = path.last() {
            let next = tree.neighbours[me as usize].iter().copied().find(|near| !visited[*near as usize]);
            match next {
                Some(next) => {
                    visited[next as usize] = true;
                    tree.parents[next as usize] = Some(me);
                    tree.paths[next as usize] = path.clone();
                    path.push(next);
                }
                None => {
                    path.pop();
                }
            }
        }
        tree
    }

    fn children(&self, me: u32) -> impl Iterator<Item = u32> + '_ {
        (0..self.parents.len() as u32).filter(move |var| self.parents[*var as usize] == Some(me))
    }
}

/// An agent, and what waits for it of each neighbour.
struct Seat {
    agent: Agent,
    links: Vec<(u32, VecDeque<Letter>)>,
}

/// The agents at the end of a run, and how many messages were delivered.
pub struct Played {
    pub agents: Vec<Agent>,
    pub deliveries: u64,
}

/// Each agent starts, and then rounds follow until all have ended, the budget is spent, or a round
/// has no event. `see` sees each batch with its agent.
pub fn play(problem: &Problem, sparing: bool, error: u64, budget: u64, mut see: impl FnMut(u32, &[Letter])) -> Played {
    let tree = Tree::new(problem);
    let count = problem.sizes.len();
    let make = |me: usize| Seat {
        agent: Agent::new(problem, &tree, me as u32, error, sparing),
        links: tree.neighbours[me].iter().map(|var| (*var, VecDeque::new())).collect(),
    };
    let mut seats: Vec<Seat> = (0..count).map(make).collect();
    for me in 0..count {
        let out = seats[me].agent.start();
        post(&mut seats, me as u32, out);
    }
    let mut deliveries = 0;
    let mut moved = true;
    while moved && deliveries < budget && !seats.iter().all(|seat| seat.agent.ended) {
        moved = false;
        for me in 0..count {
            let Seat { agent, links } = &mut seats[me];
            if agent.ended {
                continue;
            }
            let mut batch = Vec::new();
            for (_, waiting) in links {
                batch.extend(waiting.drain(..waiting.len().min(MOST_TAKEN)));
            }
            if batch.is_empty() {
                continue;
            }
            moved = true;
            deliveries += batch.len() as u64;
            see(me as u32, &batch);
            let out = agent.react(&batch);
            post(&mut seats, me as u32, out);
        }
    }
    Played { agents: seats.into_iter().map(|seat| seat.agent).collect(), deliveries }
}

fn post(seats: &mut [Seat], from: u32, out: Vec<Parcel>) {
    for Parcel { to, message } in out {
        let links = &mut seats[to as usize].links;
        if let Some((_, waiting)) = links.iter_mut().find(|link| link.0 == from) {
            waiting.push_back(Letter { from, message });
        }
    }
}
