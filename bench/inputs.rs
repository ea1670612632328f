//! Inputs of the benchmarks: tables and texts, the same in every run.

use crate::plain::{NO_STEP, Scratch, Table};

/// A table with cells of its own.
#[derive(Clone)]
pub struct Owned {
    pub states: usize,
    pub initial: usize,
    pub inputs: u32,
    pub outputs: u32,
    pub cells: Vec<u16>,
}

impl Owned {
    pub fn new(states: usize, inputs: u32, outputs: u32) -> Owned {
        Owned { states, initial: 0, inputs, outputs, cells: vec![NO_STEP; states * 32] }
    }

    pub fn table(&self) -> Table<'_> {
        Table { states: self.states, initial: self.initial, inputs: self.inputs, outputs: self.outputs, cells: &self.cells }
    }

    pub fn mirror(mut self) -> Owned {
        std::mem::swap(&mut self.inputs, &mut self.outputs);
        self
    }

    fn step(&mut self, from: usize, signal: usize, to: usize) {
        self.cells[from * 32 + signal] = to as u16;
    }
}

/// Splitmix64.
pub struct Random(pub u64);

impl Random {
    pub fn next(&mut self) -> u64 {
        self.0 = self.0.wrapping_add(0x9e37_79b9_7f4a_7c15);
        let mut z = self.0;
        z = (z ^ z >> 30).wrapping_mul(0xbf58_476d_1ce4_e5b9);
        z = (z ^ z >> 27).wrapping_mul(0x94d0_49bb_1331_11eb);
        z ^ z >> 31
    }

    pub fn below(&mut self, n: usize) -> usize {
        (self.next() % n as u64) as usize
    }
}

/// Flags, half of them 1, the others any byte.
pub fn flags(seed: u64, length: usize) -> Vec<u8> {
    let mut r = Random(seed);
    let flag = |_| if r.below(2) == 0 { 1 } else { r.next() as u8 };
    (0..length).map(flag).collect()
}

/// Two tables whose pairs form one chain with an illegal pair at its end, so that every round drops one pair. The second counts by signal 0,
/// and by signal 1, which it sends at its last state, it starts again and the first moves on; the first does not take that at its own last.
pub fn chain(na: usize, nb: usize) -> (Owned, Owned) {
    let mut a = Owned::new(na, 0b10, 0);
    let mut b = Owned::new(nb, 0, 0b11);
    for p in 1..na {
        a.step(p - 1, 1, p);
    }
    for q in 1..nb {
        b.step(q - 1, 0, q);
    }
    b.step(nb - 1, 1, 0);
    (a, b)
}

/// The chain for refinement: there all signals belong to both, so the first takes 0 everywhere and stays.
pub fn chain_refined(na: usize, nb: usize) -> (Owned, Owned) {
    let (mut a, b) = chain(na, nb);
    a.inputs = 0b11;
    for p in 0..na {
        a.step(p, 0, p);
    }
    (a, b.mirror())
}

/// The chain with a step for a signal in neither list in its last row, so that 6 applies there.
pub fn undeclared_at_end(states: usize) -> Owned {
    let mut t = chain_refined(states, 1).0;
    t.step(states - 1, 31, 0);
    t
}

/// A random table: a step for one output in two, and for every input but about `missing` in the whole table.
fn random(r: &mut Random, states: usize, inputs: u32, outputs: u32, missing: usize) -> Owned {
    let mut t = Owned::new(states, inputs, outputs);
    let rare = (states * inputs.count_ones() as usize / missing).max(2);
    for p in 0..states {
        for s in 0..32 {
            let sends = outputs >> s & 1 == 1 && r.below(2) == 0;
            let takes = inputs >> s & 1 == 1 && r.below(rare) != 0;
            if sends || takes {
                let to = r.below(states);
                t.step(p, s, to);
            }
        }
    }
    t
}

/// Random tables over few signals or over all 32, which fit, refinement (the second mirrored) and the sequencer maker (likewise) take. The
/// second has outputs of its own unless `refined`.
pub fn random_pair(seed: u64, n: usize, dense: bool, refined: bool) -> (Owned, Owned) {
    let mut r = Random(seed);
    let (sent, shared, own) = if dense { (0xffff, 0xff_0000, 0xff00_0000) } else { (0b1, 0b10, 0b100) };
    let own = if refined { 0 } else { own };
    let takes = if refined && dense { 0xffff_0000 } else { shared };
    let a = random(&mut r, n, takes, sent, 4);
    let b = random(&mut r, n, sent, takes | own, 4);
    (a, b)
}

/// The counter of document 000, Table 1, of k variables: 2^(k-1) values, signal 0 counts up and signal 1 down. That it takes neither beyond
/// its ends is the error. The plan allows every signal at its only state.
pub fn counter(k: u32) -> (Owned, Owned) {
    let n = 1 << (k - 1);
    let mut module = Owned::new(n, 0b11, 0);
    let mut plan = Owned::new(1, 0, 0b11);
    for v in 1..n {
        module.step(v - 1, 0, v);
        module.step(v, 1, v - 1);
    }
    plan.step(0, 0, 0);
    plan.step(0, 1, 0);
    (module, plan)
}

/// The same with the error variable as a state variable, 2^k states: beyond its ends the counter goes to an error state, where it sends signal
/// 2, which the plan never allows.
pub fn counter_with_errors(k: u32) -> (Owned, Owned) {
    let n = 1 << (k - 1);
    let mut module = Owned::new(2 * n, 0b11, 0b100);
    let (_, mut plan) = counter(k);
    plan.outputs = 0b111;
    for v in 0..n {
        module.step(v, 0, if v + 1 < n { v + 1 } else { n + v });
        module.step(v, 1, if v > 0 { v - 1 } else { n });
        module.step(n + v, 2, n + v);
    }
    (module, plan)
}

/// Four short names.
pub fn short_names() -> Vec<String> {
    ["power", "settled", "read", "open"].map(String::from).to_vec()
}

/// 32 names of the greatest length that differ at their ends only.
pub fn long_names() -> Vec<String> {
    (0..32).map(|i| format!("reference_line{i:02}")).collect()
}

/// A name with its letters capital where the set has their places.
pub fn respelled(name: &str, capitals: u32) -> String {
    let letter = |(i, c): (usize, char)| if capitals >> i & 1 == 1 { c.to_ascii_uppercase() } else { c };
    name.chars().enumerate().map(letter).collect()
}

/// Texts of a module and of a plan with their tables, and what the lister or the report prints of them.
pub struct Texts {
    pub tables: (Owned, Owned),
    pub module: Vec<u8>,
    pub plan: Vec<u8>,
    pub printed: String,
}

/// One text for both.
pub fn same_texts(seed: u64, limit: usize, names: &[String]) -> Texts {
    let (t, text) = text_table(seed, limit, names, 0);
    Texts { tables: (t.clone(), t), module: text.clone(), plan: text, printed: String::new() }
}

/// One text for both, with 32 spellings of a name of the greatest length, which differ at their beginnings only.
pub fn spellings(seed: u64, limit: usize) -> Texts {
    let names: Vec<String> = (0..32).map(|i| respelled("reference_signal", i)).collect();
    let printed = (3..34).map(|line| format!("1\t{line}\t1\t2\n")).collect();
    Texts { printed, ..same_texts(seed, limit, &names) }
}

/// A module with 16 long names, and a plan with the same in capital letters.
pub fn capitals(seed: u64, limit: usize) -> Texts {
    let names = &long_names()[..16];
    let others: Vec<String> = names.iter().map(|n| n.to_ascii_uppercase()).collect();
    let (a, module) = text_table(seed, limit, names, 0);
    let (b, plan) = text_table(seed, limit, &others, 16);
    let printed = (2..18).map(|line| format!("2\t{line}\t1\t{line}\n")).collect();
    Texts { tables: (a, b), module, plan, printed }
}

/// A table whose text has at most so many bytes, nearly all of them, and that text. Its signals have the numbers from `first` on. Every state
/// has a step for each, or for two of four.
pub fn text_table(seed: u64, limit: usize, names: &[String], first: usize) -> (Owned, Vec<u8>) {
    let many = names.len() > 4;
    let width = if many { names.len() } else { 2 };
    let line = if many { 26 } else { 18 };
    let states = (limit / line / width).max(2);
    let all = ((1u64 << names.len()) - 1) << first;
    let mut t = Owned::new(states, all as u32 & 0x5555_5555, all as u32 & 0xaaaa_aaaa);
    let mut r = Random(seed);
    let mut text = heading(&t, "startup", names, first);
    'states: for p in 0..states {
        for i in 0..width {
            let s = if many { i } else { (p % 2) * 2 + i };
            let to = r.below(states);
            let step = format!("step\t{p}\t{}\t{to}\n", names[s]);
            if text.len() + step.len() > limit {
                break 'states;
            }
            text.push_str(&step);
            t.step(p, first + s, to);
        }
    }
    (t, text.into_bytes())
}

/// The text before the steps.
fn heading(t: &Owned, name: &str, names: &[String], first: usize) -> String {
    let mut text = format!("table\t{name}\t{}\t{}\n", t.states, t.initial);
    for (s, name) in names.iter().enumerate() {
        for (kind, set) in [("in", t.inputs), ("out", t.outputs)] {
            if set >> (first + s) & 1 == 1 {
                text.push_str(&format!("{kind}\t{name}\n"));
            }
        }
    }
    text
}

/// Makes the text of a table.
pub fn text_of(t: &Owned, name: &str, names: &[String]) -> String {
    let mut text = heading(t, name, names, 0);
    for (k, to) in t.cells.iter().enumerate().filter(|(_, to)| **to != NO_STEP) {
        text.push_str(&format!("step\t{}\t{}\t{to}\n", k / 32, names[k % 32]));
    }
    text
}

/// Makes the six lines that a report begins with.
fn six_lines(verdict: &str, pairs: usize, kept: usize, rounds: usize, steps: usize, ends: usize) -> String {
    format!("verdict\t{verdict}\npairs\t{pairs}\nkept\t{kept}\nrounds\t{rounds}\nsteps\t{steps}\nends\t{ends}\n")
}

/// Gives the run of document 01, ref and its plan; its signals are power, settled, start and read.
pub fn documents_run() -> Texts {
    let mut module = Owned::new(3, 0b1, 0b10);
    let mut plan = Owned::new(5, 0b100, 0b1011);
    for (p, s) in [0, 1].into_iter().enumerate() {
        module.step(p, s, p + 1);
    }
    for (q, s) in [2, 0, 1, 3].into_iter().enumerate() {
        plan.step(q, s, q + 1);
    }
    Texts {
        tables: (module, plan),
        module: include_bytes!("../examples/ref/module.tab").into(),
        plan: include_bytes!("../examples/ref/plan.tab").into(),
        printed: include_str!("../examples/ref/stdout").into(),
    }
}

/// Gives the same run with one byte changed, so that there is no sequencer: ref begins where it sends settled, and the plan does not take that there.
pub fn documents_none() -> Texts {
    let mut texts = documents_run();
    texts.tables.0.initial = 1;
    texts.module = include_str!("../examples/ref/module.tab").replace("ref\t3\t0", "ref\t3\t1").into();
    texts.printed = six_lines("none", 15, 11, 1, 6, 0);
    texts
}

/// Gives ref with the plan of which document 01 says that there is no sequencer.
pub fn no_sequencer() -> Texts {
    let mut plan = Owned::new(3, 0b1, 0b10);
    plan.step(0, 0, 1);
    plan.step(1, 0, 2);
    let run = documents_run();
    let text = text_of(&plan, "plan", &short_names());
    Texts { tables: (run.tables.0, plan), plan: text.into(), printed: six_lines("none", 9, 2, 2, 0, 0), ..run }
}

/// Makes a module and a plan that start it up again and again, each a ring of n states. The names come in fours, which take turns as far as there
/// are states for them: the plan takes a signal from outside; the module takes one and sends one; one is sent beside it. Illegal is every pair where
/// the module can send and the plan does not want that signal; nothing sent leads there, so all others are kept.
pub fn startups(n: usize, names: &[String]) -> Texts {
    let (half, turns) = (names.len() / 2, (names.len() / 4).min(n / 4));
    let (all, shared) = (u32::MAX >> (32 - names.len()), u32::MAX >> (32 - half));
    let outside = all & !shared & 0xaaaa_aaaa;
    let mut module = Owned::new(n, shared & 0x5555_5555, shared & 0xaaaa_aaaa);
    let mut plan = Owned::new(n, outside, all & !outside);
    for p in 0..n {
        let i = p / 4 % turns * 2;
        let signals = [half + i + 1, i, i + 1, half + i];
        module.step(p, p % (turns * 2), (p + 1) % n);
        plan.step(p, signals[p % 4], (p + 1) % n);
    }
    let wanted = n / 4 / turns;
    let (kept, steps) = (n / 2 * (n + wanted), n * (n / 4 + wanted));
    let sequencer = made((module.clone(), plan.clone())).expect("a sequencer");
    let printed = six_lines("yes", n * n, kept, 1, steps, 0) + &text_of(&sequencer, "sequencer", names);
    let texts = (text_of(&module, "module", names), text_of(&plan, "plan", names));
    Texts { tables: (module, plan), module: texts.0.into(), plan: texts.1.into(), printed }
}

/// A table for the follower: 32 signals, one cell in eight without a step.
pub fn followed(seed: u64, states: usize) -> Owned {
    random(&mut Random(seed), states, u32::MAX, 0, states * 4)
}

/// Makes a chain through all states: each has one step, by any signal, to the next one, and the last has none.
pub fn path(seed: u64, states: usize) -> Owned {
    let mut r = Random(seed);
    let mut t = Owned::new(states, u32::MAX, 0);
    for p in 1..states {
        t.step(p - 1, r.below(32), p);
    }
    t
}

/// Makes a table with so many steps a state, by any signals to any states.
pub fn scattered(seed: u64, states: usize, steps: usize) -> Owned {
    let mut r = Random(seed);
    let mut t = Owned::new(states, u32::MAX, 0);
    for p in 0..states {
        let mut left = steps;
        while left > 0 {
            let signal = r.below(32);
            if t.cells[p * 32 + signal] == NO_STEP {
                t.step(p, signal, r.below(states));
                left -= 1;
            }
        }
    }
    t
}

/// Makes a sequencer of a module and a plan; none where the verdict is no, as the first pair then has no step.
pub fn made((module, plan): (Owned, Owned)) -> Option<Owned> {
    let pairs = module.states * plan.states;
    let (mut cells, mut flags) = (vec![NO_STEP; pairs * 32], vec![0; pairs]);
    let reply = Scratch::new().synthesize(module.table(), plan.table(), &mut cells, &mut flags);
    let table = Owned { states: pairs, initial: reply.initial, inputs: reply.inputs, outputs: reply.outputs, cells };
    reply.yes.then_some(table)
}
