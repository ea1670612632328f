//! Random tables: pairs that have something to do with each other, so that every verdict is frequent, and ways to damage them.

use crate::random::Random;
use crate::table::{has, members, Table, NO_STEP, SIGNALS};

#[derive(Clone, Copy, PartialEq)]
enum Role {
    Absent,
    Input,
    Output,
}
use Role::{Absent, Input, Output};

/// What a signal is to the two tables of a call. A role that stands twice is drawn twice as often.
type Roles = [(Role, Role)];

const MEETING: &Roles = &[
    (Input, Output), (Input, Output), (Output, Input), (Output, Input), (Input, Input),
    (Input, Absent), (Output, Absent), (Absent, Input), (Absent, Output),
];
const MODULE_AND_PLAN: &Roles =
    &[(Input, Output), (Input, Output), (Output, Output), (Output, Output), (Input, Input), (Absent, Input), (Absent, Output)];
const OUTPUT_OF_BOTH: (Role, Role) = (Output, Output);
const UNKNOWN_TO_PLAN: &Roles = &[(Input, Absent), (Output, Absent), (Output, Input)];

/// States of the first and of the second table.
type Sizes = (usize, usize);

/// Mostly few states; at times up to 4,096 pairs, or too many.
pub fn sizes(r: &mut Random) -> Sizes {
    const LARGE: &[Sizes] = &[(64, 64), (4_096, 1), (1, 4_096), (32, 128), (2, 2_048), (1_365, 3)];
    const TOO_LARGE: &[Sizes] = &[(17, 241), (64, 65), (4_096, 2), (1_024, 1_024), (257, 255)];
    match r.below(1_000) {
        0..=939 => {
            let both = r.below(6 * 6);
            (1 + both / 6, 1 + both % 6)
        }
        940..=974 => (r.between(1, 24), r.between(1, 24)),
        975..=989 => r.pick(TOO_LARGE),
        990..=994 => {
            let first = r.between(1, 4_096);
            (first, r.between(1, 4_096 / first))
        }
        _ => r.pick(LARGE),
    }
}

/// A few states for one table and for the other about as many as the calls for C have the smaller room for, which is 64.
pub fn sizes_about_the_smaller_room(r: &mut Random) -> Sizes {
    let (few, many) = (r.between(1, 4), r.between(60, 80));
    r.pick(&[(many, few), (few, many)])
}

/// Two tables that may be composed, or, rarely, have an output in common.
pub fn meeting_tables(r: &mut Random, sizes: Sizes) -> (Table, Table) {
    let (mut a, mut b) = blank_pair(r, sizes, MEETING, &[OUTPUT_OF_BOTH]);
    add_steps(r, &mut a);
    add_steps(r, &mut b);
    (a, b)
}

/// A module and a plan; in half of the cases the plan goes along with the module.
pub fn module_and_plan(r: &mut Random, sizes: Sizes) -> (Table, Table) {
    often_going_along(r, sizes, MODULE_AND_PLAN, UNKNOWN_TO_PLAN)
}

/// Two tables with these roles; in half of the cases the second goes along with the first.
fn often_going_along(r: &mut Random, sizes: Sizes, roles: &Roles, odd_roles: &Roles) -> (Table, Table) {
    let (mut a, mut b) = blank_pair(r, sizes, roles, odd_roles);
    add_steps(r, &mut a);
    if r.percent(50) {
        go_along(r, &a, &mut b);
    } else {
        add_steps(r, &mut b);
    }
    (a, b)
}

/// Two tables of which the first often refines the second.
pub fn refining_tables(r: &mut Random, (first, second): Sizes) -> (Table, Table) {
    if r.percent(15) {
        return meeting_tables(r, (first, second));
    }
    let (_, mut y) = blank_pair(r, (first, second), MEETING, &[OUTPUT_OF_BOTH]);
    add_steps(r, &mut y);
    let mut x = near_or_loosened(r, &y, first, 40);
    if r.percent(4) {
        break_lists(r, &mut x, &mut y);
    }
    (x, y)
}

/// Three tables X, Y and Z: X often refines Y and mostly has its lists, and Y meets Z. At times X takes a signal of Z that was none of its own.
pub fn part_and_surroundings(r: &mut Random) -> (Table, Table, Table) {
    let (first, second, third) = sizes_of_three(r);
    let (y, z) = often_going_along(r, (second, third), MEETING, &[OUTPUT_OF_BOTH]);
    let mut x = near_or_loosened(r, &y, first, 15);
    if let Some(signal) = members(z.signals() & !x.signals()).find(|_| r.percent(10)) {
        declare(&mut x, signal, Input);
        take_more(r, &mut x);
    }
    (x, y, z)
}

/// Three small tables that may be composed with each other: a signal is sent by one of them at most.
pub fn three_tables(r: &mut Random) -> [Table; 3] {
    let mut tables = [0, 1, 2].map(|_| {
        let states = r.between(1, 4);
        Table::blank(states, r.below(states), 0, 0)
    });
    let mut signals: Vec<usize> = Vec::new();
    for number in 0..signal_count(r) {
        signals.extend(free_signal(r, &signals));
        let sender = r.below(4);
        for (place, table) in tables.iter_mut().enumerate() {
            declare(table, signals[number], if place == sender { Output } else { r.pick(&[Input, Absent]) });
        }
    }
    tables.iter_mut().for_each(|table| add_steps(r, table));
    tables
}

/// States of X, Y and Z: mostly so few that X composed with Z can be compared with Y composed with Z; at times just too many for that, or for one
/// of the compositions.
fn sizes_of_three(r: &mut Random) -> (usize, usize, usize) {
    const LARGE: &[(usize, usize, usize)] = &[(8, 8, 8), (9, 8, 8), (16, 8, 8), (40, 20, 3), (64, 3, 64)];
    const TOO_LARGE: &[(usize, usize, usize)] = &[(64, 2, 65), (2_049, 2, 2), (1_366, 1, 3), (4, 65, 64), (2, 1_025, 4)];
    match r.below(1_000) {
        0..=979 => (r.between(1, 5), r.between(1, 4), r.between(1, 4)),
        980..=989 => r.pick(TOO_LARGE),
        _ => r.pick(LARGE),
    }
}

/// A table near the given one; in so many of a hundred cases its lists are loosened.
pub fn near_or_loosened(r: &mut Random, table: &Table, states: usize, percent_loosened: usize) -> Table {
    let mut near = near(r, table, states);
    if r.percent(percent_loosened) {
        loosen_lists(r, &mut near);
    }
    near
}

/// A table with the same lists that often refines the given one: unrolled from it, it takes more and sends less. Half of them are edited besides.
pub fn near(r: &mut Random, table: &Table, states: usize) -> Table {
    let mut near = unrolled(r, table, states);
    send_less(r, &mut near);
    take_more(r, &mut near);
    if r.percent(50) {
        let edits = r.between(1, 3);
        (0..edits).for_each(|_| edit(r, &mut near));
    }
    near
}

/// Draws in half of the cases again and again, 50 times at most, until the outcome suits: so what is rare becomes frequent.
pub fn drawn_until<T>(r: &mut Random, draw: impl Fn(&mut Random) -> T, suits: impl Fn(&T) -> bool) -> T {
    for _ in 1..r.pick(&[1, 50]) {
        let drawn = draw(r);
        if suits(&drawn) {
            return drawn;
        }
    }
    draw(r)
}

fn blank_pair(r: &mut Random, (first, second): Sizes, roles: &Roles, odd_roles: &Roles) -> (Table, Table) {
    let mut a = Table::blank(first, r.below(first), 0, 0);
    let mut b = Table::blank(second, r.below(second), 0, 0);
    let is_odd = r.percent(6);
    let mut signals: Vec<usize> = Vec::new();
    for place in 0..signal_count(r) {
        signals.extend(free_signal(r, &signals));
        let (to_a, to_b) = r.pick(if is_odd && place == 0 { odd_roles } else { roles });
        declare(&mut a, signals[place], to_a);
        declare(&mut b, signals[place], to_b);
    }
    (a, b)
}

/// Draws how many of the 32 signals tables have: mostly few, at times all.
fn signal_count(r: &mut Random) -> usize {
    if r.percent(4) { r.pick(&[0, 1, 31, 32]) } else { r.between(1, 6) }
}

/// Draws one of the 32 signals; where it is taken, the next that is free.
fn free_signal(r: &mut Random, taken: &[usize]) -> Option<usize> {
    let drawn = r.below(SIGNALS);
    (drawn..SIGNALS).chain(0..drawn).find(|signal| !taken.contains(signal))
}

fn declare(table: &mut Table, signal: usize, role: Role) {
    match role {
        Absent => (),
        Input => table.inputs |= 1 << signal,
        Output => table.outputs |= 1 << signal,
    }
}

/// Steps at random: many inputs and fewer outputs make tables that fit.
pub fn add_steps(r: &mut Random, table: &mut Table) {
    let (inputs, outputs) = (r.pick(&[30, 60, 85, 100]), r.pick(&[10, 25, 50, 90]));
    let near = r.percent(30);
    for state in 0..table.states {
        for signal in members(table.signals()) {
            if r.percent(if has(table.inputs, signal) { inputs } else { outputs }) {
                let to = if near { (state + 1) % table.states } else { r.below(table.states) };
                table.set_step(state, signal, to);
            }
        }
    }
}

/// Gives the plan steps that keep pace with the module: each plan state stands for a module state.
fn go_along(r: &mut Random, module: &Table, plan: &mut Table) {
    let mut stands_for: Vec<usize> = (0..plan.states).map(|_| r.below(module.states)).collect();
    stands_for[plan.initial] = module.initial;
    let keen = r.pick(&[70, 90, 100]);
    for state in 0..plan.states {
        for signal in members(plan.signals()) {
            let known = has(module.signals(), signal);
            let next = if known { module.step(stands_for[state], signal) } else { Some(stands_for[state]) };
            let Some(next) = next else { continue };
            if r.percent(if has(module.outputs, signal) { keen } else { 60 }) {
                let to = (0..plan.states).filter(|&to| stands_for[to] == next).last();
                plan.set_step(state, signal, to.unwrap_or_else(|| r.below(plan.states)));
            }
        }
    }
}

/// A table with the same behaviour: each state stands for one of the other table's, and each step goes to any state that stands for its target.
fn unrolled(r: &mut Random, table: &Table, states: usize) -> Table {
    let initial = table.initial.min(states - 1);
    let mut copy = Table::blank(states, initial, table.inputs, table.outputs);
    let copies = states.div_ceil(table.states);
    for state in 0..states {
        for signal in members(table.signals()) {
            if let Some(to) = table.step(state % table.states, signal) {
                copy.set_step(state, signal, (to + r.below(copies) * table.states) % states);
            }
        }
    }
    copy
}

pub fn send_less(r: &mut Random, table: &mut Table) {
    for state in 0..table.states {
        for signal in members(table.outputs) {
            if r.percent(20) {
                table.clear_step(state, signal);
            }
        }
    }
}

pub fn take_more(r: &mut Random, table: &mut Table) {
    for state in 0..table.states {
        for signal in members(table.inputs) {
            if table.step(state, signal).is_none() && r.percent(30) {
                let to = r.below(table.states);
                table.set_step(state, signal, to);
            }
        }
    }
}

/// Lists may differ lawfully: an output is given up, a new input is taken. The new input may be the old output: refinement does not mind.
fn loosen_lists(r: &mut Random, table: &mut Table) {
    let given_up = members(table.outputs).find(|_| r.percent(40));
    if let Some(signal) = given_up {
        table.outputs &= !(1 << signal);
        (0..table.states).for_each(|state| table.clear_step(state, signal));
    }
    let new = given_up.filter(|_| r.percent(50)).unwrap_or(r.below(SIGNALS));
    if !has(table.signals(), new) {
        declare(table, new, Input);
        take_more(r, table);
    }
}

/// One step of a declared signal is set or taken away, whatever stood there.
fn edit(r: &mut Random, table: &mut Table) {
    let declared: Vec<usize> = members(table.signals()).collect();
    if declared.is_empty() {
        return;
    }
    let (state, signal) = (r.below(table.states), r.pick(&declared));
    if r.percent(50) {
        table.clear_step(state, signal);
    } else {
        let to = r.below(table.states);
        table.set_step(state, signal, to);
    }
}

/// Gives the second table an input, or the first an output, that the other lacks.
fn break_lists(r: &mut Random, x: &mut Table, y: &mut Table) {
    let signal = r.below(SIGNALS);
    if has(x.signals() | y.signals(), signal) {
        return;
    }
    if r.percent(50) {
        declare(y, signal, Input);
    } else {
        declare(x, signal, Output);
    }
}

/// Damages a table in a way of refusals 1 to 6; several ways may meet in one table.
pub fn damage(r: &mut Random, table: &mut Table) {
    match r.below(10) {
        0 => wrong_states(r, table),
        1 => table.initial = table.states.saturating_add(r.pick(&[0, 1, 65_536, 1 << 32])),
        2 => share_signal(r, table),
        3 => wrong_cells(r, table),
        _ => bad_cells(r, table),
    }
}

fn wrong_states(r: &mut Random, table: &mut Table) {
    table.states = r.pick(&[0, 4_097, 4_098, 65_536, 1 << 32, 1 << 59, usize::MAX, table.states.wrapping_add(1 << 32)]);
    if table.states == 4_097 && r.percent(50) {
        table.cells = vec![NO_STEP; table.states * SIGNALS];
    }
}

fn share_signal(r: &mut Random, table: &mut Table) {
    let signal = r.below(SIGNALS);
    declare(table, signal, Input);
    declare(table, signal, Output);
}

fn wrong_cells(r: &mut Random, table: &mut Table) {
    let length = table.cells.len();
    table.cells.resize(r.pick(&[0, length / 2, length.saturating_sub(1), length + 1, length + SIGNALS]), NO_STEP);
}

/// One cell is bad or several are: by 5, by 6, or some by each.
fn bad_cells(r: &mut Random, table: &mut Table) {
    let strays = r.pick(&[0, 50, 100]);
    for _ in 0..r.pick(&[1, 1, 2, 3, 6]) {
        if r.percent(strays) {
            stray_step(r, table);
        } else {
            undeclared_step(r, table);
        }
    }
}

/// A step to a state that does not exist, for any signal.
fn stray_step(r: &mut Random, table: &mut Table) {
    let least = table.states.min(65_534);
    let anywhere = r.between(least, 65_534);
    let value = r.pick(&[least, (least + 1).min(65_534), 65_534, anywhere]);
    if let Some(cell) = any_cell(r, table) {
        *cell = u16::try_from(value).expect("a cell is a 16-bit number");
    }
}

/// A step to a state that exists, for any signal: mostly an undeclared one.
fn undeclared_step(r: &mut Random, table: &mut Table) {
    let to = r.below(table.states.clamp(1, 4_096)) as u16;
    if let Some(cell) = any_cell(r, table) {
        *cell = to;
    }
}

/// Any cell, at times the last one; a table may have none.
fn any_cell<'t>(r: &mut Random, table: &'t mut Table) -> Option<&'t mut u16> {
    let last = table.cells.len().checked_sub(1)?;
    let place = if r.percent(30) { last } else { r.between(0, last) };
    table.cells.get_mut(place)
}

/// Two tables whose rounds are as many as their pairs: outputs lead along a chain into an illegal pair.
pub fn chain(length: usize) -> (Table, Table) {
    let mut a = Table::blank(length, 0, 0, 0b11);
    for state in 0..length - 1 {
        a.set_step(state, 0, state + 1);
    }
    a.set_step(length - 1, 1, 0);
    (a, Table::blank(1, 0, 0b10, 0))
}

/// What the first table of a chain almost refines: its last state sends what this one does not, so the pairs fall one by one.
pub fn chain_allowed() -> Table {
    let mut table = Table::blank(1, 0, 0, 0b11);
    table.set_step(0, 0, 0);
    table
}

/// A module and a plan with verdict yes and so many steps that the sequencer's text comes near its limit, or beyond it.
pub fn busy_module_and_plan(r: &mut Random) -> (Table, Table) {
    let own = r.between(1, 6);
    let mut module = Table::blank(r.between(24, 32), 0, 0b01, 0b10);
    let mut plan = Table::blank(r.between(24, 32), 0, 0, (1 << (own + 2)) - 1);
    add_steps(r, &mut module);
    for state in 0..plan.states {
        for signal in members(plan.outputs) {
            let to = r.below(plan.states);
            plan.set_step(state, signal, to);
        }
    }
    (module, plan)
}

/// A table of one-letter signals whose text, with a name of `spare + 1` bytes, has exactly so many bytes.
pub fn table_of_text_length(length: usize) -> (Table, usize) {
    const STATES: usize = 999;
    const LETTERS: usize = 26;
    let mut table = Table::blank(STATES, 0, (1 << LETTERS) - 1, 0);
    let mut spare = length - "table\tx\t999\t0\n".len() - LETTERS * "in\ta\n".len();
    for place in 0..STATES * LETTERS {
        let (state, signal) = (place / LETTERS, place % LETTERS);
        let to = (place * 7) % STATES;
        let line = format!("step\t{state}\ta\t{to}\n").len();
        if line > spare {
            break;
        }
        spare -= line;
        table.set_step(state, signal, to);
    }
    (table, spare)
}
