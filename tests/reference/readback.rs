//! Text that the archive writes and prints, read again by it; and what its readings of the same lines have to do with each other. The reference is
//! not asked.

use crate::answers::{fit, meets, sequencer, verdict, Answer};
use crate::cases::Cases;
use crate::compare_readings::NAME_BYTES;
use crate::compare_texts::{random_writing, shown, Writing, REPORT_BYTES};
use crate::program::{Buffers, PROGRAM};
use crate::properties::{ask_for_use, confirm, hold, Held, Property};
use crate::random::Random;
use crate::random_tables::module_and_plan;
use crate::random_texts::{borrowed, busy_texts, spelled_pair, split, text_pair};
use crate::renumber::{self, Numbers};
use crate::reply::Reply;
use crate::table::{members, Table, SIGNALS};
use crate::tally::Tally;
use crate::text::{Rule, MOST_BYTES};
use crate::{archive, properties_of_sequencers};

const WRITTEN: Property = ("written: read again it is the same table", 15);
const WRITTEN_NAMES: Property = ("written: read again its signals have the same names", 80);
const WRITTEN_AGAIN: Property = ("written: read and written again it is the same text", 15);

const MODULE_ALONE: Property = ("read: the module is read alone as together with the plan", 4);
const PLAN_ALONE: Property = ("read: the plan is read alone as together with the module, name for name", 30);
const ANY_ORDER: Property = ("read: the order of the steps does not matter", 4);

const READING_REFUSED: Property = ("printed: a refused reading, in its words", 30);
const MAKER_REFUSED: Property = ("printed: 8 or 9, as the maker says", 200);
const MANY_PAIRS: Property = ("printed: 10, for more than 1,024 pairs", 200);
const LONG_TEXT: Property = ("printed: 23, where the writer says so", 200);
const COUNTS: Property = ("printed: six lines that say what the maker answers", 4);
const NO_TEXT: Property = ("printed: nothing but six lines where there is no sequencer", 50);
const AS_WRITTEN: Property = ("printed: the text that the writer makes of the sequencer", 40);
const SAME_NAMES: Property = ("printed: read with the module, signals with the names and numbers of before", 40);
const SAME_TABLE: Property = ("printed: read with the module, the sequencer that the maker returns", 5);
const FITS: Property = ("printed: read with the module, a sequencer that fits it", 5);
const MEETS: Property = ("printed: read with the module, a sequencer that meets the plan", 20);
const MEETS_AFTER_DROPS: Property = ("printed: the same with pairs dropped and a step from its first state", 10);

const ALL: &[Property] = &[
    WRITTEN, WRITTEN_NAMES, WRITTEN_AGAIN, MODULE_ALONE, PLAN_ALONE, ANY_ORDER, READING_REFUSED, MAKER_REFUSED, MANY_PAIRS, LONG_TEXT, COUNTS,
    NO_TEXT, AS_WRITTEN, SAME_NAMES, SAME_TABLE, FITS, MEETS, MEETS_AFTER_DROPS,
];

/// In so many of a hundred cases names are looked up, which takes a while: a lookup reads the texts.
const LOOKED_UP: usize = 20;

pub fn run(cases: &Cases, tally: &mut Tally) {
    ask_for_use(cases, tally, ALL);
    cases.run(tally, |r, tally| if r.percent(45) { try_writing(r, tally) } else { try_pair(r, tally) });
}

fn try_writing(r: &mut Random, tally: &mut Tally) {
    let writing = random_writing(r);
    let held = try_written(r, tally, &writing);
    tally.check(held.is_ok(), || format!("{}\n  {}", held.err().unwrap_or_default(), writing.shown()));
}

/// Reads again what the writer wrote: the declared signals, lowest first, get the numbers from 0 on.
fn try_written(r: &mut Random, tally: &mut Tally, writing: &Writing) -> Held {
    let (table, name, names) = writing.parts();
    let Some(text) = write(table, name, &names) else { return Ok(()) };
    let declared: Vec<usize> = members(table.signals()).collect();
    let declared_names: Vec<&[u8]> = declared.iter().map(|&signal| names[signal]).collect();
    let Ok(again) = read_alone(&text, table.cells.len()) else { return hold(tally, WRITTEN, false) };
    let same_table = renumber::table(&again, &Numbers::unchanged(), &Numbers::of_signals(declared)) == *table;
    hold(tally, WRITTEN, same_table)?;
    if r.percent(LOOKED_UP) {
        hold(tally, WRITTEN_NAMES, names_of(&again, &text, None) == declared_names)?;
    }
    hold(tally, WRITTEN_AGAIN, write(&again, name, &declared_names).as_ref() == Some(&text))
}

/// The text that the writer makes, or nothing where it refuses.
fn write(table: &Table, name: &[u8], names: &[&[u8]]) -> Option<Vec<u8>> {
    let mut text = vec![0; MOST_BYTES];
    let reply = archive::write(table, name, names, &mut text);
    text.truncate(reply.value);
    (reply.number == 0).then_some(text)
}

/// Reads a text into so many cells.
fn read_alone(text: &[u8], room: usize) -> Result<Table, Reply> {
    let mut cells = vec![0; room];
    let reply = archive::read_alone(Rule::Folded, text, &mut cells);
    let Reply { number, states, initial, inputs, outputs, .. } = reply;
    cells.truncate(states * SIGNALS);
    if number == 0 { Ok(Table { states, initial, inputs, outputs, cells }) } else { Err(reply) }
}

/// Reads two texts together into so many cells.
fn read_together([module, plan]: [&[u8]; 2], [room, room_2]: [usize; 2]) -> Result<[Table; 2], Reply> {
    let (mut cells, mut cells_2) = (vec![0; room], vec![0; room_2]);
    let reply = archive::read_together(Rule::Folded, module, plan, &mut cells, &mut cells_2);
    let Reply { number, states, initial, inputs, outputs, states_2, initial_2, inputs_2, outputs_2, .. } = reply;
    cells.truncate(states * SIGNALS);
    cells_2.truncate(states_2 * SIGNALS);
    let first = Table { states, initial, inputs, outputs, cells };
    let second = Table { states: states_2, initial: initial_2, inputs: inputs_2, outputs: outputs_2, cells: cells_2 };
    if number == 0 { Ok([first, second]) } else { Err(reply) }
}

/// The names of all signals of two texts, or of one alone, by number; the last table that was read declares them, or all but the module's.
fn names_of(last: &Table, module: &[u8], plan: Option<&[u8]>) -> Vec<Vec<u8>> {
    let name = |signal: usize| {
        let mut name = vec![0; NAME_BYTES];
        let reply = archive::name(Rule::Folded, module, plan, signal, &mut name);
        name.truncate(reply.value);
        name
    };
    members(last.signals()).map(name).collect()
}

/// Mostly sound texts, small enough that the module composed with the sequencer can be compared with the plan; some of more than 1,024 pairs.
fn random_texts(r: &mut Random) -> (Vec<u8>, Vec<u8>) {
    match r.below(100) {
        0..=74 => {
            let tables = properties_of_sequencers::draw(r).into();
            spelled_pair(r, &tables)
        }
        75..=77 => {
            let sizes = (r.between(33, 64), r.between(32, 64));
            let tables = module_and_plan(r, sizes);
            spelled_pair(r, &tables)
        }
        78..=81 => busy_texts(r),
        _ => text_pair(r),
    }
}

fn try_pair(r: &mut Random, tally: &mut Tally) {
    let (module, plan) = random_texts(r);
    let held = try_texts(r, tally, &module, &plan);
    tally.check(held.is_ok(), || format!("{}\n  {}\n  {}", held.err().unwrap_or_default(), shown(&module), shown(&plan)));
}

fn try_texts(r: &mut Random, tally: &mut Tally, module: &[u8], plan: &[u8]) -> Held {
    let printed = report(r, module, plan);
    match read_together([module, plan], [PROGRAM.module_cells, PROGRAM.plan_cells]) {
        Ok(tables) => {
            try_again(r, tally, [module, plan], &tables)?;
            try_printed(r, tally, [module, plan], &tables, &printed)
        }
        Err(Reply { number, table, line, .. }) => {
            hold(tally, READING_REFUSED, printed == format!("refused\t{table}\t{number}\t{line}\n").as_bytes())
        }
    }
}

fn report(r: &mut Random, module: &[u8], plan: &[u8]) -> Vec<u8> {
    let mut printed = vec![0; REPORT_BYTES];
    let length = archive::report(module, plan, &mut Buffers::arbitrary(r, &PROGRAM), &mut printed);
    printed.truncate(length);
    printed
}

/// What is read together is read alike alone, where the plan's signals have other numbers, and with its steps in another order.
fn try_again(r: &mut Random, tally: &mut Tally, texts: [&[u8]; 2], together: &[Table; 2]) -> Held {
    let ([module, plan], [first, second]) = (texts, together);
    let rooms = [first.cells.len(), second.cells.len()];
    hold(tally, MODULE_ALONE, read_alone(module, rooms[0]).as_ref() == Ok(first))?;
    let shuffled = read_together([&shuffle_steps(r, module), &shuffle_steps(r, plan)], rooms);
    hold(tally, ANY_ORDER, shuffled.as_ref() == Ok(together))?;
    if r.percent(LOOKED_UP) {
        let alone = read_alone(plan, rooms[1]).ok();
        hold(tally, PLAN_ALONE, alone.and_then(|alone| with_numbers_of_both(&alone, texts, second)).as_ref() == Some(second))?;
    }
    Ok(())
}

/// The plan, read alone, with the numbers that its signals have together with the module's; nothing where a name is missing.
fn with_numbers_of_both(alone: &Table, [module, plan]: [&[u8]; 2], together: &Table) -> Option<Table> {
    let numbers: Vec<usize> = members(together.signals()).collect();
    let names = names_of(together, module, Some(plan));
    let number = |name: &Vec<u8>| Some(numbers[names.iter().position(|other| other == name)?]);
    let new: Option<Vec<usize>> = names_of(alone, plan, None).iter().map(number).collect();
    Some(renumber::table(alone, &Numbers::unchanged(), &Numbers::of_signals(new?)))
}

/// The text with its steps, which are its last lines, in another order.
fn shuffle_steps(r: &mut Random, text: &[u8]) -> Vec<u8> {
    let mut lines = split(text);
    let first = lines.iter().position(|line| line.starts_with(b"step")).unwrap_or(lines.len());
    r.shuffle(&mut lines[first..]);
    lines.concat()
}

/// What is printed for two texts that can be read.
fn try_printed(r: &mut Random, tally: &mut Tally, texts: [&[u8]; 2], tables: &[Table; 2], printed: &[u8]) -> Held {
    let made = sequencer(&tables[0], &tables[1]);
    let refused_by = |number: u32| printed == format!("refused\t0\t{number}\t0\n").as_bytes();
    if made.reply.number != 0 {
        return hold(tally, MAKER_REFUSED, refused_by(made.reply.number));
    }
    if made.reply.states > PROGRAM.flags {
        return hold(tally, MANY_PAIRS, refused_by(10));
    }
    if refused_by(23) {
        let names = names_of(&tables[1], texts[0], Some(texts[1]));
        return hold(tally, LONG_TEXT, made.reply.yes && write(&made.table(), b"sequencer", &borrowed(&names)).is_none());
    }
    let six_lines = six_lines(&made);
    hold(tally, COUNTS, printed.starts_with(&six_lines))?;
    let text = &printed[six_lines.len()..];
    if made.reply.yes { try_text(r, tally, texts, tables, &made, text) } else { hold(tally, NO_TEXT, text.is_empty()) }
}

/// The printed sequencer, read with the module. Every signal of the module is the plan's too, so the plan's names are all there are.
fn try_text(r: &mut Random, tally: &mut Tally, texts: [&[u8]; 2], [module, plan]: &[Table; 2], made: &Answer, text: &[u8]) -> Held {
    let read = read_together([texts[0], text], [module.cells.len(), made.cells.len()]);
    let Ok([same_module, same]) = read else { return hold(tally, SAME_TABLE, false) };
    hold(tally, SAME_TABLE, same_module == *module && same == made.table())?;
    if r.percent(LOOKED_UP) {
        let names = names_of(plan, texts[0], Some(texts[1]));
        hold(tally, AS_WRITTEN, write(&made.table(), b"sequencer", &borrowed(&names)).as_deref() == Some(text))?;
        hold(tally, SAME_NAMES, names_of(&same, texts[0], Some(text)) == names)?;
    }
    confirm(tally, FITS, verdict(&fit(module, &same).reply))?;
    confirm(tally, if made.drops_pairs_and_moves() { MEETS_AFTER_DROPS } else { MEETS }, meets(module, &same, plan))
}

/// The lines that stand before the text, from what the maker answers and what the archive counts in it.
fn six_lines(made: &Answer) -> Vec<u8> {
    let table = made.table();
    let kept = archive::count_kept(&made.flags);
    let (steps, ends) = (archive::count_steps(table.states, &table.cells), archive::count_ends(&table, &made.flags));
    let verdict = if made.reply.yes { "yes" } else { "none" };
    let (pairs, rounds) = (table.states, made.reply.value);
    format!("verdict\t{verdict}\npairs\t{pairs}\nkept\t{kept}\nrounds\t{rounds}\nsteps\t{steps}\nends\t{ends}\n").into_bytes()
}
