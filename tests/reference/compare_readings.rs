//! The readings of table text, by S-9's rule and by document 01's, with the lookups of both, and the listing of clashes: the library against the
//! reference; and what the library's own answers have to do with each other.

use crate::compare_texts::{headline, outcome, shown};
use crate::lent::Lent;
use crate::program::{refusal_line, PROGRAM};
use crate::random::Random;
use crate::random_texts::text_pair;
use crate::reply::Reply;
use crate::table::{NO_STEP, SIGNALS};
use crate::tally::Tally;
use crate::text::Rule;
use crate::{archive, lister, spellings, text};

pub const NAME_BYTES: usize = 16;

/// A plan that declares nothing: beside it a text is read together as it is read alone.
const BARE_PLAN: &[u8] = b"table\tbare\t1\t0\n";

/// Two texts, or one alone beside a bare plan, and the cells that are lent for them.
struct Given {
    is_alone: bool,
    module: Vec<u8>,
    plan: Vec<u8>,
    cells: Cells,
}

#[derive(Clone, PartialEq)]
struct Cells {
    module: Lent<u16>,
    plan: Lent<u16>,
}

/// What a reading answers, and what it leaves in the cells.
#[derive(PartialEq)]
struct Answer {
    reply: Reply,
    cells: Cells,
}

impl Cells {
    fn difference(&self, other: &Cells) -> [Option<String>; 2] {
        [self.module.difference(&other.module), self.plan.difference(&other.plan)]
    }
}

impl Given {
    fn read_by_reference(&self, rule: Rule) -> Answer {
        let mut cells = self.cells.clone();
        let outcome = if self.is_alone {
            text::read_alone(rule, &self.module, cells.module.part())
        } else {
            text::read_together(rule, &self.module, &self.plan, cells.module.part(), cells.plan.part())
        };
        Answer { reply: Reply::of(outcome), cells }
    }

    fn read_by_library(&self, rule: Rule) -> Answer {
        let mut cells = self.cells.clone();
        let reply = if self.is_alone {
            archive::read_alone(rule, &self.module, cells.module.part())
        } else {
            archive::read_together(rule, &self.module, &self.plan, cells.module.part(), cells.plan.part())
        };
        Answer { reply, cells }
    }

    /// What the library's answers have to do with each other, whatever the texts are. Texts that the archive reading takes are read alike by S-9's
    /// rule if nothing is listed; else they are refused by 28 at the later name of the first line listed. What the archive reading refuses is listed
    /// as its refusal alone, and S-9's rule refuses it alike, or by 28 at an earlier line, or at the very line of a 21.
    fn agree(&self, folded: &Answer, exact: &Answer, listing: &[u8]) -> bool {
        let place = |reply: &Reply| (reply.table as usize, reply.line);
        let is_clash = folded.reply.number == 28 && self.is_without_steps(&folded.cells);
        if exact.reply.number == 0 {
            return match spellings::rows(listing).as_deref() {
                Some([]) => folded == exact,
                Some([[file, line, ..], ..]) => is_clash && place(&folded.reply) == (*file, *line),
                None => false,
            };
        }
        let is_in_time = place(&folded.reply) < place(&exact.reply) || exact.reply.number == 21 && place(&folded.reply) == place(&exact.reply);
        listing == refusal_line(&exact.reply) && (folded == exact || is_clash && is_in_time)
    }

    /// Whether the cells of every text that was to be read are without steps.
    fn is_without_steps(&self, cells: &Cells) -> bool {
        let are_blank = |lent: &Lent<u16>| lent.clone().part().iter().all(|&cell| cell == NO_STEP);
        are_blank(&cells.module) && (self.is_alone || are_blank(&cells.plan))
    }

    /// The plan's text, where it is read.
    fn plan(&self) -> Option<&[u8]> {
        (!self.is_alone).then_some(&self.plan)
    }

    fn shown(&self) -> String {
        let lent = (self.cells.module.len(), self.cells.plan.len());
        format!("{lent:?} cells lent\n  {}\n  {:?}", shown(&self.module), self.plan().map(shown))
    }
}

pub fn compare_alone(tally: &mut Tally, r: &mut Random) {
    let (module, plan) = text_pair(r);
    let module = if r.percent(50) { module } else { plan };
    let room = room_to_lend(r, &module);
    compare_reading(tally, r, (&module, room), None);
}

pub fn compare_together(tally: &mut Tally, r: &mut Random) {
    let (module, plan) = text_pair(r);
    let rooms = (room_to_lend(r, &module), room_to_lend(r, &plan));
    compare_reading(tally, r, (&module, rooms.0), Some((&plan, rooms.1)));
}

/// Reads two texts together, or one alone, each with so many cells lent, and lists their clashes.
pub fn compare_reading(tally: &mut Tally, r: &mut Random, (module, room): (&[u8], usize), plan: Option<(&[u8], usize)>) {
    let is_alone = plan.is_none();
    let (plan, plan_room) = plan.unwrap_or((BARE_PLAN, SIGNALS));
    let cells = Cells { module: Lent::arbitrary(r, room), plan: Lent::arbitrary(r, plan_room) };
    compare(tally, r, &Given { is_alone, module: module.to_vec(), plan: plan.to_vec(), cells });
}

/// Cells to lend: mostly as many as the text's first line seems to ask for, else fewer or more.
pub fn room_to_lend(r: &mut Random, text: &[u8]) -> usize {
    let field = text.split(|&byte| byte == b'\t').nth(2).unwrap_or(b"");
    let states: usize = std::str::from_utf8(field).ok().and_then(|digits| digits.parse().ok()).unwrap_or(0);
    let asked = states.clamp(1, 4_097) * SIGNALS;
    let enough = r.pick(&[asked, asked, asked + 1, asked + 77, asked.max(PROGRAM.cells)]);
    if r.percent(10) { r.pick(&[0, asked / 2, asked - SIGNALS, asked - 1]) } else { enough }
}

fn compare(tally: &mut Tally, r: &mut Random, given: &Given) {
    let call = if given.is_alone { "alone" } else { "together" };
    let expected = [Rule::Folded, Rule::Exact].map(|rule| given.read_by_reference(rule));
    let actual = [Rule::Folded, Rule::Exact].map(|rule| given.read_by_library(rule));
    for (name, expected, actual) in [(call, &expected[0], &actual[0]), (archived(call).as_str(), &expected[1], &actual[1])] {
        tally.saw(&outcome(name, &expected.reply));
        tally.check(expected == actual, || {
            let (given, cells) = (given.shown(), expected.cells.difference(&actual.cells));
            format!("read {name}, {given}\n  expected {:?}\n  is       {:?}\n  cells {cells:?}", expected.reply, actual.reply)
        });
    }
    let [folded, exact] = &expected;
    spellings::record_reading(tally, call, &given.module, given.plan(), &folded.reply, &exact.reply);
    if let Some(listing) = compare_listing(tally, r, given, &folded.reply) {
        let [folded, exact] = &actual;
        tally.check(given.agree(folded, exact, &listing), || {
            let (given, folded, exact, listing) = (given.shown(), folded.reply, exact.reply, shown(&listing));
            format!("{call}, the two rules and the listing, {given}\n  {folded:?}\n  archive {exact:?}\n  {listing}")
        });
    }
}

/// How the counterpart of a call that keeps document 01's rule, for the archive reading, is named here.
pub fn archived(call: &str) -> String {
    format!("archive {call}")
}

/// The library's listing of the two texts, as a whole; nothing where it was lent too few bytes for it.
fn compare_listing(tally: &mut Tally, r: &mut Random, given: &Given, folded: &Reply) -> Option<Vec<u8>> {
    let (mut expected, mut actual) = (given.cells.clone(), given.cells.clone());
    let text = lister::list(&given.module, &given.plan, expected.module.part(), expected.plan.part());
    let room = if r.percent(20) { r.below(text.len() + 1) } else { text.len() + r.pick(&[0, 1, 500]) };
    let mut expected_out: Lent<u8> = Lent::arbitrary(r, room);
    let mut out = expected_out.clone();
    let end = put(expected_out.part(), &text);
    let length = archive::list(&given.module, &given.plan, actual.module.part(), actual.plan.part(), out.part());
    if text.starts_with(b"refused") {
        tally.saw(&format!("list: {}", headline(&text)));
    }
    spellings::record_listing(tally, &given.module, &given.plan, &text, folded);
    tally.check(length == end && out == expected_out && actual == expected, || {
        let (given, text, cells, bytes) = (given.shown(), shown(&text), expected.difference(&actual), expected_out.difference(&out));
        format!("list, {room} bytes lent, {given}\n  expected {end}: {text}\n  is       {length}\n  bytes {bytes:?}\n  cells {cells:?}")
    });
    (length <= room).then(|| out.part()[..length].to_vec())
}

/// Puts the text into the bytes as far as there is room; where it ends, or one more than the room where there is too little.
fn put(out: &mut [u8], text: &[u8]) -> usize {
    let room = out.len();
    out.iter_mut().zip(text).for_each(|(to, byte)| *to = *byte);
    if text.len() <= room { text.len() } else { room + 1 }
}

pub fn compare_names(tally: &mut Tally, r: &mut Random) {
    let (module, plan) = text_pair(r);
    let plan = r.percent(70).then_some(plan);
    compare_some_lookups(tally, r, &module, plan.as_deref());
}

/// Looks up every signal number in a quarter of the cases, else a few, as a lookup reads all again.
pub fn compare_some_lookups(tally: &mut Tally, r: &mut Random, module: &[u8], plan: Option<&[u8]>) {
    let all = looked_up();
    let signals = if r.percent(25) { all } else { (0..6).map(|_| r.pick(&all)).collect() };
    compare_lookups_of(tally, r, (module, plan), &signals);
}

/// Looks up every signal number.
pub fn compare_lookups(tally: &mut Tally, r: &mut Random, module: &[u8], plan: Option<&[u8]>) {
    compare_lookups_of(tally, r, (module, plan), &looked_up());
}

/// Every signal number, one more, and some that are far too large.
fn looked_up() -> Vec<usize> {
    (0..=SIGNALS).chain([64, 65_536, 1 << 32, usize::MAX]).collect()
}

/// Looks up these signal numbers by both rules.
fn compare_lookups_of(tally: &mut Tally, r: &mut Random, (module, plan): (&[u8], Option<&[u8]>), signals: &[usize]) {
    for (name, rule) in [("name", Rule::Folded), (archived("name").as_str(), Rule::Exact)] {
        for &signal in signals {
            let mut expected: Lent<u8> = Lent::arbitrary(r, NAME_BYTES);
            let mut actual = expected.clone();
            let reply = look_up(rule, module, plan, signal, expected.part());
            let answer = archive::name(rule, module, plan, signal, actual.part());
            tally.saw(&outcome(name, &reply));
            tally.check(reply == answer && expected == actual, || {
                let (module, plan) = (shown(module), plan.map(shown));
                format!("{name} of {signal}\n  {module}\n  {plan:?}\n  expected {reply:?}\n  is       {answer:?}")
            });
            // Where the reading is refused, every lookup says the same.
            if reply.number != 0 && reply.number != 12 {
                break;
            }
        }
    }
}

fn look_up(rule: Rule, module: &[u8], plan: Option<&[u8]>, signal: usize, out: &mut [u8]) -> Reply {
    match text::name(rule, module, plan, signal) {
        Ok(name) => {
            out[..name.len()].copy_from_slice(&name);
            Reply { value: name.len(), ..Reply::default() }
        }
        Err(number) => Reply { number, ..Reply::default() },
    }
}
