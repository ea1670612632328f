#!/usr/bin/env python3
"""Feeds tests/contracts.py contracts that leave something open, and wants each found; and contracts that do not, in which it finds nothing. The exit
status says so."""
import os
import sys
import tempfile

from contracts import faults_of, fields_of, looked_at, second_meanings
from verdict import tell

RESULT = "does not say by an equation what result is"
BYTES = "does not say by an equation what result.now is"
PLACE = "does not say by an equation what result.ref_ptr is"
FLAGS = "does not say by an equation what stands in flags at exit"
RECORD = "does not say by an equation what stands in follower at exit"
ASKS = "asks something of its caller"
CALLED_RESULT = "has a parameter that is called like the result"

NUMBER = "pub fn f(a: usize) -> usize"
FILL = "pub fn f(flags: &mut [u8])"
PART = "pub fn f<'a>(s: &'a [u8], at: usize) -> &'a [u8]"
BOTH = "pub fn f(cells: &mut [u16], flags: &mut [u8])"
LENT = "pub fn f(follower: &mut Follower)"
WIDER = "pub fn f(follower: &mut Wider)"
ARRAY = "pub fn f(flags: &mut [u8; 4])"
NAMES = "pub fn f<'a>(flags: &'a mut [&'a [u8]])"

# Each has a signature, its clauses, and the faults that are to be found.
CONTRACTS = [
    (NUMBER, ["ensures { result ≡ a + 1 }"], []),
    (NUMBER, ["ensures { (result ≡ a + 1) × (result ≤ 9) }"], []),
    (NUMBER, ["ensures named { result ≡ any 32 (λ (x : ℕ). has a x) }"], []),
    (NUMBER, [], [RESULT]),
    (NUMBER, ["requires { a < 9 }", "ensures { result ≡ a + 1 }"], [ASKS]),
    (NUMBER, ["ensures { result ≡ result }"], [RESULT]),
    (NUMBER, ["ensures { result ≡ (λ x. x) result }"], [RESULT]),
    (NUMBER, ["ensures { result ≡ «result» }"], [RESULT]),
    (NUMBER, ["ensures { result ≡ min a result }"], [RESULT]),
    (NUMBER, ["ensures { result ≤ a }"], [RESULT]),
    (NUMBER, ["ensures { a < 9 → result ≡ a + 1 }"], [RESULT]),
    (NUMBER, ["ensures { (result ≡ a) ⊎ (result ≡ 0) }"], [RESULT]),
    (NUMBER, ["ensures { result ≡ a ⊎ Unit }"], [RESULT]),
    (NUMBER, ["ensures { Σ (x : ℕ) × (result ≡ x) }"], [RESULT]),
    (NUMBER, ["ensures { (x : ℕ) → (result ≡ x) × (x ≤ a) }"], [RESULT]),
    (NUMBER, ["ensures { result.0 ≡ a }"], [RESULT]),
    (NUMBER, ["ensures { λ x. result ≡ x }"], [RESULT]),
    ("pub fn f(result: bool) -> usize", ["ensures { result ≡ ltb 5 a }"], [CALLED_RESULT, RESULT]),
    (FILL, ["ensures { flags.new ≡ filled flags.old }"], []),
    (FILL, ["ensures { flags.new ≡ flags.new }"], [FLAGS]),
    (FILL, ["ensures { flags.new ≡ take (length flags.old) flags.new }"], [FLAGS]),
    (FILL, ["ensures { length flags.new ≡ length flags.old }"], [FLAGS]),
    (FILL, ["ensures { flags.new ≡ at_end flags }"], [FLAGS]),
    (FILL, ["ensures { flags.new ≡ f result }"], [FLAGS]),
    (FILL, ["ensures { flags.new ≡ filled flags.now }"], [FLAGS]),
    (FILL, ["ensures { flags.new ≡ filled flags.exit.now }"], [FLAGS]),
    (FILL, ["ensures* { flags.new ≡ filled flags.old }"], [FLAGS]),
    (FILL, ["ensures { flags.new ≡ filled flags.old }\n    ghost rest { rest }"], [FLAGS]),
    (FILL, ["requires* named { length flags.old ≡ 4 }", "ensures { flags.new ≡ filled flags.old }"], [ASKS]),
    (ARRAY, ["ensures { Unit {0} }"], [FLAGS]),
    (ARRAY, ["ensures { flags.new ≡ replicate 4 0 }"], []),
    (NAMES, ["ensures { Unit {0} }"], [FLAGS]),
    (BOTH, ["ensures { (cells.new, flags.new) ≡ rooms cells.old }"], []),
    (BOTH, ["ensures { cells.new ≡ rooms cells.old }"], [FLAGS]),
    (BOTH, ["ensures { cells.new ≡ g }", "ensures { flags.new ≡ h cells.new }"], [FLAGS]),
    (PART, ["ensures { result.now ≡ drop at s.now }", "ensures { result.ref_ptr ≡ forward s.entry.ref_ptr at }"], []),
    (PART, ["ensures { result.now ≡ drop at s.now }"], [PLACE]),
    (PART, ["ensures { result.now ≡ drop at s.now }", "ensures { result.ref_ptr ≡ result.ref_ptr }"], [PLACE]),
    (PART, ["ensures { result.now ≡ drop at s.now }", "ensures { result.ref_ptr.0 ≡ s.entry.ref_ptr.0 }"], [PLACE]),
    (PART, ["ensures { result.ref_ptr ≡ s.entry.ref_ptr }"], [BYTES]),
    (PART, ["ensures { result.now ≡ drop at s.now }", "ensures { result.ref_ptr ≡ forward s at }"], [PLACE]),
    (PART, ["ensures { result ≡ result_of s.now }"], [BYTES, PLACE]),
    (LENT, ["ensures { follower.new.state ≡ 0 }"], []),
    (LENT, ["ensures { follower.new.other ≡ 0 }"], [RECORD]),
    (WIDER, ["ensures { follower.new.state ≡ 0 }"], [RECORD]),
]

# A contract of another form, by the words that stand for the equation: they have to be all of a statement, or its beginning.
WORDS = "Reads result buf.old"
OTHERWISE = [
    ("Reads result buf.old buf.new", []),
    ("Reads result buf.old buf.new → Unit {0}", [RESULT]),
    ("length (Reads result buf.old buf.new) ≡ 0", [RESULT]),
]

# The root of a crate, which has a method, two functions of traits, and a private type.
ROOT = """pub enum Rule {
    First = 1,
}

impl Rule {
    // Gives the number of the rule.
    pub fn number(self) -> u32
        ensures { result ≡ rule_number self }
    {
        self as u32
    }

    fn is_first(self) -> bool {
        true
    }
}

pub struct Status {
    pub number: u32,
}

impl From<Rule> for Status {
    ghost from_gives = { λ r s. s ≡ status_of r };

    fn from(why: Rule) -> Status {
        status(why.number())
    }
}

pub struct Left {
    left: u32,
}

impl Iterator for Left {
    type Item = usize;

    ghost next_gives = { λ s r t. (r ≡ lowest s) × (t.left ≡ rest s) };

    ghost remaining = { λ s. at_most s.left };

    fn next(&mut self) -> Option<usize> {
        Some(1)
    }
}

struct Inner {
    left: u32,
}

impl Inner {
    pub fn left(&self) -> u32 {
        self.left
    }
}
"""
# Laws of the crate, of which the first says what a relation is; the others say it of some words alone, or leave something open.
LAWS = """pub cases-are : (s t : Left) (r : Option ℕ)
    → by_cases s r t ↔ ((r ≡ lowest s) × (t.left ≡ rest s))
cases-are s t r = both

pub few-are : (s t : Left) (r : Option ℕ) → s.left < 9 → if_few s r t ↔ ((r ≡ lowest s) × (t.left ≡ rest s))

pub one-is : (s : Left) (r : Option ℕ) → of_one s r (record { left = 1 }) ↔ ((r ≡ lowest s) × (1 ≡ rest s))

pub result-is : (s t : Left) (r : Option ℕ) → of_result s r t ↔ (r ≡ lowest s)

pub either-is : (s t : Left) (r : Option ℕ) → either s r t ↔ ((r ≡ lowest s) × (t.left ≡ rest s))
    ⊎ (r ≡ None)
"""
# A law of a file that the prover doesn't look at.
UNREAD = "pub unread-is : (s t : Left) (r : Option ℕ) → unread s r t ↔ ((r ≡ lowest s) × (t.left ≡ rest s))\n"
NUMBERED = "crates/a: Rule::number "
FROM = "crates/a: StatusFromRule::from "
NEXT = "crates/a: LeftIterator::next "
SELF = "does not say by an equation what stands in self at exit"
UNKNOWN = "crates/a/src/lib.rt: not understood: "
OWN = "has clauses of its own in place of its trait's"
SIGNED = "from(why: Rule) -> Status"
REMAINING = "ghost remaining = { λ s. at_most s.left };"
ASKED = "ghost can_next = { λ s. 0 < s.left };"
STEPS = "λ s r t. (r ≡ lowest s) × (t.left ≡ rest s)"
# A change of the root, and the faults that are to be found in what that gives.
METHODS = [
    ("", "", []),
    ("result ≡ rule_number self", "rule_number self ≡ result", [NUMBERED + RESULT]),
    ("result ≡ rule_number self", "result ≤ 28", [NUMBERED + RESULT]),
    ("result ≡ rule_number self", "result ≡ rule_number result", [NUMBERED + RESULT]),
    ("        ensures { result", "        requires { rule_number self ≤ 27 }\n        ensures { result", [NUMBERED + ASKS]),
    ("(self) -> u32\n", "(&self) -> u32\n", [NUMBERED + RESULT]),
    ("pub fn number", "pub const fn number", [UNKNOWN + "pub const fn number(self) -> u32"]),
    ("    fn is_first(self)", "    #[inline(never)] pub fn is_first(self)", [UNKNOWN + "#[inline(never)] pub fn is_first(self) -> bool {"]),
    ("impl Rule {", "impl crate::Rule {", [UNKNOWN + "impl crate::Rule {"]),
    ("impl Rule {", "unsafe impl Rule {", [UNKNOWN + "unsafe impl Rule {"]),
    ("impl Rule {", "impl Rule\nwhere\n    Rule: Copy,\n{", [UNKNOWN + "impl Rule"]),
    ("s ≡ status_of r", "s.number ≤ 28", [FROM + RESULT]),
    ("s ≡ status_of r", "s ≡ status_of s", [FROM + RESULT]),
    ("s ≡ status_of r", "s ≡ status_of «s»", [FROM + RESULT]),
    ("s ≡ status_of r", "0 < r → s ≡ status_of r", [FROM + RESULT]),
    ("λ r s. s ≡ status_of r", "status_gives", [FROM + RESULT]),
    ("λ r s. s ≡ status_of r", "λ (r : Rule) s. s ≡ status_of r", [FROM + RESULT]),
    ("    ghost from_gives = { λ r s. s ≡ status_of r };\n", "", [FROM + RESULT]),
    (SIGNED + " {", SIGNED + "\n        ensures { result ≡ status_of why }\n    {", [FROM + OWN]),
    (SIGNED + " {", SIGNED + "\n        requires { 0 < why }\n    {", [FROM + ASKS]),
    (REMAINING, ASKED, [UNKNOWN + ASKED]),
    ("r ≡ lowest s", "r ≡ lowest t", [NEXT + RESULT]),
    ("t.left ≡ rest s", "t.left ≤ rest s", [NEXT + SELF]),
    (STEPS, "steps", [NEXT + RESULT, NEXT + SELF]),
    (STEPS, "by_cases", []),
    (STEPS, "unread", [NEXT + RESULT, NEXT + SELF]),
    (STEPS, "if_few", [NEXT + RESULT, NEXT + SELF]),
    (STEPS, "of_one", [NEXT + RESULT, NEXT + SELF]),
    (STEPS, "of_result", [NEXT + SELF]),
    (STEPS, "either", [NEXT + RESULT, NEXT + SELF]),
    ("struct Inner", "pub struct Inner", ["crates/a: Inner::left " + RESULT]),
]

# The records that the contracts above lend.
RECORDS = "pub struct Follower {\n    pub state: usize,\n}\n\npub struct Wider {\n    pub state: usize,\n    held: usize,\n}\n"

# A file of definitions, and whether it gives a symbol of the kit's library another meaning, or words right of an equation one.
KIT = "use Rattle.std.specs.Prelude.{length, set}\nghost use mathlib.Core.Path.{◌≡◌}\n"
DEFINITIONS = [
    ("abbrev pub set : List ℕ → ℕ\nset l = 0\n", True),
    ("module _ (n : ℕ) where\n  unfoldable pub length : ℕ\n  length = n\n", True),
    ("pub record Named : Type 0 where\n  pub set : ℕ\n", False),
    ("abbrev pub action_set : List ℕ → ℕ\naction_set l = 0\n", False),
    ("use Rattle.a.specs.A.{loose as ◌≡◌}\n", True),
    ("use lib.Dec.{ltb as length}\n", True),
    ("use Rattle.a.specs.A.{table as table_of}\n", False),
    ("infixr 2 ◌given◌\nabbrev pub ◌given◌ : Type 0 → Type 0 → Type 0\nA given B = B → A\n", True),
]


def found_in(signature, clauses, otherwise=None):
    head = "".join([signature] + [f"\n    {clause}" for clause in clauses]) + "\n{"
    return list(faults_of(head, otherwise, lambda kind: fields_of(RECORDS, kind)))


def found_at(text):
    """What is found of a crate whose root has the text."""
    faults, before = [], os.getcwd()
    with tempfile.TemporaryDirectory() as top:
        os.chdir(top)
        for path, words in (("src/lib.rt", text), ("proofs/Lib.antt", "pub mod Steps\n"), ("proofs/Steps.antt", LAWS), ("proofs/Other.antt", UNREAD)):
            os.makedirs(os.path.dirname(f"crates/a/{path}"), exist_ok=True)
            with open(f"crates/a/{path}", "w", encoding="utf-8") as file:
                file.write(words)
        looked_at("a", faults)
        os.chdir(before)
    return faults


def main():
    faults, tried = [], 0
    for signature, clauses, wanted in CONTRACTS:
        found, tried = found_in(signature, clauses), tried + 1
        if found != wanted:
            faults.append(f"{signature} {clauses}: found {found}, wanted {wanted}")
    for said, wanted in OTHERWISE:
        found, tried = found_in(NUMBER, [f"ensures {{ {said} }}"], WORDS), tried + 1
        if found != wanted:
            faults.append(f"{said}: found {found}, wanted {wanted}")
    for old, new, wanted in METHODS:
        found, tried = found_at(ROOT.replace(old, new, 1)), tried + 1
        if found != wanted:
            faults.append(f"{old} → {new}: found {found}, wanted {wanted}")
    for text, wanted in DEFINITIONS:
        found, tried = list(second_meanings({"crates/a/src/lib.rt": "ghost " + KIT, "crates/b/specs/B.antt": text})), tried + 1
        if bool(found) != wanted:
            faults.append(f"{text!r}: found {found}")
    return tell(faults, tried, f"contracts: {tried} tried on the script that looks at them, {len(faults)} faults")


if __name__ == "__main__":
    sys.exit(main())
