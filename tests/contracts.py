#!/usr/bin/env python3
"""Looks at the contract of every function that another crate or C can call: it asks nothing of its caller (no `requires`); what it returns, and what
stands at exit in each buffer that it is lent to write to, is given by an equation without a premise, whose right side speaks neither of the result nor
of a buffer at exit; of a part that it returns, the bytes and the place are. And no symbol that a contract or a definition takes from the kit's
library is given another meaning in specs/. The exit status says so. tests/contracts_test.py feeds it contracts that are wrong.

In a clause `result` is what is returned; `x.old` and `x.new` are what stands in a `&mut` at entry and at exit, `x.now` is what stands behind a `&`, and
`x.entry.ref_ptr` the place of either at entry. A method counts as what it would be if it stood alone. What a function of a trait promises is a relation
that stands beside it in the `impl`, of its parameters, its result, and what it is lent as it is at exit: equations, or the name of a relation of which a
law of the crate (proofs/) says by a `↔`, without a premise, that it is equations. So `next` of the iterator over a set's members gives `member_steps`,
and the law `steps-are` says what that fixes: the result, and all that the iterator holds.

The one contract of another form is named below, with the words that stand for the equation: what these say has to be read."""
import glob
import os
import re
import sys

import functions
from verdict import tell

TOP = os.path.join(os.path.dirname(os.path.abspath(__file__)), "..")

# Which bytes a file holds, and whether it can be read, is the operating system's.
OTHERWISE = {
    ("files", "read"): "Reads result buf.old buf.new",
}

# A clause, named or not, of which further lines are set in; behind the last one the brace of the body follows.
CLAUSE = re.compile(r"ensures(?: \w+)? \{ ((?:[^\n]|\n {5})*) \}(?:\n\{)?")
RESULT = "result"
# What a method is called on, in its parameters: by value or behind a `&`.
SELF = re.compile(r"\((?:(&(?:'\w+ )?(?:mut )?)|mut )?self\b")
DECLARED = re.compile(r"( *)(?:unfoldable |abbrev )*(?:pub )?(data |record )?(\S+)(?: [({].*)? :")
OPEN, SHUT = "([{⟦", ")]}⟧"
# What makes an equation a part of a weaker statement: a premise, a choice, a quantifier.
WEAKER = "→⊎↔∨∀∃Σλ"


def parts(words, mark):
    """The words cut at each mark that stands in no bracket."""
    depth, cut = 0, [""]
    for letter in words:
        depth += (letter in OPEN) - (letter in SHUT)
        if letter == mark and depth == 0:
            cut.append("")
        else:
            cut[-1] += letter
    return [part.strip() for part in cut]


def bare(words):
    """The words without brackets around the whole of them."""
    while words.startswith("(") and words.endswith(")"):
        depths = [words[: k + 1].count("(") - words[: k + 1].count(")") for k in range(len(words) - 1)]
        if 0 in depths:
            break
        words = words[1:-1].strip()
    return words


def is_plain(words):
    """Whether nothing outside its brackets makes a statement weaker."""
    return all(len(parts(words, mark)) == 1 for mark in WEAKER)


def statements(head):
    """What the clauses of a contract say, each without a premise, a choice or a quantifier."""
    for clause in re.split(r"\n    (?=ensures|requires)\b", head)[1:]:
        said = CLAUSE.fullmatch(clause.strip())
        if said and is_plain(bare(said[1])):
            yield bare(said[1])


def equations(head):
    """The equations of a contract, each left side with its right side: a statement is taken apart at `×`."""
    for said in statements(head):
        for part in map(bare, parts(said, "×")):
            sides = parts(part, "≡")
            if is_plain(part) and len(sides) == 2:
                yield sides[0], sides[1]


def parameters(signature):
    """The parameters of a function, each name with its type."""
    opened = signature.index("(")
    depths = [signature[opened : k + 1].count("(") - signature[opened : k + 1].count(")") for k in range(opened, len(signature))]
    listed = signature[opened + 1 : opened + depths.index(0)].strip()
    return [tuple(part.split(": ", 1)) for part in re.split(r",\s*(?=\w[\w ]*: |$)", listed) if part]


def is_lent(kind):
    """Whether a parameter of this type may be written to."""
    return re.search(r"\bmut\b", kind) is not None


def applied(relation, words):
    """What a relation says of the words: where it is a `λ` of as many names, they stand in the places of these; no name in `«»` is looked for."""
    said = re.fullmatch(r"(?s)λ ((?:[\w-]+ )*[\w-]+)\. ([^«]*)", relation)
    if said is None or len(said[1].split()) != len(words):
        return " ".join([relation, *words])
    named = dict(zip(said[1].split(), words))
    return re.sub(r"(?<![\w.-])[^\W\d_][\w-]*", lambda name: named.get(name[0], name[0]), said[2])


def by_law(relation, laws):
    """What a relation is by a law that holds of all its words; the relation itself where there is no such law."""
    said = re.search(rf"(?m)^pub \S+ : ((?:\([\w ]+ : [^()→]+\) ?)+)\s*→ {re.escape(relation)} ([\w ]+) ↔ (.*)$(?!\n )", laws)
    bound = " ".join(re.findall(r"\(([\w ]+) :", said[1])).split() if said else None
    return f"λ {said[2]}. {bare(said[3])}" if said and sorted(bound) == sorted(said[2].split()) else relation


def in_full(function, laws):
    """The head of a function with all of its contract: a method has the type of what it is called on, and one of a trait, as a clause, what it gives, by
    the crate's laws where these say more."""
    head = SELF.sub(lambda said: f"(self: {said[1] or ''}{function.kind}", function.head, count=1)
    if function.trait is None:
        return head
    own = function.name.split("::")[-1]
    signature, *clauses = re.split(r"\n    (?=ensures|requires)\b", head.removesuffix(" {").removesuffix("\n{"))
    takes = parameters(signature)
    words = [name + (".old" if is_lent(kind) else ".now" if "&" in kind else "") for name, kind in takes]
    words += [RESULT] * ("->" in signature) + [f"{name}.new" for name, kind in takes if is_lent(kind)]
    relation = re.search(rf"(?s)\n    ghost {own}_gives = \{{ (.*?) \}};\n", function.block)
    asked = [clause for clause in clauses if clause.startswith("requires")]
    given = [f"ensures {{ {applied(by_law(relation[1], laws), words)} }}"] if relation else []
    return "\n    ".join([signature, *asked, *given]) + "\n{"


def is_free(right, references):
    """Whether the right side of an equation speaks of what was there before the call alone: not of the result, and of a reference only as it was at
    entry. `references` has the type of each by its name."""
    for name, kind in references.items():
        at_entry = "old" if is_lent(kind) else "now"
        right = re.sub(rf"(?<![\w.])(?:{name}|«{name}»)\.(?:{at_entry}|entry\.ref_ptr)(?!\w)", "()", right)
    return not re.search(rf"(?<![\w.])(?:{'|'.join([RESULT, *references])})(?!\w)|\.(?:new|exit)\b", right)


def lefts_of(name):
    """The left sides that give all that stands in a buffer at exit: the buffer, or several at once. Of a lent record a field is asked for by its name."""
    return rf"(?:\((?:\w+\.new, )*{name}\.new(?:, \w+\.new)*\)|{name}\.new(\.\w+)?)"


def faults_of(head, otherwise=None, fields=lambda kind: None):
    """What is missing in a function's contract, or too much. `fields` gives the names of a declared record's fields."""
    signature = re.split(r"\n    (?:ensures|requires)\b", head)[0]
    takes = parameters(signature)
    if re.search(r"\n    requires\b", head):
        yield "asks something of its caller"
    is_hidden = any(name == RESULT for name, _ in takes)
    if is_hidden:
        yield "has a parameter that is called like the result"
    if otherwise and any(said.startswith(otherwise) for said in statements(head)):
        return
    references = {name: kind for name, kind in takes if "&" in kind}
    given = [(left, right) for left, right in equations(head) if is_free(right, references) and not is_hidden]
    wanted = [RESULT] if "->" in signature else []
    if re.search(r"-> &", signature):
        wanted = [f"{RESULT}.now", f"{RESULT}.ref_ptr"]
    for left in wanted:
        if not any(side == left for side, _ in given):
            yield f"does not say by an equation what {left} is"
    for lent, kind in [(name, kind) for name, kind in takes if is_lent(kind)]:
        whole = [re.fullmatch(lefts_of(lent), side) for side, _ in given]
        field = [f".{name}" for name in fields(kind.split()[-1]) or []]
        if not any(said and (said[1] is None or field == [said[1]]) for said in whole):
            yield f"does not say by an equation what stands in {lent} at exit"


def fields_in(crate):
    """For a crate, what gives the names of the fields of a record that it declares."""
    text = "".join(open(path, encoding="utf-8").read() for path in glob.glob(f"crates/{crate}/src/*.rt"))
    return lambda kind: fields_of(text, kind)


def fields_of(text, kind):
    """The names of the fields of a record that a source declares; None where it declares none of this name."""
    declared = re.search(rf"(?m)^(?:pub )?struct {re.escape(kind)} \{{\n((?:.*\n)*?)\}}", text)
    return re.findall(r"(?m)^    (?:pub )?(\w+):", declared[1]) if declared else None


def declared_in(text):
    """The names that a file of definitions declares, but for the fields of records."""
    record = None
    for line in text.split("\n"):
        said = DECLARED.match(line)
        indent = len(line) - len(line.lstrip(" "))
        if line.strip() and record is not None and indent <= record:
            record = None
        if said and record is None:
            yield said[3]
        if said and said[2] == "record ":
            record = indent


def taken(text, crates):
    """What a file takes from elsewhere: whether from the kit's library, which is all but the crates named, the name there, and the name here."""
    for path, names in re.findall(r"(?m)^(?:ghost )?use ([\w.-]+)\.\{([^}]*)\}", text):
        of_kit = not any(path.startswith(f"Rattle.{crate}.") for crate in crates)
        for name in filter(None, map(str.strip, names.split(","))):
            there, _, here = name.partition(" as ")
            yield of_kit, there, here or there


def second_meanings(files):
    """What gives a symbol that is taken from the kit another meaning: a definition in specs/, or another thing taken under its name; and an operator of
    specs/, with which the words right of `≡` could be more than a side of the equation. `files` has the text of each by its path, crates/CRATE/.. ."""
    crates = {path.split("/")[1] for path in files}
    kit = {there for text in files.values() for of_kit, there, _ in taken(text, crates) if of_kit}
    for path, text in sorted(files.items()):
        names = list(declared_in(text)) if "/specs/" in path else []
        names += [here for _, there, here in taken(text, crates) if here != there]
        yield from (f"{path}: gives {name} a meaning of its own" for name in names if name in kit)
        yield from (f"{path}: declares the operator {name}" for name in names if "◌" in name)


def laws_of(crate):
    """The laws of a crate: those of the files that its proofs/Lib.antt names, since the prover looks at no other."""
    root = f"crates/{crate}/proofs/Lib.antt"
    names = re.findall(r"(?m)^(?:pub )?mod (\w+)$", open(root, encoding="utf-8").read()) if os.path.exists(root) else []
    return "".join(open(f"crates/{crate}/proofs/{name}.antt", encoding="utf-8").read() for name in names)


def looked_at(crate, faults):
    """The functions of a crate that can be called from outside, each by its name; what is wrong with their contracts is told."""
    names, fields = functions.public(crate, faults), fields_in(crate)
    laws = laws_of(crate)
    found = [function for _, function in functions.of_crate(crate) if function.name in names]
    for function in found:
        why = list(faults_of(in_full(function, laws), OTHERWISE.get((crate, function.name)), fields))
        if function.trait and re.search(r"\n    ensures\b", function.head):
            why.append("has clauses of its own in place of its trait's")
        faults.extend(f"crates/{crate}: {function.name} {fault}" for fault in why)
    return [function.name for function in found]


def main():
    os.chdir(TOP)
    count, faults, unmet = 0, [], set(OTHERWISE)
    for crate in sorted(os.listdir("crates")):
        found = looked_at(crate, faults)
        count += len(found)
        unmet -= {(crate, name) for name in found}
    faults.extend(f"tests/contracts.py: names {crate}::{name}, which is not there" for crate, name in sorted(unmet))
    paths = glob.glob("crates/*/specs/*.antt") + glob.glob("crates/*/src/*.rt")
    faults.extend(second_meanings({path: open(path, encoding="utf-8").read() for path in paths}))
    return tell(faults, count, f"contracts: {count} functions that can be called from outside, {len(faults)} faults")


if __name__ == "__main__":
    sys.exit(main())
