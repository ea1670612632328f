#!/usr/bin/env python3
"""Brings the names of definitions and lemmas to the kit's spelling: words in snake case, and a dash only where it joins two names.

    respell.py [--list]    rewrites the sources, edits and pages below the working directory; --list only prints the old and the new names

A name is one that specs/ or a file right in proofs/ declares. A word in camel case gets underscores (`declaredSet`, `declared_set`). Of a dashed name
the dash stays where both sides are names of definitions, as in `any-cong`; else the sides are words, and an underscore joins them (`read-alone`,
`read_alone`). A field of a record has underscores only. Types keep their names. In files of a function's proof only names that the file imports change,
since others are made by the kit or are the file's own."""
import collections
import glob
import os
import re
import sys

NAME = r"[^\s(){}\[\].,;:@\"`]+"
DECLARED = re.compile(rf"^(\s*)((?:(?:abbrev|unfoldable|pub|data|record|private) )*)({NAME}) :(?= )(.*)$")
PIECE = re.compile(rf"\"(?:\\.|[^\"\\])*\"|{NAME}|.", re.S)
# Words of the library that lemmas on them are named after.
LIBRARY = set(
    "length append take drop get_or set add sub mul div mod pow suc zero eqb ltb leb not or and cond any all map any_of count none some refl true false min max bit_or bit_and bit_xor shr replicate reverse eq lt le".split()
)

# A definition that would fall together with a lemma and a field.
GIVEN = {"mostGeneral": "most_general_of"}


def sources():
    return sorted(glob.glob("crates/*/specs/*.antt") + glob.glob("crates/*/proofs/*.antt"))


def read(path):
    with open(path, encoding="utf-8") as file:
        return file.read()


def declarations():
    """The declared names, and which of them are fields or constructors of a record or a data type."""
    names, fields = collections.defaultdict(set), set()
    for path in sources():
        block = None
        for line in read(path).split("\n"):
            if not line.strip() or line.lstrip().startswith("--"):
                continue
            indent = len(line) - len(line.lstrip())
            if block is not None and indent <= block:
                block = None
            found = DECLARED.match(line)
            if found and found[3] != "module":
                names[found[3]].add(path)
                if block is not None:
                    fields.add(found[3])
            if re.match(r"\s*(?:(?:abbrev|unfoldable|pub) )*(?:record|data) ", line) and line.rstrip().endswith("where"):
                block = indent
                head = re.match(rf"\s*(?:(?:pub|record|data) )*({NAME})", line)
                names[head[1]].add(path)
    return names, fields


def snake(word):
    """A word in camel case, with underscores; one that begins with a capital is a type, and stays."""
    if not re.match(r"[a-z]", word) or "◌" in word:
        return word
    return re.sub(r"(?<=[a-z0-9])([A-Z])(?=[a-z])", lambda m: "_" + m[1].lower(), re.sub(r"(?<=[a-z0-9])([A-Z])(?![a-z])", lambda m: "_" + m[1].lower(), word))


def spelled(name, known, fields):
    """The new spelling of a name, which is spelled as it is itself."""
    new = once(name, known, fields)
    return new if new == name else spelled(new, known, fields)


def once(name, known, fields):
    if name in GIVEN:
        return GIVEN[name]
    if "◌" in name or name.startswith("-") or not re.match(r"[a-zA-Z]", name):
        return name
    parts = [snake(part) for part in name.split("-")]
    if not all(re.match(r"[\w'₀-₉∷⊥→≡<≤]+$", part) for part in parts):
        return "-".join(parts)
    if name in fields:
        return "_".join(parts)
    if not is_name(parts[0], known):
        return "_".join(parts)
    new = parts[0]
    for left, right in zip(parts, parts[1:]):
        new += ("-" if is_name(left, known) and is_name(right, known) else "_") + right
    return new


def is_name(part, known):
    return part in known or part in LIBRARY or bool(re.match(r"[A-Z]", part))


def mapping():
    """The new name of each name that changes. Where two would fall together a definition in camel case has the name, else the one that has it now, and a
    lemma gets `_lem` behind it, as the kit's lemmas do that would have their function's name."""
    names, fields = declarations()
    known = {snake(name) for name in names if "-" not in name and re.match(r"[a-zA-Z]", name)}
    same = collections.defaultdict(list)
    for name in sorted(names):
        same[spelled(name, known, fields)].append(name)
    turned, taken = {}, set(same)
    for new, olds in sorted(same.items()):
        olds.sort(key=lambda name: (not re.search("[A-Z]", name), name != new))
        for name in olds[1:]:
            if new + "_lem" in taken or len(olds) > 2:
                raise SystemExit(f"{' '.join(olds)} fall together")
            turned[name] = new + "_lem"
        if olds[0] != new:
            turned[olds[0]] = new
    return turned, fields


def imports(text):
    """The names that a file imports from modules of this repository."""
    found = set()
    for listed in re.findall(r"(?m)^\s*(?:ghost )?use Rattle\.(?!std\.)[\w.]+\.\{([^}]*)\}", text):
        for item in listed.split(","):
            found.update(item.split(" as "))
    return {item.strip() for item in found}


def rewrite(text, turned, comment):
    """The text with the names turned; in comments and strings a dashed name is a word of English, and only names in camel case are turned."""
    out, camel = [], {old: new for old, new in turned.items() if "-" not in old}
    for line in text.split("\n"):
        code, mark, rest = line, "", ""
        at = line.find(comment) if comment else -1
        if at >= 0 and line.count('"', 0, at) % 2 == 0:
            code, mark, rest = line[:at], comment, line[at + len(comment) :]
        code = "".join(piece if piece.startswith('"') else turned.get(piece, piece) for piece in PIECE.findall(code))
        rest = quoted(rest, turned)
        rest = "".join(camel.get(piece, piece) for piece in PIECE.findall(rest))
        out.append(code + mark + rest)
    return "\n".join(out)


def quoted(text, turned):
    """The text with the names turned that stand between backticks."""
    return re.sub(r"`[^`\n]*`", lambda m: "".join(turned.get(piece, piece) for piece in PIECE.findall(m[0])), text)


def in_edit(line, turned):
    """A line of an edit. What `fails:` names stands bare, up to a dash."""
    if line.startswith("fails:"):
        names, dash, why = line.partition(" – ")
        return rewrite(names, turned, None) + dash + quoted(why, turned)
    return rewrite(line, turned, None) if re.match("(old|new):", line) else quoted(line, turned)


def write(path, text):
    if text != read(path):
        with open(path, "w", encoding="utf-8") as file:
            file.write(text)


def main():
    turned, fields = mapping()
    if "--list" in sys.argv:
        for old, new in turned.items():
            print(old, new, "field" if old in fields else "")
        return 0
    # Outside the files of definitions and lemmas a name in snake case may be a function's.
    outside = {old: new for old, new in turned.items() if re.search("[A-Z-]", old)}
    for path in sorted(glob.glob("crates/*/src/**/*.rt", recursive=True)):
        write(path, rewrite(read(path), outside, "//"))
    for path in sources():
        write(path, rewrite(read(path), turned, "--"))
    for path in sorted(set(glob.glob("crates/*/proofs/**/*.antt", recursive=True)) - set(sources())):
        text = read(path)
        write(path, rewrite(text, {old: new for old, new in turned.items() if old in imports(text) or old in fields}, "--"))
    for path in sorted(glob.glob("crates/*/must-fail/*.edit")):
        write(path, "\n".join(in_edit(line, outside) for line in read(path).split("\n")))
    # docs/CHANGES.md says what was changed, under the names of then.
    for path in sorted({"README.md", *glob.glob("docs/*.md")} - {"docs/CHANGES.md"}):
        write(path, quoted(read(path), outside))
    return 0


if __name__ == "__main__":
    sys.exit(main())
