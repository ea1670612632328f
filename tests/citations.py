"""What a document cites: a place, and names that are found there. The working directory is the top of the tree.

A citation is a place in backticks, then, where names are cited, a colon and the names in backticks, parted by commas. A place is a file or folder
(`tests/gate.sh`, `tests/cases`), a source of a crate without `crates/` and its extension (`theory/specs/Demand`), a part of a crate, which is its
definitions, laws or code (`theory/specs`, `theory/proofs`, `theory/src`), or a crate (`theory`). A name that is cited of a crate or a part is declared in
one of its sources alone: else the citation has to say in which."""
import functools
import glob
import os
import re

import functions

CITATION = re.compile(r"`([\w/.-]+)`(?:: ((?:`[^`]+`(?:, (?=`))?)+))?")
DECLARED = {
    ".antt": re.compile(r"(?m)^\s*(?:unfoldable |abbrev )*(?:pub )?(?:data |record )?(\S+)(?: [({].*)? :"),
    ".rt": re.compile(r"(?m)^\s*(?:pub )?(?:extern \"C\" )?(?:fn|struct|enum|const) (\w+)"),
}
# The folders of a crate, with what the names of its sources end with.
PARTS = {"src": ".rt", "specs": ".antt", "proofs": ".antt"}


@functools.lru_cache(maxsize=None)
def declared_in(path):
    """The names that a source of a crate declares; a mention or a comment does not count. A method has its own, that behind its type's, and the prover's."""
    text, extension = open(path, encoding="utf-8").read(), os.path.splitext(path)[1]
    methods = [function for function in functions.in_text(text) if function.kind] if extension == ".rt" else []
    behind_types = (f"{function.kind}::{function.name.split('::')[-1]}" for function in methods)
    return {*DECLARED[extension].findall(text), *behind_types, *(function.name for function in methods)}


@functools.lru_cache(maxsize=None)
def has(path, name):
    """Whether a name is found at a path: declared in a source, a word of another file, in a folder."""
    if os.path.isdir(path):
        return os.path.exists(f"{path}/{name}")
    if path.startswith("crates/") and os.path.splitext(path)[1] in DECLARED:
        return name in declared_in(path)
    return re.search(rf"\b{re.escape(name)}\b", open(path, encoding="utf-8").read()) is not None


@functools.lru_cache(maxsize=None)
def paths(place):
    """The paths that a place stands for, those of all its sources for a crate or a part of one; none where there is no such place."""
    if os.path.exists(place):
        return [place]
    crate, _, source = place.partition("/")
    if source and source not in PARTS:
        return glob.glob(f"crates/{glob.escape(place)}{PARTS.get(source.split('/')[0], '')}")
    parts = [source] if source else PARTS
    return sorted(path for part in parts for path in glob.glob(f"crates/{glob.escape(crate)}/{part}/**/*{PARTS[part]}", recursive=True))


def where(place, name):
    """The paths at which a name of a place is found."""
    return [path for path in paths(place) if has(path, name)]


def faults_of(place, names):
    """What is wrong with a citation."""
    if not paths(place):
        yield f"no file or crate {place}"
        return
    for name in names:
        found = where(place, name)
        if not found:
            yield f"{place} does not declare {name}"
        elif len(found) > 1:
            yield f"{place} declares {name} more than once, and it is not said which is meant: {', '.join(found)}"


def looks_like_a_path(words):
    """Whether words in backticks cite a place although no name follows: they begin with a folder, or end as files of the repository do. Not in target/:
    what is built need not be there."""
    return not words.startswith("target/") and re.search(r"\w/[\w.]|\w\.(?:antt|rt|edit|py|sh|rs|c|h|md|txt|out|svg)$", words) is not None


def cited(text):
    """The citations of a text, each a place with its names."""
    for place, names in CITATION.findall(text):
        if names or looks_like_a_path(place):
            yield place, re.findall(r"`([^`]+)`", names)


def held_by(document, faults):
    """How many places and names a document cites that are there; any other is a fault."""
    held = 0
    for number, line in enumerate(open(document, encoding="utf-8").read().split("\n"), 1):
        for place, names in cited(line):
            why = list(faults_of(place, names))
            faults.extend(f"{document}:{number}: {fault}" for fault in why)
            held += 1 + len(names) - len(why)
    return held
