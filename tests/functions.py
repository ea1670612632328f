"""The functions of the crates, read off their sources, which have the layout of `rt fmt`. The working directory is the top of the tree."""
import glob
import re
from typing import NamedTuple, Optional

# What a root hands on of a module: one name, or several in braces.
HANDED_ON = re.compile(r"(?m)^pub use \w+::(?:(\w+)|\{([\w\s,]*)\});\n")
# The head of an `impl`: the trait with its argument, if it is of one, and the type; and a line that begins one, in a form that is known or not.
IMPL = re.compile(r"impl(?:<.*?>)? (?:(\w+)(?:<(.*)>)? for )?(\w+)(?:<.*>)? \{$")
ANY_IMPL = re.compile(r"\s*(?:unsafe )?impl\b")
# What stands in an `impl`: a function, whether `pub`; the relation that a trait's function gives; how often an iterator can be asked; a trait's type.
MEMBER = re.compile(r"    (?:(pub )?fn (\w+)|ghost (?:\w+_gives|remaining) = |type \w+ = )")
# A call: what stands before the name, which is a dot, a type or a module, and the name.
CALL = re.compile(r"(\.|\b\w+::)?\b(\w+)(?:::<[^()]*>)?\(")


class Function(NamedTuple):
    """`head` has its parameters and contract; the body stands from `start` to `end` in the file. A method's name begins as the prover's does: that of
    `From<A> for B` with `BFromA::`, that of `B` itself with `B::`. Its `head` is set out as that of a function that stands alone; `block` is the `impl`
    in which it stands, `trait` and `kind` are those of the `impl`."""

    name: str
    head: str
    start: int
    end: int
    block: str
    trait: Optional[str]
    kind: Optional[str]

    def is_called(self, name):
        """Whether it is meant by its whole name, by its own, or by its own behind that of its type."""
        own = self.name.split("::")[-1]
        return name in (self.name, own, f"{self.kind}::{own}")


def spelled(argument):
    """A trait's argument as the prover's names have it."""
    return "".join(word[0].upper() + word[1:] for word in re.findall(r"\w+", argument.replace("()", "Unit")))


def prefix(impl):
    """What the names of the functions in an `impl` begin with."""
    return f"{impl[3]}{impl[1] or ''}{spelled(impl[2] or '')}::" if impl else ""


def in_text(text):
    """The functions of a source file."""
    at, name, head, start, impl, block, indent = 0, None, 0, None, None, "", ""
    for line in text.split("\n"):
        if IMPL.match(line):
            impl, block, indent = IMPL.match(line), text[at : text.find("\n}", at)], "    "
        elif line == "}" and impl:
            impl, block, indent = None, "", ""
        found = re.match(rf"{indent}(?:pub )?(?:extern \"C\" )?fn (\w+)", line)
        if found:
            name, head, start = prefix(impl) + found[1], at, None
        if name and start is None and re.match(rf"{indent}(?:\{{$|\S.* \{{$)", line):
            start = at + len(line)
        elif name and line == indent + "}":
            lines = re.sub(rf"(?m)^{indent}", "", text[head:start])
            yield Function(name, lines, start, at, block, impl and impl[1], impl and impl[3])
            name = None
        at += len(line) + 1


def texts_of(crate):
    """The sources of a crate, by their paths."""
    return {path: open(path, encoding="utf-8").read() for path in sorted(glob.glob(f"crates/{crate}/src/*.rt"))}


def of_crate(crate):
    """The functions of a crate, each after its file's text."""
    for text in texts_of(crate).values():
        for function in in_text(text):
            yield text, function


def containing(crate, file, words):
    """The function in whose body the words stand, as `name` or `module::name`; None where they stand in none."""
    module = re.fullmatch(r"src/(\w+)\.rt", file)
    if module is None:
        return None
    text = open(f"crates/{crate}/{file}", encoding="utf-8").read()
    at = text.find(words)
    for function in in_text(text):
        if function.start <= at < function.end:
            return function.name if module[1] in ("lib", "main") else f"{module[1]}::{function.name}"
    return None


def calls(body, functions):
    """The functions of a crate that a body calls: after a dot those of that name that are methods, after a type those of the type."""
    for before, name in CALL.findall(body):
        for function in functions:
            own = function.name.split("::")[-1]
            kind = before.removesuffix("::")
            if own == name and (function.kind is not None if before == "." else function.kind == (kind if kind[:1].isupper() else None)):
                yield function.name


def stands_on(crate):
    """For each function of a crate, by its name, those of the crate that a call of it runs: itself, those that its body calls, and so on."""
    runs, functions = {}, list(of_crate(crate))
    for text, function in functions:
        body = text[function.start : function.end].replace("Self::", f"{function.kind}::")
        runs.setdefault(function.name, {function.name}).update(calls(body, [other for _, other in functions]))
    for _ in runs:
        runs = {name: called.union(*(runs.get(callee, set()) for callee in called)) for name, called in runs.items()}
    return runs


def methods(path, text, private, faults):
    """The names of the methods in a source that another crate can call: those of a type that are `pub`, and those of its traits; of a private type none.
    What else stands in an `impl` is a fault: it could be asked of the caller."""
    impl = None
    for line in text.split("\n"):
        impl = IMPL.match(line) or (None if line == "}" else impl)
        member = MEMBER.match(line)
        if ANY_IMPL.match(line) and not IMPL.match(line):
            faults.append(f"{path}: not understood: {line.strip()}")
        elif impl and impl[3] not in private and re.match(r"    (?:\w|#\[.*\] *\w)", line):
            if not member:
                faults.append(f"{path}: not understood: {line.strip()}")
            elif member[2] and (member[1] or impl[1]):
                yield prefix(impl) + member[2]


def public(crate, faults):
    """The names of the functions of a library that another crate or C can call: those of its root, those that the root hands on, those that are exported
    from any file, and the methods that it can call of types that are not private."""
    root, texts = f"crates/{crate}/src/lib.rt", texts_of(crate)
    if root not in texts:
        return set()
    found = {function.name for text, function in of_crate(crate) if function.head.startswith('pub extern "C"')}
    for one, several in HANDED_ON.findall(texts[root]):
        found.update(re.findall(r"\w+", one or several))
    for line in HANDED_ON.sub("", texts[root]).split("\n"):
        own = re.match(r"pub (?:extern \"C\" )?fn (\w+)", line)
        if own:
            found.add(own[1])
        elif re.match(r"pub (?!struct |enum |const [A-Z]|[a-z]+: )", line):
            faults.append(f"{root}: not understood: {line.strip()}")
    kinds = [kind for text in texts.values() for kind in re.findall(r"(?m)^(pub )?(?:struct|enum) (\w+)", text)]
    private = {kind for is_public, kind in kinds if not is_public} - {kind for is_public, kind in kinds if is_public}
    for path, text in texts.items():
        found.update(methods(path, text, private, faults))
    for name in found - {function.name for _, function in of_crate(crate)}:
        faults.append(f"{root}: {name} is handed on, and no function has that name")
    return found
