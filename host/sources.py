"""What host/statements, host/edits and host/wrong-answers read of the crates and of what was tried of their edits."""
import pathlib
import re

top = pathlib.Path(__file__).resolve().parent.parent
page = (top / "docs" / "STATEMENTS.md").read_text()


def crates():
    """Every crate, lowest first: name, folder, the libraries below it and, of one that is a static library, the words by which the checker takes it as such."""
    for line in (top / "crates.txt").read_text().splitlines():
        head, _, below = line.partition(":")
        name, *kind = head.split() or ["#"]
        if not name.startswith("#"):
            yield name, top / "crates" / name, below.split(), ["--crate-type", "staticlib"] if "staticlib" in kind else []


def libraries():
    """The crates that are no programs, lowest first: name and folder."""
    for crate, folder, *_ in crates():
        if not (folder / "src" / "main.rt").exists():
            yield crate, folder


def named(kind):
    """A type or a trait with its arguments, as the checker writes it in a name: TooShort, U8 for u8, FromTooShort, ArrayU85 for five of u8."""
    return "".join(word[0].upper() + word[1:] for word in re.findall(r"\w+", kind.replace("[", "Array ")))


def promises():
    """What the traits of the libraries promise of their methods, by trait and method."""
    said = {}
    for _, folder in libraries():
        for file in (folder / "src").glob("*.rt"):
            for trait, members in re.findall(r"(?ms)^pub trait (\w+)(.*?)^\}", file.read_text()):
                for text in re.split(r"(?m)^    (?=\S)", members):
                    if text.startswith("fn "):
                        said[trait, re.match(r"fn (\w+)", text)[1]] = text
    return said


def exported(folder):
    """The functions that a library gives: file, name, and the text that has its promise.

    They are those marked pub, named with their type, and the methods that an impl written by hand gives a type of a trait, named as the checker names
    them: the type, then the trait with its arguments, as in PlayedWritten::written or MakeRefusalFromTooShort::from. What such a method promises stands
    where its trait is declared, and of a From in the impl, in from_gives; a method of a trait that no library declares has no promise."""
    said = promises()
    for file in sorted((folder / "src").glob("*.rt")):
        source = file.read_text()
        kind = ""
        for text in re.split(r"(?m)^(?=impl[ <]|\}|    pub |pub )", source):
            kind = (re.match(r"impl(?:<[^>]*>)? (\w+)", text) or [None, "" if text.startswith(("}", "pub ")) else kind])[1]
            name = re.match(r'\s*pub (?:extern "C" )?fn (\w+)', text)
            if name:
                yield file, f"{kind}::{name[1]}" if kind else name[1], text
        for trait, kind, members in re.findall(r"(?ms)^impl(?:<[^>]*>)? ([^{]+?) for ([^{<]+?)(?:<[^{]*|\s+where\b[^{]*)?\s*\{\n(.*?)^\}", source):
            of = re.match(r"\w+", trait)[0]
            gives = re.search(r"(?m)^    ghost from_gives = .*", members)
            for name in re.findall(r"(?m)^    fn (\w+)", members):
                yield file, f"{named(kind)}{named(trait)}::{name}", gives[0] if of == "From" and gives else said.get((of, name), "")


def answers_in(text):
    """What the comments of an edit say that it shows: a function, the function in whose proof it is seen, if another, and the wrong answer."""
    return re.findall(r"(?m)^# ([\w:]+)(?:, seen in ([\w:]+))?: (.+)$", text)


def log_of(crate, edit, name=""):
    """Where host/edits keeps what the checker says of an edit, or of a function's own lines of it."""
    return top / "target" / "must-fail" / crate / f"{edit.stem}{'.' * bool(name)}{name.replace('::', '.')}.log"


def refused(said, crate, name):
    """Whether what the checker says refuses this function for itself."""
    folder = rf"proofs/(?:\w+/)?{name.replace('::', '/')}/(?:Proof|Answers|Invariants)\.antt"
    own = rf"(?m)^(?:\./)?{folder}:\S* error: (?!.*(?:was not admitted|is not in scope|has no field|has no `)|.*\n +has no )"
    none = rf"(?m)^fn {crate}::(?:\w+::)?{name}: no proof: expected .*`returns"
    # what is said of a function's goals stands above its line
    false = rf"(?m)^note: src/\S*: it is not proved that what the function ensures holds .*\n(?:(?!fn |struct |enum ).*\n)*fn {crate}::(?:\w+::)?{name}: "
    return any(re.search(way, said) for way in (own, none, false))
