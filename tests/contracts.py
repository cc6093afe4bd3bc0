#!/usr/bin/env python3
"""The public functions of all crates, each with its signature and what it asks of its caller (its `requires`).

    contracts.py            compares the sources with the stored list, tests/contracts.txt
    contracts.py --write    makes the stored list anew

A `requires` that is added to a public function is met or unseen by its callers here, so that no proof fails: this list does. The exit
status is 1, with the lines that differ, where the sources say other than the list.
"""

import difflib
import re
import sys
from pathlib import Path
from typing import Iterator, List, NamedTuple, Sequence

HERE = Path(__file__).resolve().parent
CRATES = HERE.parent / "crates"
STORED = HERE / "contracts.txt"

# What stands in a source besides white space: a comment, a byte string, a byte or a character, a word, any other single character.
TOKEN = re.compile(r"""(?P<comment>//[^\n]*|/\*.*?\*/)|b?"(?:\\.|[^"\\])*"|b?'(?:\\.|[^'\\])'|\w+|\S""", re.DOTALL)
OPENING = {"(": ")", "[": "]", "{": "}"}
CLAUSES = ("requires", "ensures")


class Token(NamedTuple):
    """A token, and where it stands in its source."""

    text: str
    start: int
    end: int


class Fault(Exception):
    """A source that this reader does not understand: better told than passed over."""


def tokens_of(source: str) -> List[Token]:
    return [Token(m[0], m.start(), m.end()) for m in TOKEN.finditer(source) if m["comment"] is None]


def closing(tokens: Sequence[Token], at: int) -> int:
    """The place of the bracket that closes the one at this place."""
    want = [OPENING[tokens[at].text]]
    while want:
        at += 1
        if at == len(tokens):
            raise Fault("a bracket is not closed")
        text = tokens[at].text
        if text in OPENING:
            want.append(OPENING[text])
        elif text in OPENING.values() and text != want.pop():
            raise Fault("a bracket is closed by %s" % text)
    return at


def text_of(tokens: Sequence[Token]) -> str:
    """The tokens on one line, with single spaces where the source has white space, and no comma after the last parameter."""
    pieces = [tokens[0].text]
    for before, token in zip(tokens, tokens[1:]):
        pieces += [" " if before.end < token.start else "", token.text]
    line = "".join(pieces)
    return re.sub(r",? ([)\]])", r"\1", re.sub(r"([(\[]) ", r"\1", line))


class Function(NamedTuple):
    """A public function: its name with its crate, its signature, and its `requires` clauses."""

    name: str
    signature: str
    requires: List[str]

    def block(self) -> str:
        return "\n    ".join([self.name, self.signature] + self.requires) + "\n"


def is_public(tokens: Sequence[Token], at: int) -> bool:
    """Whether the `fn` at this place is marked `pub`, or `pub extern "C"`."""
    words = [token.text for token in tokens[max(0, at - 3) : at]]
    return words[-1:] == ["pub"] or words == ["pub", "extern", '"C"']


def function_at(tokens: Sequence[Token], at: int, module: str) -> Function:
    """The public function whose `fn` stands at this place."""
    begin = at
    if is_public(tokens, at):
        while tokens[begin].text != "pub":
            begin -= 1
    name = tokens[at + 1].text
    while tokens[at].text not in CLAUSES and tokens[at].text not in "{;":
        at = closing(tokens, at) + 1 if tokens[at].text in OPENING else at + 1
    signature = text_of(tokens[begin:at])
    requires = []
    while tokens[at].text in CLAUSES:
        clause = at
        while tokens[at].text != "{":
            at += 1
        at = closing(tokens, at) + 1
        if tokens[clause].text == "requires":
            requires.append(text_of(tokens[clause:at]))
    if tokens[at].text not in "{;":
        raise Fault("%s::%s: %s where its body is due" % (module, name, tokens[at].text))
    return Function("%s::%s" % (module, name), signature, requires)


class Block(NamedTuple):
    """A block that holds functions: its name, where it begins and where it ends, and whether it is of a trait, all of whose methods are public."""

    name: str
    begin: int
    end: int
    of_trait: bool


def holders(tokens: Sequence[Token]) -> Iterator[Block]:
    """The blocks `impl NAME { .. }`, `impl TRAIT for NAME { .. }`, `trait NAME { .. }` and `mod NAME { .. }`, each named by what stands before its bracket."""
    for at, token in enumerate(tokens):
        if token.text in ("impl", "trait", "mod"):
            words = []
            for word in tokens[at + 1 :]:
                if word.text in "{;" or (token.text == "trait" and word.text == ":"):
                    break
                words.append(word)
            opening = next(place for place in range(at, len(tokens)) if tokens[place].text in "{;")
            if words and tokens[opening].text == "{":
                yield Block(text_of(words), at, closing(tokens, opening), token.text == "trait" or any(word.text == "for" for word in words))


def public_functions(tokens: Sequence[Token], modules: List[str]) -> List[Function]:
    """The public functions among the tokens, in their order: those that are marked so, and the methods of traits."""
    blocks = list(holders(tokens))
    found = []
    for at, token in enumerate(tokens):
        within = [block for block in blocks if block.begin < at < block.end]
        if token.text == "fn" and (is_public(tokens, at) or any(block.of_trait for block in within)):
            found.append(function_at(tokens, at, "::".join(modules + [block.name for block in within])))
    return found


def functions_in(path: Path) -> List[Function]:
    """The public functions of a source, in their order."""
    crate, inner = path.relative_to(CRATES).parts[0], path.relative_to(CRATES).with_suffix("").parts[2:]
    return public_functions(tokens_of(path.read_text()), [crate] + [part for part in inner if part not in ("lib", "main", "mod")])


def listing() -> str:
    """The blocks of all public functions, crate by crate."""
    functions: List[Function] = []
    for path in sorted(CRATES.glob("*/src/**/*.rt")):
        try:
            functions += functions_in(path)
        except (Fault, IndexError) as fault:
            raise SystemExit("contracts.py: %s: %s" % (path.relative_to(CRATES.parent), fault)) from None
    return "\n".join(function.block() for function in functions)


# The self-test: the shapes that a source may have.


SHAPES = '''
pub fn plain(a: u16) -> bool { true }
fn own() requires { no } { }
// pub fn in_a_comment() {}
pub fn long(
    a: &[u8; 4], // the bytes; pub fn not_this()
    b: u8,
) -> [u16; 3]
    requires named { f record { a = 1 } }
    ensures { result.requires }
    requires small { x
        ≤ 3 }
{
    let s = b"pub fn inside() { \\" {";
}
#[unsafe(no_mangle)]
pub extern "C" fn exported(n: usize)
    ensures { a }
{ }
impl Pair { pub fn swap(self) -> Pair requires { y } { self } fn inner(self) { } }
pub trait Packed: Copy {
    const WIDTH: usize;
    fn at(words: &[u16], at: usize) -> Self
        requires { at ≤ length words.now }
        ensures { true };
}
impl From<Pair> for u16 { fn from(p: Pair) -> u16 requires { z } { p.a } }
'''

READ = [
    "m::plain\n    pub fn plain(a: u16) -> bool\n",
    "m::long\n    pub fn long(a: &[u8; 4], b: u8) -> [u16; 3]\n    requires named { f record { a = 1 } }\n    requires small { x ≤ 3 }\n",
    'm::exported\n    pub extern "C" fn exported(n: usize)\n',
    "m::Pair::swap\n    pub fn swap(self) -> Pair\n    requires { y }\n",
    "m::Packed::at\n    fn at(words: &[u16], at: usize) -> Self\n    requires { at ≤ length words.now }\n",
    "m::From<Pair> for u16::from\n    fn from(p: Pair) -> u16\n    requires { z }\n",
]


def self_test() -> None:
    read = [function.block() for function in public_functions(tokens_of(SHAPES), ["m"])]
    assert read == READ, read


def main(arguments: Sequence[str]) -> int:
    self_test()
    now = listing()
    if arguments == ["--write"]:
        STORED.write_text(now)
        return 0
    if arguments:
        sys.exit(__doc__)
    stored = STORED.read_text()
    if now != stored:
        sys.stdout.writelines(difflib.unified_diff(stored.splitlines(True), now.splitlines(True), "tests/contracts.txt", "the sources", n=2))
        print("contracts.py: a public function or what it asks of its caller has changed; where that is meant: tests/contracts.py --write")
        return 1
    print("contracts: ok, %d public functions" % len(re.findall(r"^\S", now, re.MULTILINE)))
    return 0


if __name__ == "__main__":
    sys.exit(main(sys.argv[1:]))
