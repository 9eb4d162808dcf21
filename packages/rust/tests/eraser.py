#!/usr/bin/env python3
# reads: packages/rust scripts crates
"""Tests scripts/eraser.py with text that no source contains: braces in clauses, text to keep, and text to refuse. Then
compares each source of the Rust crate with its Rattle source, using separate patterns. Without the known ghost forms
and the rows of scripts/rust_crate, both must have the same tokens."""

import re
import runpy
import sys
from difflib import unified_diff
from pathlib import Path
from types import SimpleNamespace

sys.path[0:0] = [str(Path(__file__).parents[3] / folder) for folder in ("tests", "scripts")]
from cases import TOP, compare, finish, tell  # noqa: E402
from eraser import ITEM, Refused, erase  # noqa: E402

rust_crate = SimpleNamespace(**runpy.run_path(str(TOP / "scripts" / "rust_crate")))

# The comparison of the sources has each form that they contain.
ERASED = {
    "nested braces": ("fn f() ensures { record { seed = { x } } } { a }", "fn f() { a }"),
    "a brace in a comment of a clause": ("fn f() ensures { x // }\n } { a }", "fn f() { a }"),
    "a brace in a string of a clause": ('fn f() ensures { "}" } { a }', "fn f() { a }"),
}
KEPT = {
    "a clause in a string": 'f("requires { x }");',
    "a clause in a comment": "// ensures { x }\nf();",
    "a clause in a doc comment": "/// ghost use a;\nfn f() {}",
    "an implementation": "impl A for B { fn f() {} }",
    "an attribute": "#[inline(always)] fn f() {}",
    "a character that is a quote": "let q = '\"'; let b = b'{'; let l: &'a str;",
    "an escaped quote": 'f("\\"requires {");',
    "a word with a ghost word in it": "let ensures_all = ghosts;",
}
REFUSED = {
    "a ghost function": "ghost fn f() {}",
    "a clause without braces": "fn f() requires x;",
    "a ghost member without an end": "ghost eq = { x } fn f() {}",
    "a bracket that is not closed": "fn f() requires { ( } {}",
    "a sign of contracts": "let x = λ y;",
    "Drop in the front of a derive": "#[derive(Drop, Debug)] struct A;",
    "a block comment": "/* requires { x } */",
    "a raw string": 'f(r"requires {");',
}

# The forms again, each as its tokens with a space after each. GROUP is a group in braces.
GROUP = r"{ [^{}]*} "
for _ in range(9):
    GROUP = rf"{{ (?:[^{{}}]|{GROUP})*}} "
FORMS = "|".join((
    rf"(?:requires|ensures) (?:\* )?(?:\w+ )?{GROUP}",
    "ghost use [^;]*; ",
    rf"ghost \w+ [:=] {GROUP}[,;] ",
    r"# (?:! )?\[ tactic [^]]*\] ",
    rf"impl (?:< [^{{]*?> )?Model (?:< [^{{]*?> )?for [^{{]*{GROUP}",
    "use std : : marker : : Model ; ",
    r"# \[ cfg \( test \) \] mod tests ; ",
    "[+,:] Drop ",
))
# What only Rust has, as tokens, and what Rattle has in its place: lints, constant functions, and in files with these
# other loops and reads. Each rule is applied until it matches no more.
BODY = rf"(?:[^{{}}]|{GROUP})*"
RUST = (
    (r"# \[ must_use \] ", ""),
    (r"# \[ doc \( hidden \) \] (?=pub fn write_[iu])", ""),
    (rf"const_fn ! {{ ([^{{}}]*?)const fn ({BODY})}} ", r"\1fn \2"),
    (rf"let mut (\w+) = 0 ; while \1 < (\w+) {{ ({BODY}?)\1 \+ = 1 ; }} ", r"for \1 in 0 . . \2 { \3} "),
    (r"(\w+) \. split_at \( ([^()]*)\) \. 1 ", r"& \1 [ \2. . ] "),
    (r"crate : : macros : : array \( (\w+) , (\w+) \) ", r"\1 [ \2 . . \2 + N ] . try_into ( ) . unwrap ( ) "),
    (r"crate : : macros : : word \( (\w+) , (\w+) \) ",
     r"u64 : : from_le_bytes ( \1 [ \2 . . \2 + 8 ] . try_into ( ) . unwrap ( ) ) "),
    (r"u32 : : from_le_bytes (\( \w+ \[ \w+ \. \. \w+ \+ )N ", r"u32 : : from_le_bytes \g<1>4 "),
)
# What a contract ensures, which the comment repeats for Rust.
PROVED = re.compile(r"^ *///\n *///[ ]# Proved\n *///\n((?: *///[ ]- `.*`\n)+)", re.M)
# Preconditions, of which Rust's callers know only the panic.
CHECKED = (r"In Rust, if (.*)\. Rattle's checker refuses such a call\.", r"If \1.")
WORDS = re.compile(r'//[^\n]*|b?"(?:[^"\\]|\\.)*"|\'\\?.\'|\w+|\S', re.DOTALL)


def words_of(text):
    """Returns the tokens and comments of a text, one per line. Brackets in strings and comments do not count."""
    words = (word.rstrip() for word in WORDS.findall(text))
    return "".join(f"{re.sub('[][{}();]', '', word) if len(word) > 1 else word}\n" for word in words)


def without(pattern, text):
    return re.sub(f"^(?:{pattern})".replace(" ", "\n"), "", text, flags=re.MULTILINE)


def as_in_rattle(rust):
    """Returns the tokens of a text of Rust, with those of Rattle where RUST has other ones."""
    text = words_of(rust)
    for pattern, new in RUST if "const_fn!" in rust else RUST[:2]:
        pattern, new, before = re.compile(f"^{pattern}".replace(" ", "\n"), re.MULTILINE), new.replace(" ", "\n"), None
        while text != before:
            before, text = text, pattern.sub(new, text)
    return text


def difference(rattle, rust, left_out):
    """Returns the lines in which Rattle's text, without its ghost forms and the omitted items, differs from Rust's."""
    theirs = without(FORMS, words_of(re.sub(*CHECKED, PROVED.sub("", rattle))))
    for begin in left_out:
        words = re.escape(words_of(begin).removesuffix("\n"))
        rest = "[^;]*; " if re.match(ITEM, begin) else rf"[^{{]*{GROUP}"
        theirs = without(rf"(?:///.* )*{words}\w* {rest}", theirs)
    # rustfmt decides whether a comma precedes a closing bracket.
    texts = [without(r", (?=[]})>] )", text).splitlines() for text in (theirs, as_in_rattle(PROVED.sub("", rust)))]
    clauses = re.findall(r"/// - `(.*)`", "".join(PROVED.findall(rust)))
    known = " ".join(PROVED.sub("", rattle).split())
    yield from (f"no contract ensures {clause}" for clause in clauses if f"{{ {clause} }}" not in known)
    yield from unified_diff(*texts, "Rattle", "Rust", lineterm="")


def rattle_of(crate, name):
    return (TOP / "crates" / crate / "src" / f"{name}.rt").read_text()


def rust_of(target):
    return (TOP / "packages" / "rust" / f"{target}.rs").read_text()


def numbers(text):
    """Returns the long numbers in a text, which a row or a pattern of scripts/rust_crate could mistype."""
    return set(re.findall(r"\b\d\w{3,}", text))


def erased(text):
    try:
        return erase(text)
    except Refused as refused:
        return refused


def assertions():
    """Yields each test of the crate with the numbers of its assertions in Rattle and in Rust."""
    for crate, name, target in rust_crate.sources(rust_crate.TESTS):
        text = rattle_of(crate, name)
        for begin in rust_crate.LEFT_OUT.get(target, []):
            end = "[^;]*;" if re.match(ITEM, begin) else r".*?\n}\n"
            text = re.sub(re.escape(begin) + end, "", text, count=1, flags=re.DOTALL)
        yield target, *(len(re.findall(r"\bassert(?:_eq|_ne)?!\(", it)) for it in (text, rust_of(target)))


for name, (old, new) in ERASED.items():
    compare(name, erased(old), new)
for name, text in KEPT.items():
    compare(f"{name} is kept", erased(text), text)
for name, text in REFUSED.items():
    tell(f"{name} is refused", *[f"{erased(text)!r}"] * (not isinstance(erased(text), Refused)))
for name, wanted, found in assertions():
    compare(f"{name}.rs has the assertions of its source", found, wanted)
made = {file for file in TOP.glob("packages/rust/**/*.rs") if file.read_text().startswith("// Made by scripts/")}
tables = rust_crate.SOURCES, rust_crate.TESTS, rust_crate.REPLAY, rust_crate.TOOLS
wanted = {TOP / f"packages/rust/{target}.rs" for _, _, target in rust_crate.sources(*tables)}
compare("the generated files", sorted(map(str, made ^ wanted)), [])
for crate, name, target in rust_crate.sources(rust_crate.SOURCES, rust_crate.TOOLS):
    rust = rust_of(target).partition("\n\n")[2]
    found = difference(rust_crate.read(crate, name, target), rust, rust_crate.LEFT_OUT.get(target, []))
    strange = numbers(rust) - numbers(rattle_of(crate, name))
    tell(f"{crate}/{name}.rs is {crate}/{name}.rt without its contracts", *found, *sorted(strange))
finish()
