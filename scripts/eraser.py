"""Removes the contracts from Rattle source, so that only Rust remains.

It removes only ghost forms: `requires` and `ensures` clauses, ghost items, fields, and imports, `tactic` attributes,
`impl Model` blocks, `Drop` as a derive or a bound, and modules of tests beside the code. It keeps every other token and
every comment, but refuses source that it does not know."""

import re

# A group in braces. No source nests braces more deeply.
GROUP = r"\{[^{}]*\}"
for _ in range(12):
    GROUP = rf"\{{[^{{}}]*(?:{GROUP}[^{{}}]*)*\}}"
FORMS = re.compile("|".join(rf"\s*{form}" for form in (
    # The star and the name of a clause are optional.
    rf"\b(?:requires|ensures)\b\s*\*?\s*(?:\w+\s*)?{GROUP}",
    r"\bghost\s+use\b[^;]*;",
    rf"\bghost\s+\w+\s*[:=]\s*{GROUP}\s*[,;]",
    r"#!?\[tactic\b[^]]*\]",
    rf"\bimpl\b[^{{;]*\bModel\b[^{{;]*{GROUP}",
    r"\buse\s+std::marker::Model;",
    r"#\[cfg\(test\)\]\s*mod\s+tests;",
    r"(?:[+,]|(?<=\w):)\s*Drop\b",
)))
# The start of an item that ends with a semicolon.
ITEM = r"(?:pub )?(?:use|mod|const)\b"
# The words that must not remain.
GHOST = {"ghost", "requires", "ensures", "tactic", "Model", "Drop"}
# Comments, strings, and characters, in which brackets and words do not count.
OPAQUE = re.compile(r"""//[^\n]*|b?"(?:\\.|[^"\\])*"|b?'(?:\\[^']*|[^'\\])'""", re.DOTALL)


class Refused(Exception):
    """The error for a source that the eraser does not know."""


def checked(form):
    """Returns an empty string instead of a form, whose brackets must be paired."""
    if any(form[0].count(left) != form[0].count(right) for left, right in ("()", "[]")):
        raise Refused(f"a bracket is not closed in {form[0]}")
    return ""


def without(pattern, text):
    """Removes the matches of a pattern from a text, but does not search comments, strings, or characters. Numbers
    replace these during the search, and those outside the matches are restored."""
    opaque = OPAQUE.findall(text)
    numbers = iter(range(len(opaque)))
    bare = OPAQUE.sub(lambda _: f"\0{next(numbers)}\0", text)
    if re.search(r"/\*|\bb?r#*\0", bare):
        raise Refused("block comments and raw strings are not known")
    bare = re.sub(pattern, checked, bare)
    return bare, re.sub("\0(\\d+)\0", lambda number: opaque[int(number[1])], bare)


def erase(text):
    """Returns a source without its ghost forms."""
    bare, text = without(FORMS, text)
    for word in re.findall(r"\w+|[^\0-\x7f]", bare):
        if word in GHOST or not word.isascii():
            raise Refused(f"{word} is left")
    return text


def leave_out(text, begin):
    """Returns the text without the items that start with `begin`, and without their comments."""
    rest = "[^;]*;" if re.match(ITEM, begin) else rf"[^{{]*{GROUP}"
    left = without(re.compile(rf"^(?:[ \t]*\0\d+\0\n)*[ \t]*{re.escape(begin)}\b{rest}", re.MULTILINE), text)[1]
    if left == text:
        raise Refused(f"no item begins {begin!r}")
    return left
