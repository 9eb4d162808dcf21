"""What the release checks of must-fail edits share."""


def crate_of(edit):
    """Returns the crate of an edit."""
    return edit.parent.parent.name


def has_twin(edit):
    """Returns whether an edit has a twin, another text with the same meaning as the old one."""
    return "\n# twin: " in edit.read_text()


def apply(edit, crates, is_twin=False):
    """Applies an edit or its twin in a copy of crates/. Returns its function, its goal if it has one, and the old
    files."""
    folder = crates / crate_of(edit)
    head, *lines = (line.removeprefix("# ").split(": ", 1) for line in edit.read_text().splitlines())
    ends, before = head[1].split(", "), {}
    if is_twin:
        twin = {"proved": ends[0], "twin of": next(text for key, text in lines if key == "old")} | dict(lines)
        ends = [twin["proved"]]
        lines = [line for line in lines if line[0] == "file"] + [["old", twin["twin of"]], ["new", twin["twin"]]]
    for key, text in lines:
        if key == "file":
            file = folder / text
            before.setdefault(file, file.read_text())
        elif key == "old":
            old = text
        elif key == "new" and file.read_text().count(old) != 1:
            raise ValueError(f"{edit.name}: its old text is in {file.name} {file.read_text().count(old)} times")
        elif key == "new":
            file.write_text(file.read_text().replace(old, text))
    return *ends, before
